/* The same operations with MPFI at 53 bits: nanoseconds for one working of 4,096 instructions. */
#include <mpfi.h>
#include <mpfi_io.h>
#include <stdio.h>
#include <stdlib.h>
#include <time.h>

#include "sheet.h"

enum { IMPOSSIBLE, CERTAIN, OPEN };

static int of(int t, int f) { return t ? (f ? OPEN : CERTAIN) : IMPOSSIBLE; }

/* x / y for y < 0 into x, and for y > 0 into y. */
static void parted(mpfi_ptr x, mpfi_ptr y, mpfi_ptr spare) {
    mpfi_t half;
    mpfi_init(half);
    mpfi_set(half, y);
    if (mpfr_sgn(&half->right) > 0) mpfr_set_zero(&half->right, -1);
    mpfi_div(spare, x, half);
    mpfi_set(half, y);
    if (mpfr_sgn(&half->left) < 0) mpfr_set_zero(&half->left, 1);
    mpfi_div(y, x, half);
    mpfi_set(x, spare);
    mpfi_clear(half);
}

static void work(const Instruction *sheet, int count, mpfi_t *lines, int *flags, mpfi_t *r, int *v, mpfi_ptr third, mpfi_ptr spare) {
    int n = 0, m = 0;
    for (int k = 0; k < count; k++) {
        Instruction i = sheet[k];
        switch (i.operation) {
        case 0x01: mpfi_set(r[n++], lines[i.argument]); break;
        case 0x02: mpfi_set_si(r[n], 1); mpfi_div(r[n], r[n], third); n++; break;
        case 0x03: mpfi_set(lines[i.argument], r[--n]); break;
        case 0x0F: mpfi_set(r[n], r[n - 1]); n++; break;
        case 0x04: mpfi_add(r[n - 2], r[n - 2], r[n - 1]); n--; break;
        case 0x05: mpfi_sub(r[n - 2], r[n - 2], r[n - 1]); n--; break;
        case 0x06: mpfi_mul(r[n - 2], r[n - 2], r[n - 1]); n--; break;
        case 0x07: mpfi_div(r[n - 2], r[n - 2], r[n - 1]); n--; break;
        case 0x08: parted(r[n - 2], r[n - 1], spare); break;
        case 0x09: mpfi_neg(r[n - 1], r[n - 1]); break;
        case 0x0A: mpfi_mul(spare, r[n - 1], r[n - 1]); mpfi_set(r[n - 1], spare); break;
        case 0x0B: n--; mpfr_min(&r[n - 1]->left, &r[n - 1]->left, &r[n]->left, MPFR_RNDD); mpfr_min(&r[n - 1]->right, &r[n - 1]->right, &r[n]->right, MPFR_RNDU); break;
        case 0x0C: n--; mpfr_max(&r[n - 1]->left, &r[n - 1]->left, &r[n]->left, MPFR_RNDD); mpfr_max(&r[n - 1]->right, &r[n - 1]->right, &r[n]->right, MPFR_RNDU); break;
        case 0x0D: mpfi_union(r[n - 2], r[n - 2], r[n - 1]); n--; break;
        case 0x0E: mpfi_intersect(r[n - 2], r[n - 2], r[n - 1]); n--; break;
        case 0x10: n -= 2; v[m++] = of(mpfr_less_p(&r[n]->left, &r[n + 1]->right), mpfr_lessequal_p(&r[n + 1]->left, &r[n]->right)); break;
        case 0x11: n -= 2; v[m++] = of(mpfr_lessequal_p(&r[n]->left, &r[n + 1]->right), mpfr_less_p(&r[n + 1]->left, &r[n]->right)); break;
        case 0x12: n -= 2; v[m++] = of(mpfr_lessequal_p(&r[n]->left, &r[n + 1]->right) && mpfr_lessequal_p(&r[n + 1]->left, &r[n]->right), mpfr_less_p(&r[n]->left, &r[n + 1]->right) || mpfr_less_p(&r[n + 1]->left, &r[n]->right)); break;
        case 0x13: m--; v[m - 1] = v[m - 1] == IMPOSSIBLE || v[m] == IMPOSSIBLE ? IMPOSSIBLE : (v[m - 1] == CERTAIN && v[m] == CERTAIN ? CERTAIN : OPEN); break;
        case 0x14: m--; v[m - 1] = v[m - 1] == CERTAIN || v[m] == CERTAIN ? CERTAIN : (v[m - 1] == IMPOSSIBLE && v[m] == IMPOSSIBLE ? IMPOSSIBLE : OPEN); break;
        case 0x15: v[m - 1] = v[m - 1] == OPEN ? OPEN : (v[m - 1] == CERTAIN ? IMPOSSIBLE : CERTAIN); break;
        case 0x16: m--; n--; if (v[m] == IMPOSSIBLE) mpfi_set(r[n - 1], r[n]); else if (v[m] == OPEN) mpfi_union(r[n - 1], r[n - 1], r[n]); break;
        default: flags[i.argument] = v[--m]; break;
        }
    }
}

int main(void) {
    static Instruction sheet[4096];
    int count = fill(sheet);
    static mpfi_t lines[32], ranges[256];
    static int flags[32], verdicts[64];
    mpfi_t third, spare;
    mpfr_set_default_prec(53);
    for (int i = 0; i < 32; i++) mpfi_init(lines[i]);
    for (int i = 0; i < 256; i++) mpfi_init(ranges[i]);
    mpfi_init_set_si(third, 3);
    mpfi_init(spare);
    for (int i = 0; i < 8; i++) {
        mpfi_interv_si(lines[i], ENTRIES[i][0], ENTRIES[i][1]);
        mpfi_div_si(lines[i], lines[i], 10);
    }
    double best = 1e300;
    for (int run = 0; run < 7; run++) {
        struct timespec a, b;
        clock_gettime(CLOCK_MONOTONIC, &a);
        for (int round = 0; round < ROUNDS; round++) work(sheet, count, lines, flags, ranges, verdicts, third, spare);
        clock_gettime(CLOCK_MONOTONIC, &b);
        double took = ((b.tv_sec - a.tv_sec) * 1e9 + (b.tv_nsec - a.tv_nsec)) / ROUNDS;
        if (took < best) best = took;
    }
    printf("mpfi 53 %.0f\n", best);
    return 0;
}
