// The same operations with Boost.Interval at double: nanoseconds for one working of 4,096 instructions.
#include <boost/numeric/interval.hpp>
#include <chrono>
#include <cstdio>
#include <vector>

#include "sheet.h"

namespace ni = boost::numeric::interval_lib;
using Interval = boost::numeric::interval<double, ni::policies<ni::save_state<ni::rounded_arith_opp<double>>, ni::checking_base<double>>>;

enum Verdict { IMPOSSIBLE, CERTAIN, OPEN };

static Verdict of(bool t, bool f) { return t ? (f ? OPEN : CERTAIN) : IMPOSSIBLE; }

static void work(const std::vector<Instruction> &sheet, std::vector<Interval> &lines, std::vector<Verdict> &flags, Interval *r, Verdict *v) {
    int n = 0, m = 0;
    for (const Instruction &i : sheet) {
        switch (i.operation) {
        case 0x01: r[n++] = lines[i.argument]; break;
        case 0x02: r[n++] = Interval(1.0) / Interval(3.0); break;
        case 0x03: lines[i.argument] = r[--n]; break;
        case 0x0F: r[n] = r[n - 1]; n++; break;
        case 0x04: r[n - 2] = r[n - 2] + r[n - 1]; n--; break;
        case 0x05: r[n - 2] = r[n - 2] - r[n - 1]; n--; break;
        case 0x06: r[n - 2] = r[n - 2] * r[n - 1]; n--; break;
        case 0x07: r[n - 2] = r[n - 2] / r[n - 1]; n--; break;
        case 0x08: {
            bool more;
            Interval first = ni::division_part1(r[n - 2], r[n - 1], more);
            Interval second = more ? ni::division_part2(r[n - 2], r[n - 1]) : first;
            r[n - 2] = first;
            r[n - 1] = second;
            break;
        }
        case 0x09: r[n - 1] = -r[n - 1]; break;
        case 0x0A: r[n - 1] = r[n - 1] * r[n - 1]; break;
        case 0x0B: r[n - 2] = boost::numeric::min(r[n - 2], r[n - 1]); n--; break;
        case 0x0C: r[n - 2] = boost::numeric::max(r[n - 2], r[n - 1]); n--; break;
        case 0x0D: r[n - 2] = boost::numeric::hull(r[n - 2], r[n - 1]); n--; break;
        case 0x0E: r[n - 2] = boost::numeric::intersect(r[n - 2], r[n - 1]); n--; break;
        case 0x10: n -= 2; v[m++] = of(r[n].lower() < r[n + 1].upper(), r[n + 1].lower() <= r[n].upper()); break;
        case 0x11: n -= 2; v[m++] = of(r[n].lower() <= r[n + 1].upper(), r[n + 1].lower() < r[n].upper()); break;
        case 0x12: n -= 2; v[m++] = of(r[n].lower() <= r[n + 1].upper() && r[n + 1].lower() <= r[n].upper(), r[n].lower() < r[n + 1].upper() || r[n + 1].lower() < r[n].upper()); break;
        case 0x13: m--; v[m - 1] = v[m - 1] == IMPOSSIBLE || v[m] == IMPOSSIBLE ? IMPOSSIBLE : (v[m - 1] == CERTAIN && v[m] == CERTAIN ? CERTAIN : OPEN); break;
        case 0x14: m--; v[m - 1] = v[m - 1] == CERTAIN || v[m] == CERTAIN ? CERTAIN : (v[m - 1] == IMPOSSIBLE && v[m] == IMPOSSIBLE ? IMPOSSIBLE : OPEN); break;
        case 0x15: v[m - 1] = v[m - 1] == OPEN ? OPEN : (v[m - 1] == CERTAIN ? IMPOSSIBLE : CERTAIN); break;
        case 0x16: m--; n--; r[n - 1] = v[m] == CERTAIN ? r[n - 1] : (v[m] == IMPOSSIBLE ? r[n] : boost::numeric::hull(r[n - 1], r[n])); break;
        default: flags[i.argument] = v[--m]; break;
        }
    }
}

int main() {
    std::vector<Instruction> sheet = instructions();
    double best = 1e300, sum = 0;
    for (int run = 0; run < 7; run++) {
        std::vector<Interval> lines(32);
        std::vector<Verdict> flags(32);
        for (int i = 0; i < 8; i++) lines[i] = Interval(ENTRIES[i][0], ENTRIES[i][1]) / Interval(10.0);
        Interval ranges[256];
        Verdict verdicts[64];
        auto start = std::chrono::steady_clock::now();
        for (int round = 0; round < ROUNDS; round++) work(sheet, lines, flags, ranges, verdicts);
        double took = std::chrono::duration<double, std::nano>(std::chrono::steady_clock::now() - start).count() / ROUNDS;
        if (took < best) best = took;
        for (auto &line : lines) sum += line.lower() + line.upper();
    }
    fprintf(stderr, "boost checksum %g\n", sum);
    printf("boost double %.0f\n", best);
}
