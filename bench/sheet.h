/* The inputs of the benchmark, as in sheet.rs. */
#ifndef SHEET_H
#define SHEET_H
#define ROUNDS 400

typedef struct {
    unsigned char operation, argument;
} Instruction;

static const int ENTRIES[8][2] = {{102, 104}, {42, 46}, {-13, 21}, {70, 71}, {15, 16}, {-90, 120}, {-20, 30}, {-500, 500}};

static const Instruction BLOCK[47] = {
    {0x01, 0}, {0x01, 1}, {0x04, 0}, {0x01, 2}, {0x06, 0}, {0x02, 0}, {0x05, 0}, {0x03, 8},
    {0x01, 3}, {0x01, 4}, {0x07, 0}, {0x09, 0}, {0x0F, 0}, {0x0A, 0}, {0x0B, 0}, {0x03, 9},
    {0x01, 5}, {0x01, 6}, {0x08, 0}, {0x0D, 0}, {0x01, 7}, {0x0E, 0}, {0x03, 10},
    {0x01, 0}, {0x01, 1}, {0x0C, 0}, {0x03, 11},
    {0x01, 0}, {0x01, 1}, {0x10, 0}, {0x01, 2}, {0x01, 3}, {0x11, 0}, {0x13, 0}, {0x15, 0},
    {0x01, 4}, {0x01, 5}, {0x12, 0}, {0x14, 0},
    {0x01, 0}, {0x01, 1}, {0x16, 0}, {0x03, 12},
    {0x01, 0}, {0x01, 1}, {0x10, 0}, {0x17, 0},
};

static const Instruction REST[7] = {{0x01, 0}, {0x09, 0}, {0x03, 13}, {0x01, 1}, {0x03, 14}, {0x01, 2}, {0x03, 15}};

/* The 4,096 instructions; answers how many there are. */
static int fill(Instruction *all) {
    int n = 0;
    for (int block = 0; block < 87; block++)
        for (int i = 0; i < 47; i++) all[n++] = BLOCK[i];
    for (int i = 0; i < 7; i++) all[n++] = REST[i];
    return n;
}

#ifdef __cplusplus
#include <vector>
static std::vector<Instruction> instructions() {
    std::vector<Instruction> all(4096);
    fill(all.data());
    return all;
}
#endif
#endif
