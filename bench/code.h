/* The 8b10b character code in plain C: 256 data codes, K28.3 and K28.5. */
#ifndef CODE_H
#define CODE_H
#include <stdint.h>

static const uint8_t SIX[32] = {
    0x27, 0x1D, 0x2D, 0x31, 0x35, 0x29, 0x19, 0x38, 0x39, 0x25, 0x15, 0x34, 0x0D, 0x2C, 0x1C, 0x17,
    0x1B, 0x23, 0x13, 0x32, 0x0B, 0x2A, 0x1A, 0x3A, 0x33, 0x26, 0x16, 0x36, 0x0E, 0x2E, 0x1E, 0x2B};
static const uint8_t FOUR[8] = {0xB, 0x9, 0x5, 0xC, 0xD, 0xA, 0x6, 0xE};

static int next_half(int half, int width, int disparity)
{
    int twice = 2 * __builtin_popcount(half);
    if (twice > width || half == (1 << width / 2) - 1) return 1;
    if (twice < width || half == (1 << width) - (1 << width / 2)) return 0;
    return disparity;
}

static int next_disparity(int character, int disparity)
{
    return next_half(character & 15, 4, next_half(character >> 4, 6, disparity));
}

static int half_at(int half, int width, int disparity)
{
    int balanced = 2 * __builtin_popcount(half) == width;
    int flips = !balanced || half == (1 << width) - (1 << width / 2);
    return disparity && flips ? (1 << width) - 1 - half : half;
}

static int encode_code(int kind, int byte, int disparity)
{
    if (kind) {
        int minus = byte == 0xBC ? 0x0FA : 0x0F3;
        return disparity ? 1023 - minus : minus;
    }
    int low = byte & 31, high = byte >> 5;
    int six = half_at(SIX[low], 6, disparity);
    int middle = next_half(six, 6, disparity);
    int four = half_at(FOUR[high], 4, middle);
    if (high == 7 && !middle && (low == 17 || low == 18 || low == 20)) four = 0x7;
    if (high == 7 && middle && (low == 11 || low == 13 || low == 14)) four = 0x8;
    return six << 4 | four;
}

/* What each character stands for in each column: -1, or 256 * kind + byte. Filled once. */
static int16_t CODE_OF[2][1024];
static uint8_t UNLIKE[2][256];

static void fill_tables(void)
{
    for (int d = 0; d < 2; d++) {
        for (int c = 0; c < 1024; c++) CODE_OF[d][c] = -1;
        for (int b = 0; b < 256; b++) CODE_OF[d][encode_code(0, b, d)] = b;
        CODE_OF[d][encode_code(1, 0x7C, d)] = 256 + 0x7C;
        CODE_OF[d][encode_code(1, 0xBC, d)] = 256 + 0xBC;
    }
    for (int k = 0; k < 2; k++)
        for (int b = 0; b < 256; b++) UNLIKE[k][b] = encode_code(k, b, 0) != encode_code(k, b, 1);
}
#endif
