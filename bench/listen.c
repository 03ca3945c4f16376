/* A plain C reading of a recording, by the same rules and with the same output as the program listen. */
#include <stdio.h>
#include "code.h"

enum { LIKE, IS_UNLIKE, REFUSED };

static int hunting = 1, loose, held, place, disparity;
static int reading[4], code[4];
static int synced, count, debt, single;
static unsigned number, pending;

static void settle(void)
{
    for (int i = 0; i < 4; i++) {
        if (reading[i] == LIKE) continue;
        if (pending) printf("%s %u %u\n", reading[i] == REFUSED ? "doubtful" : "vouched", number - pending, number - 1);
        pending = 0;
        return;
    }
}

static void end_dword(void)
{
    int mask = 0;
    for (int i = 0; i < 4; i++) mask |= (reading[i] == REFUSED) << i;
    if (!synced) {
        if (mask) {
            puts("slip");
            hunting = 1, count = 0;
        } else if (code[0] == 256 + 0xBC && ++count == 3) {
            puts("gained");
            synced = 1, count = 0, debt = 0, single = 0, pending = 0;
        }
        return;
    }
    settle();
    if (!mask) {
        printf("dword %u %d %02X %02X %02X %02X\n", number, code[0] >> 8, code[0] & 255, code[1], code[2], code[3]);
        if (single && debt) debt--;
        single = !single;
        pending++;
    } else {
        printf("bad %u %d\n", number, mask);
        single = 0;
        if (++debt == 4) {
            puts("lost");
            synced = 0, hunting = 1, debt = 0;
        }
    }
    number++;
}

static void hear(int bit)
{
    loose = loose << 1 | bit;
    if (hunting) {
        loose &= 127;
        if (held < 7) held++;
        if (held == 7 && (loose == 0x1F || loose == 0x60)) hunting = 0, disparity = loose == 0x60, place = 0;
        return;
    }
    if (++held < 10) return;
    code[place] = CODE_OF[disparity][loose];
    int bad = code[place] < 0 || (place && code[place] > 255);
    reading[place] = bad ? REFUSED : UNLIKE[code[place] >> 8][code[place] & 255] ? IS_UNLIKE : LIKE;
    disparity = next_disparity(loose, disparity);
    loose = 0, held = 0;
    if (++place == 4) {
        place = 0;
        end_dword();
    }
}

static int refused(const uint8_t *bytes, size_t length)
{
    if (length > 65536 || length % 16) return printf("refused 15\n");
    for (size_t r = 0; r < length / 16; r++) {
        const uint8_t *record = bytes + 16 * r;
        if (record[0] > 120) return printf("refused 16 %zu\n", r);
        for (int p = record[0]; p < 120; p++)
            if (record[1 + p / 8] >> (7 - p % 8) & 1) return printf("refused 17 %zu\n", r);
    }
    return 0;
}

int main(void)
{
    static uint8_t bytes[65537];
    size_t length = fread(bytes, 1, sizeof bytes, stdin);
    if (ferror(stdin)) return perror("listen"), 1;
    fill_tables();
    if (refused(bytes, length)) return 0;
    size_t taken = 0;
    for (size_t r = 0; r < length / 16; r++)
        for (int p = 0; p < bytes[16 * r]; p++, taken++) hear(bytes[16 * r + 1 + p / 8] >> (7 - p % 8) & 1);
    printf("end %zu\n", taken);
    return 0;
}
