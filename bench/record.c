/* Writes a full recording, 65,536 bytes: dwords of random data with an ALIGN(0) now and then, from minus.
   record [SEED [TURNED]] turns one bit in TURNED thousand, none where it is left out. */
#include <stdio.h>
#include <stdlib.h>
#include "code.h"

static unsigned long long state = 1;
static unsigned next_random(void)
{
    state = state * 6364136223846793005ull + 1442695040888963407ull;
    return (unsigned)(state >> 33);
}

int main(int argc, char **argv)
{
    enum { RECORDS = 4096, BITS = 120 };
    static uint8_t bytes[16 * RECORDS];
    unsigned turned = 0;
    if (argc > 1) state = strtoull(argv[1], 0, 10) * 2 + 1;
    if (argc > 2) turned = (unsigned)atoi(argv[2]);
    int disparity = 0;
    long place = 0;
    for (int n = 0; n < RECORDS * BITS / 40; n++) {
        int align = n < 4 || next_random() % 64 == 0;
        for (int i = 0; i < 4; i++) {
            static const uint8_t ALIGN[4] = {0xBC, 0x4A, 0x4A, 0x7B};
            int character = align ? encode_code(i == 0, ALIGN[i], disparity) : encode_code(0, next_random() & 255, disparity);
            disparity = next_disparity(character, disparity);
            for (int b = 9; b >= 0; b--, place++) {
                int bit = character >> b & 1;
                if (n >= 8 && turned && next_random() % (1000 * turned) == 0) bit ^= 1;
                uint8_t *record = bytes + 16 * (place / BITS);
                record[0] = BITS;
                record[1 + place % BITS / 8] |= bit << (7 - place % BITS % 8);
            }
        }
    }
    return fwrite(bytes, 1, sizeof bytes, stdout) != sizeof bytes;
}
