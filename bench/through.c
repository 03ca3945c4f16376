/* The rings of `through` in plain C: 'through packed N' or 'through word N'. */
#include <stdint.h>
#include <stdio.h>
#include <stdlib.h>
#include <string.h>

static uint8_t bytes[125];
static uint16_t words[100];
static unsigned size = 1000, front, count, gone;

static int put_packed(unsigned c)
{
    if (c > 1023) return 1;
    if (count + 10 > size) return 2;
    for (int k = 9; k >= 0; k--, count++) {
        unsigned p = front + count < size ? front + count : front + count - size;
        uint8_t mask = 1 << (7 - p % 8);
        bytes[p / 8] = c >> k & 1 ? bytes[p / 8] | mask : bytes[p / 8] & ~mask;
    }
    return 0;
}
static int turn_packed(unsigned place)
{
    if (place >= count) return 4;
    unsigned p = front + place < size ? front + place : front + place - size;
    bytes[p / 8] ^= 1 << (7 - p % 8);
    return 0;
}
static int take_packed(void)
{
    if (!count) return -1;
    int bit = bytes[front / 8] >> (7 - front % 8) & 1;
    front = front + 1 < size ? front + 1 : 0;
    count--;
    return bit;
}

static int put_word(unsigned c)
{
    if (c > 1023) return 1;
    if (10 * count - gone + 10 > size) return 2;
    words[front + count < 100 ? front + count : front + count - 100] = c;
    count++;
    return 0;
}
static int turn_word(unsigned place)
{
    if (place >= 10 * count - gone) return 4;
    unsigned n = gone + place, k = front + n / 10;
    words[k < 100 ? k : k - 100] ^= 1 << (9 - n % 10);
    return 0;
}
static int take_word(void)
{
    if (!count) return -1;
    int bit = words[front] >> (9 - gone) & 1;
    if (++gone == 10) {
        gone = 0, count--;
        front = front + 1 < 100 ? front + 1 : 0;
    }
    return bit;
}

#define GO(put, turn, take)                          \
    for (uint64_t r = 0; r < rounds; r++) {          \
        put(r % 1024);                               \
        turn(r % 10);                                \
        for (int i = 0; i < 10; i++) {               \
            int bit = take();                        \
            if (bit >= 0) bits++, ones += bit;       \
        }                                            \
    }

int main(int argc, char **argv)
{
    uint64_t rounds = strtoull(argv[2], 0, 10), bits = 0, ones = 0;
    if (argc > 2 && !strcmp(argv[1], "packed")) GO(put_packed, turn_packed, take_packed)
    else GO(put_word, turn_word, take_word)
    printf("%llu bits, %llu ones\n", (unsigned long long)bits, (unsigned long long)ones);
    return 0;
}
