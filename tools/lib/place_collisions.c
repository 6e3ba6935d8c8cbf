// Prints handles whose rows, each from the region r1, stand at one place of the kit's `IndexMap` and look alike there,
// where it hashes without a key: place_collisions COUNT.
#include <stdint.h>
#include <stdio.h>
#include <stdlib.h>

#define MULTIPLIER UINT64_C(0x9e3779b97f4a7c15)
enum { BEGIN = 8, LENGTH = 80, LAST = 4, SIGNS = 64 };

static const char SIGN[] = "abcdefghijklmnopqrstuvwxyzABCDEFGHIJKLMNOPQRSTUVWXYZ0123456789+-";

static uint64_t folded(uint64_t state, uint64_t word, uint64_t octets) {
    unsigned __int128 product = (unsigned __int128)(state ^ word) * (MULTIPLIER ^ 2 * octets);
    return (uint64_t)product ^ (uint64_t)(product >> 64);
}

static uint64_t with_octet(uint64_t state, unsigned octet) {
    return folded(state, octet * UINT64_C(0x010101), 1);
}

// The place among the groups, by the lowest bits, and the tag, by the highest.
static uint32_t seen_of(uint64_t state, uint32_t groups) {
    return (uint32_t)(state ^ state >> 32) & (0xff000000u | (groups - 1));
}

int main(int count, char **words) {
    int wanted = count == 2 ? atoi(words[1]) : 0;
    uint32_t groups = 1;
    while (9 * groups < (uint32_t)wanted) groups *= 2;
    uint64_t drawn = 1, begin = folded(UINT64_C(0x243f6a8885a308d3), 2, 8);
    char handle[LENGTH + 1] = "20.1/abc";
    begin = folded(with_octet(with_octet(begin, 'r'), '1'), LENGTH, 8);
    for (int at = 0; at < BEGIN; at++) begin = with_octet(begin, handle[at]);
    while (wanted > 0) {
        uint64_t state = begin;
        for (int at = BEGIN; at < LENGTH - LAST; at++) {
            drawn ^= drawn << 13, drawn ^= drawn >> 7, drawn ^= drawn << 17;
            handle[at] = SIGN[drawn % SIGNS];
            state = with_octet(state, handle[at]);
        }
        for (int number = 0; number < SIGNS * SIGNS && wanted > 0; number++) {
            handle[LENGTH - 4] = SIGN[number / SIGNS], handle[LENGTH - 3] = SIGN[number % SIGNS];
            uint64_t third = with_octet(with_octet(state, handle[LENGTH - 4]), handle[LENGTH - 3]);
            for (int last = 0; last < SIGNS * SIGNS && wanted > 0; last++) {
                uint64_t fourth = with_octet(with_octet(third, SIGN[last / SIGNS]), SIGN[last % SIGNS]);
                if (seen_of(fourth, groups) != 0x5a000000u) continue;
                handle[LENGTH - 2] = SIGN[last / SIGNS], handle[LENGTH - 1] = SIGN[last % SIGNS];
                puts(handle);
                wanted--;
            }
        }
    }
    return 0;
}
