/* The program of tests/by_hand/walk. Version 2 looks at one thing more; version 3 rounds by the digits that it writes. */
#include <stdio.h>
#include <stdlib.h>
#include <string.h>

#define KEPT __attribute__((noinline)) static unsigned

struct item {
    unsigned cents, count, rate;
};

static unsigned seed = 1;

KEPT next_random(void) {
    seed = seed * 1103515245u + 12345u;
    return seed >> 8;
}

/* The costliest function of each version. */
KEPT checksum(struct item it) {
    unsigned sum = 7;
    for (int bit = 0; bit < 96; bit++)
        sum = (sum << 1) ^ (sum >> 31 ? 0x04c11db7u : 0) ^ it.cents ^ (it.count << bit % 16);
    return sum;
}

/* Up to a multiple of five. */
KEPT rounded(unsigned cents) {
#if VERSION == 3
    char text[16];
    do snprintf(text, sizeof text, "%u", cents++); while (!strchr("05", text[strlen(text) - 1]));
    return cents - 1;
#else
    return (cents + 4) / 5 * 5;
#endif
}

KEPT tax(struct item it) { return rounded(it.cents * it.count * it.rate / 100); }

KEPT invoice(struct item it) { return it.cents * it.count + tax(it); }

int main(int count, char **words) {
    unsigned long total = 0;
    for (int items = count > 1 ? atoi(words[1]) : 2000; items > 0; items--) {
        struct item it;
        it.cents = 100 + next_random() % 9900;
        it.count = 1 + next_random() % 9;
        it.rate = 5 + next_random() % 15;
#if VERSION == 2
        it.cents += it.rate == 4;
#endif
        total += invoice(it) + checksum(it);
    }
    printf("%lu\n", total);
    return 0;
}
