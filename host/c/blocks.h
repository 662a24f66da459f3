/* Blocks of memory for the memory checker's program, filled with a pattern, and the checks that it counts. */
#ifndef BLOCKS_H
#define BLOCKS_H

#include "lampthistle.h"
#include <stdio.h>
#include <stdlib.h>
#include <string.h>

enum { PATTERN = 0x5A, KINDS = 35 };

typedef struct block {
    uint8_t *at;
    size_t bytes;
} block;

static unsigned long answers[KINDS];
static int faults;

static void check(int good, const char *what, int k) {
    if (!good) printf("input %d: %s\n", k, what);
    faults += !good;
}

static block new_block(size_t bytes) {
    block b = {NULL, bytes};
    if (bytes == 0) return b;
    b.at = (uint8_t *)malloc(bytes);
    if (!b.at) exit(2);
    memset(b.at, PATTERN, bytes);
    return b;
}

/* The block without its guard cells. */
static uint8_t *within(block b, size_t guard) {
    return b.at ? b.at + guard : NULL;
}

/* Whether all of the block but `bytes` from `from` on holds the pattern. */
static int kept(block b, size_t from, size_t bytes) {
    for (size_t i = 0; i < b.bytes; i++)
        if ((i < from || i >= from + bytes) && b.at[i] != PATTERN) return 0;
    return 1;
}

/* Fills a block with the pattern again. */
static void refill(block b) {
    if (b.at) memset(b.at, PATTERN, b.bytes);
}

static uint32_t sum(block b) {
    uint32_t h = 1;
    for (size_t i = 0; i < b.bytes; i++) h = h * 31 + b.at[i];
    return h;
}

/* Counts an answer of board_feed, which may have played ticks before a fault. */
static void count_fed(const uint64_t *answer, int k) {
    check(answer[LAMPTHISTLE_NUMBER] < KINDS, "an unknown number", k);
    if (answer[LAMPTHISTLE_NUMBER] < KINDS) answers[answer[LAMPTHISTLE_NUMBER]]++;
}

static void count(const uint64_t *answer, int k) {
    count_fed(answer, k);
    check(answer[LAMPTHISTLE_NUMBER] == 0 || answer[LAMPTHISTLE_COUNT] == 0, "a refusal with a count", k);
}

#endif
