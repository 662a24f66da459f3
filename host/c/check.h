/* What the C tests share. A check that fails is named with its line, and the others are made all the same. */
#ifndef CHECK_H
#define CHECK_H

#include "lampthistle.h"
#include <stdio.h>
#include <string.h>

/* The smallest module: one empty pattern and no samples. */
enum { SMALLEST = 2108 };

static int checks, failures;

static void check(int good, const char *what, int line) {
    checks++;
    if (good) return;
    failures++;
    printf("  line %d: not so: %s\n", line, what);
}

static void check_answer(const uint64_t *answer, uint64_t number, uint64_t place, uint64_t count, int line) {
    check(answer[LAMPTHISTLE_NUMBER] == number, "the answer's number", line);
    check(answer[LAMPTHISTLE_PLACE] == place, "the answer's place", line);
    check(answer[LAMPTHISTLE_COUNT] == count, "the answer's count", line);
}

#define CHECK(what) check((what) ? 1 : 0, #what, __LINE__)
#define CHECK_ANSWER(answer, number, place, count) check_answer(answer, number, place, count, __LINE__)

/* Makes a module of the first SMALLEST bytes, which are 0. */
static void make_smallest(uint8_t *file) {
    file[950] = 1;
    memcpy(file + 1080, "M.K.", 4);
}

/* The program's last line and its status. */
static int checked(const char *name) {
    printf("%s: %d checks, %d failed\n", name, checks, failures);
    return failures != 0;
}

#endif
