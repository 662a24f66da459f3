/* What the benchmark prints beside the proved judge: the table of refusals in C, with a plain scan of the cells, and with one flag over
   all cells and no branch between them. Each answers the refusal's number. */
#include <stddef.h>
#include <stdint.h>
#include <string.h>

static uint32_t word(const uint8_t *b, uint32_t at) { return (uint32_t)b[at] << 8 | b[at + 1]; }

/* Refusals 1 to 7; `to` is the end of the patterns. */
static uint32_t head(const uint8_t *b, size_t n, uint32_t *to) {
    uint32_t top = 0, words = 0;
    if (n < 1084) return 1;
    if (memcmp(b + 1080, "M.K.", 4) != 0) return 2;
    if (b[950] == 0 || b[950] > 128) return 3;
    for (uint32_t i = 952; i < 1080; i++) top = b[i] > top ? b[i] : top;
    if (top > 63) return 4;
    for (uint32_t o = 20; o < 950; o += 30)
        if (b[o + 25] > 64) return 5;
    for (uint32_t o = 20; o < 950; o += 30) {
        uint32_t length = word(b, o + 22), start = word(b, o + 26), repeat = word(b, o + 28);
        if (repeat > 1 && start + repeat > length) return 6;
        words += length;
    }
    *to = 1084 + 1024 * (top + 1);
    return n < *to + 2 * words ? 7 : 0;
}

static uint32_t cells(const uint8_t *b, uint32_t to) {
    for (uint32_t o = 1084; o < to; o += 4) {
        uint32_t period = (uint32_t)(b[o] & 15) << 8 | b[o + 1];
        if ((b[o] & 0xF0) + (b[o + 2] >> 4) > 31) return 8;
        if (period != 0 && (period < 113 || period > 856)) return 9;
    }
    return 0;
}

uint32_t scan_plain(const uint8_t *b, size_t n) {
    uint32_t to, number = head(b, n, &to);
    return number ? number : cells(b, to);
}

uint32_t scan_branch_free(const uint8_t *b, size_t n) {
    uint32_t to, bad = 0, number = head(b, n, &to);
    if (number) return number;
    for (uint32_t o = 1084; o < to; o += 4) {
        uint32_t cell, period;
        memcpy(&cell, b + o, 4);
        period = (cell & 15) << 8 | (cell >> 8 & 255);
        bad |= (cell & 0xE0) | ((period != 0) & (period - 113 > 743));
    }
    return bad ? cells(b, to) : 0;
}
