/* panel MODULE OUT RECORD: a panel's firmware in small. A sound driver asks for blocks of 512 frames; the panel plays the module one tick
   a call to fill them. Between two ticks it hands over the touches that arrived, as one burst, and changes pages. What the person at the
   panel does comes from the table below. The frames go to OUT as 16-bit numbers, and RECORD says what was done and answered, as a trial record (docs/FORMATS.md) that
   `lampthistle replay MODULE RECORD --check` plays again. It ends with 1 where the module is refused, and with 2 where a file cannot be
   read or written. */
#include "files.h"
#include <stdarg.h>

enum { BLOCK_NUMBERS = 2 * 512, BLOCKS = 400 };

/* The clock of the first tick. `make c-test` also starts short of 2^32, to hear that nothing changes where the clock wraps. */
#ifndef FIRST_CLOCK
#define FIRST_CLOCK 0u
#endif

/* What is done at a clock: the page is turned, or a position is touched. A touch is `late` ticks on its way. */
typedef struct event {
    uint32_t clock;
    int turns_page;
    uint32_t late, position;
} event;

static const event EVENTS[] = {
    {46, 0, 4, 2},   /* two touches that arrive together: the song goes where the later one says */
    {47, 0, 3, 1},
    {91, 0, 10, 2},  /* a touch that arrives after the page was turned */
    {100, 1, 0, 0},  /* the next page */
    {120, 0, 0, 9},  /* a position that the song does not have */
    {114, 0, 26, 0}, /* too late */
    {125, 0, 25, 3}, /* just in time */
};
enum { EVENT_COUNT = sizeof EVENTS / sizeof EVENTS[0] };

/* Touches in the order in which they arrived. */
typedef struct burst {
    uint32_t pages[LAMPTHISTLE_MOST_TOUCHES], mades[LAMPTHISTLE_MOST_TOUCHES], positions[LAMPTHISTLE_MOST_TOUCHES];
    size_t touches;
} burst;

typedef struct panel {
    uint8_t *module;
    size_t length;
    lampthistle_state state;
    uint32_t shown[EVENT_COUNT]; /* the page that was shown when each touch was made */
    burst arrived;               /* since the last tick */
    int16_t tick[LAMPTHISTLE_TICK_NUMBERS];
    size_t taken, filled; /* numbers of `tick` that the driver has, and that there are */
    uint32_t ticks;       /* played since the record's last line */
    uint64_t sum;         /* of all frames */
    uint32_t calls;       /* that the record has */
    uint64_t record_sum;  /* of the record's bytes */
    FILE *out, *record;
} panel;

/* ---- the record */
/* FNV-1a of 64 bits. */
#define SUM_START UINT64_C(0xcbf29ce484222325)

static uint64_t add_byte(uint64_t sum, unsigned byte) {
    return (sum ^ byte) * UINT64_C(0x100000001b3);
}

/* Writes a part of the record, which is shorter than the text here. */
static void note(panel *p, const char *format, ...) {
    char text[256];
    va_list values;
    size_t k;
    va_start(values, format);
    vsnprintf(text, sizeof text, format, values);
    va_end(values);
    for (k = 0; text[k] != 0; k++) p->record_sum = add_byte(p->record_sum, (unsigned char)text[k]);
    fputs(text, p->record);
}

static void begin_record(panel *p) {
    uint64_t sum = SUM_START;
    size_t k;
    for (k = 0; k < p->length; k++) sum = add_byte(sum, p->module[k]);
    p->sum = SUM_START;
    p->record_sum = SUM_START;
    note(p, "record 2\nprogram panel %s\nmodule %016" PRIx64 "\n", LAMPTHISTLE_VERSION_TEXT, sum);
}

/* The state from which the record begins. */
static void write_state(panel *p) {
    size_t k;
    note(p, "state");
    for (k = 0; k < LAMPTHISTLE_STATE_CELLS; k++) note(p, " %" PRIu32, p->state.cell[k]);
    note(p, "\n");
}

/* The last line, without which a record counts as cut. */
static void end_record(panel *p) {
    fprintf(p->record, "end %" PRIu32 " %016" PRIx64 "\n", p->calls, p->record_sum);
}

static void add_frames(panel *p) {
    size_t k;
    for (k = 0; k < p->filled; k++) {
        unsigned number = (uint16_t)p->tick[k];
        p->sum = add_byte(add_byte(p->sum, number & 0xFF), number >> 8);
    }
}

/* A call's results: its answer, and of a burst each touch's; the clock after it, and the sum so far. */
static void write_results(panel *p, const uint64_t *answer, const uint32_t *answers) {
    uint64_t k;
    note(p, " = %" PRIu64 " %" PRIu64 " %" PRIu64, answer[LAMPTHISTLE_NUMBER], answer[LAMPTHISTLE_PLACE], answer[LAMPTHISTLE_COUNT]);
    for (k = 0; answers && k < answer[LAMPTHISTLE_COUNT]; k++) note(p, " %" PRIu32, answers[k]);
    note(p, " %" PRIu32 " %016" PRIx64 "\n", p->state.cell[LAMPTHISTLE_CLOCK], p->sum);
    p->calls++;
}

/* The ticks since the last line, as one call. */
static void write_ticks(panel *p) {
    const uint64_t answer[LAMPTHISTLE_ANSWER_CELLS] = {LAMPTHISTLE_ACCEPTED, 0, p->ticks};
    if (p->ticks == 0) return;
    note(p, "play %" PRIu32, p->ticks);
    write_results(p, answer, NULL);
    p->ticks = 0;
}

/* ---- the panel */
/* Hands over the touches that arrived. A refused touch changes nothing, and needs no care. */
static void hand_over(panel *p) {
    uint64_t answer[LAMPTHISTLE_ANSWER_CELLS];
    uint32_t answers[LAMPTHISTLE_MOST_TOUCHES];
    burst *b = &p->arrived;
    size_t k;
    if (b->touches == 0) return;
    write_ticks(p);
    lampthistle_touch_burst(p->module, p->length, p->state.cell, b->pages, b->touches, b->mades, b->touches, b->positions, b->touches,
                            answers, LAMPTHISTLE_MOST_TOUCHES, answer);
    note(p, "burst");
    for (k = 0; k < b->touches; k++) note(p, " %" PRIu32 " %" PRIu32 " %" PRIu32, b->pages[k], b->mades[k], b->positions[k]);
    write_results(p, answer, answers);
    b->touches = 0;
}

/* A touch arrives. Where a burst is full it is handed over first. */
static void touch(panel *p, uint32_t page, uint32_t made, uint32_t position) {
    burst *b = &p->arrived;
    if (b->touches == LAMPTHISTLE_MOST_TOUCHES) hand_over(p);
    b->pages[b->touches] = page;
    b->mades[b->touches] = made;
    b->positions[b->touches] = position;
    b->touches++;
}

/* Touches that arrived before it still belong to the old page. */
static void turn_page(panel *p) {
    uint64_t answer[LAMPTHISTLE_ANSWER_CELLS];
    hand_over(p);
    write_ticks(p);
    lampthistle_change_page(p->module, p->length, p->state.cell, answer);
    note(p, "page");
    write_results(p, answer, NULL);
}

/* Takes what is done at this clock. Clocks wrap at 2^32: an age, clock minus made modulo 2^32, says how long ago something was; a
   clock that is smaller need not be earlier. */
static void take_events(panel *p) {
    size_t k;
    for (k = 0; k < EVENT_COUNT; k++) {
        const event *e = &EVENTS[k];
        uint32_t made = FIRST_CLOCK + e->clock;
        uint32_t age = p->state.cell[LAMPTHISTLE_CLOCK] - made;
        if (age == 0) p->shown[k] = p->state.cell[LAMPTHISTLE_PAGE];
        if (age == e->late && e->turns_page) turn_page(p);
        if (age == e->late && !e->turns_page) touch(p, p->shown[k], made, e->position);
    }
}

static int play_tick(panel *p) {
    uint64_t answer[LAMPTHISTLE_ANSWER_CELLS];
    lampthistle_state before = p->state;
    lampthistle_play(p->module, p->length, p->state.cell, 1, p->tick, LAMPTHISTLE_TICK_NUMBERS, answer);
    if (answer[LAMPTHISTLE_NUMBER] != LAMPTHISTLE_ACCEPTED) return 0;
    p->taken = 0;
    p->filled = lampthistle_tick_numbers(before.cell, p->state.cell);
    p->ticks++;
    add_frames(p);
    return 1;
}

/* The driver's call: fills a block, tick by tick. Whether the module could be played. */
static int pull(panel *p, int16_t *block, size_t numbers) {
    while (numbers > 0) {
        size_t part = p->filled - p->taken;
        if (part == 0) {
            take_events(p);
            hand_over(p);
            if (!play_tick(p)) return 0;
            continue;
        }
        if (part > numbers) part = numbers;
        memcpy(block, p->tick + p->taken, part * sizeof *block);
        p->taken += part;
        block += part;
        numbers -= part;
    }
    return 1;
}

static int play_blocks(panel *p, char **word) {
    int16_t block[BLOCK_NUMBERS];
    int k;
    for (k = 0; k < BLOCKS; k++) {
        if (!pull(p, block, BLOCK_NUMBERS)) return REFUSED;
        if (fwrite(block, sizeof *block, BLOCK_NUMBERS, p->out) != BLOCK_NUMBERS) return cannot(word[2]);
    }
    write_ticks(p);
    end_record(p);
    if (fflush(p->out) != 0) return cannot(word[2]);
    if (ferror(p->record) || fflush(p->record) != 0) return cannot(word[3]);
    return DONE;
}

static int run(panel *p, char **word) {
    uint64_t answer[LAMPTHISTLE_ANSWER_CELLS];
    p->module = read_file(word[1], &p->length);
    if (!p->module) return CANNOT;
    lampthistle_judge(p->module, p->length, answer);
    if (answer[LAMPTHISTLE_NUMBER] != LAMPTHISTLE_ACCEPTED) return refused(word[1], answer);
    p->out = fopen(word[2], "wb");
    if (!p->out) return cannot(word[2]);
    p->record = fopen(word[3], "w");
    if (!p->record) return cannot(word[3]);
    lampthistle_fresh(p->state.cell);
    p->state.cell[LAMPTHISTLE_CLOCK] = FIRST_CLOCK;
    begin_record(p);
    write_state(p);
    return play_blocks(p, word);
}

int main(int words, char **word) {
    static panel p;
    int status;
    if (words != 4) return fprintf(stderr, "usage: panel MODULE OUT RECORD\n"), CANNOT;
    status = run(&p, word);
    if (p.out) fclose(p.out);
    if (p.record) fclose(p.record);
    free(p.module);
    return status;
}
