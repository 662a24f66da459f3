/* What the benchmark prints beside the proved player: the mixing of one tick in C, in four ways. `mix_plain` is the rule, frame by frame.
   `mix_sides` and `mix_four` are the fastest that were found, by clang -O3, of portable loops that go over the frames once with the
   voices in registers, are cut at the nearest end, write each cell once and divide for the step once a tick and voice. `mix_sides` takes a
   side after the other, `mix_four` all four voices at once; which is faster depends on the case. Tried, and slower: a position of its own
   for each voice, of 32 or 64 bits; one multiplication for both voices of a side; loops unrolled by hand; one store for both sides; bytes
   gathered in a buffer first. Not tried: tables of products, vector types. `mix_bytes` goes the proved mixer's way, with buffers: all frames of
   a byte at once, voice by voice. Each way is there for six and eight channels, too, in the same form: faster ones were not looked for. */
#include <stddef.h>
#include <stdint.h>
#include <string.h>

enum { SILENT_BYTES = 2 }; /* the first bytes of a sample, which read as 0 */
enum { MOST = 8, MOST_SIDE = MOST / 2 };
/* A side of four channels is twice the sum, of six and eight the plain sum. */
enum { DOUBLED = 2, PLAIN = 1 };

/* The channels of each side, from 0; of fewer than eight the first. */
static const int LEFT[MOST_SIDE] = {0, 3, 4, 7}, RIGHT[MOST_SIDE] = {1, 2, 5, 6};

static int is_right(int channel) { return (channel + 1) / 2 % 2; }

typedef struct voice {
    const int8_t *bytes;
    uint32_t end, first; /* a looped voice at `end` goes on from `first` */
    uint32_t looped, stopped;
    uint32_t period;
    int32_t volume;
    uint32_t index, fraction;
} voice;

static int moves(const voice *v) { return !v->stopped && v->period != 0; }

/* What a frame adds to the fraction. */
static uint32_t growth(const voice *v) {
    return moves(v) ? (uint32_t)(35468946ull * 65536 / (480000ull * v->period)) : 0;
}

/* What a voice does at its end. */
static void wrap(voice *v) {
    if (v->looped) {
        v->index = v->first;
    } else {
        v->index = v->fraction = 0;
        v->stopped = 1;
    }
}

/* ---- the rule */

/* What the voice gives to this frame; then it takes its step. */
static int32_t step(voice *v, uint32_t growth) {
    int32_t given;
    if (!moves(v)) return 0;
    given = v->index < SILENT_BYTES ? 0 : v->bytes[v->index] * v->volume;
    v->fraction += growth;
    if (v->fraction > 65535) {
        v->fraction -= 65536;
        if (++v->index == v->end) wrap(v);
    }
    return given;
}

void mix_plain(voice *v, int16_t *out, size_t frames) {
    const uint32_t ga = growth(&v[0]), gb = growth(&v[1]), gc = growth(&v[2]), gd = growth(&v[3]);
    for (size_t k = 0; k < frames; k++) {
        int32_t a = step(&v[0], ga), b = step(&v[1], gb), c = step(&v[2], gc), d = step(&v[3], gd);
        out[2 * k] = (int16_t)(2 * (a + d));
        out[2 * k + 1] = (int16_t)(2 * (b + c));
    }
}

/* The same for any count of channels. */
static inline void mix_steps(voice *v, const int count, int16_t *out, size_t frames) {
    uint32_t growths[MOST];
    for (int i = 0; i < count; i++) growths[i] = growth(&v[i]);
    for (size_t k = 0; k < frames; k++) {
        int32_t sides[2] = {0, 0};
        for (int i = 0; i < count; i++) sides[is_right(i)] += step(&v[i], growths[i]);
        out[2 * k] = (int16_t)sides[0];
        out[2 * k + 1] = (int16_t)sides[1];
    }
}

void mix_plain_six(voice *v, int16_t *out, size_t frames) { mix_steps(v, 6, out, frames); }
void mix_plain_eight(voice *v, int16_t *out, size_t frames) { mix_steps(v, 8, out, frames); }

/* ---- a side after the other */

/* A voice from limit to limit: its sample's end, and the end of the silent bytes. */
typedef struct track {
    const int8_t *bytes;
    uint64_t at;     /* index and fraction */
    uint32_t growth;
    uint32_t left;   /* frames to the next limit */
    int32_t full;    /* the volume, as a side takes it */
    int32_t weight;  /* the same, or 0 where the voice gives nothing */
    uint32_t from;   /* where its loop sounds first; from there 65,536 a byte are frames x growth + rest */
    uint32_t frames, rest;
} track;

static uint32_t frames_to(uint64_t at, uint32_t index, uint32_t growth) {
    return (uint32_t)((((uint64_t)index << 16) - at + growth - 1) / growth);
}

static void aim(track *t, const voice *v) {
    const uint32_t index = (uint32_t)(t->at >> 16), fraction = t->at & 65535;
    t->weight = index < SILENT_BYTES ? 0 : t->full;
    if (index == t->from)
        t->left = t->frames + (t->rest > fraction);
    else
        t->left = frames_to(t->at, index < SILENT_BYTES ? SILENT_BYTES : v->end, t->growth);
}

static track begin(const voice *v, int32_t times) {
    track t = {v->bytes, (uint64_t)v->index << 16 | v->fraction, growth(v), UINT32_MAX, times * v->volume, 0, UINT32_MAX, 0, 0};
    if (!moves(v)) return t;
    aim(&t, v);
    /* A step that comes to `from` leaves a fraction below the growth, so that no division is wanted there again. */
    if (v->looped) {
        t.from = v->first < SILENT_BYTES ? SILENT_BYTES : v->first;
        t.frames = (uint32_t)(((uint64_t)(v->end - t.from) << 16) / t.growth);
        t.rest = (uint32_t)(((uint64_t)(v->end - t.from) << 16) % t.growth);
    }
    return t;
}

static void go_on(track *t, voice *v, uint32_t frames) {
    t->at += (uint64_t)frames * t->growth;
    t->left -= frames;
    if (t->left != 0) return;
    v->index = (uint32_t)(t->at >> 16);
    v->fraction = t->at & 65535;
    if (v->index == v->end) wrap(v);
    t->at = (uint64_t)v->index << 16 | v->fraction;
    if (v->stopped)
        t->left = UINT32_MAX, t->weight = 0, t->growth = 0;
    else
        aim(t, v);
}

/* Two voices that sound; both positions, from where they are, in one number. */
static void run_two(const track *t, const track *u, int16_t *out, uint32_t frames) {
    const int8_t *a = t->bytes + (t->at >> 16), *b = u->bytes + (u->at >> 16);
    const int32_t w = t->weight, x = u->weight;
    const uint64_t growth = t->growth | (uint64_t)u->growth << 32;
    uint64_t at = (t->at & 65535) | (u->at & 65535) << 32;
    for (size_t k = 0; k < frames; k++, at += growth)
        out[2 * k] = (int16_t)(a[(uint32_t)at >> 16] * w + b[at >> 48] * x);
}

static void run_one(const track *t, int16_t *out, uint32_t frames) {
    const int8_t *a = t->bytes + (t->at >> 16);
    const int32_t w = t->weight;
    const uint32_t growth = t->growth;
    uint32_t at = t->at & 65535;
    for (size_t k = 0; k < frames; k++, at += growth) out[2 * k] = (int16_t)(a[at >> 16] * w);
}

static void mix_side(voice *v, voice *w, int16_t *out, size_t frames) {
    track t = begin(v, DOUBLED), u = begin(w, DOUBLED);
    while (frames != 0) {
        uint32_t run = t.left < u.left ? t.left : u.left;
        if (run > frames) run = (uint32_t)frames;
        if (t.weight != 0 && u.weight != 0)
            run_two(&t, &u, out, run);
        else if (t.weight != 0)
            run_one(&t, out, run);
        else if (u.weight != 0)
            run_one(&u, out, run);
        else
            for (size_t k = 0; k < run; k++) out[2 * k] = 0;
        go_on(&t, v, run);
        go_on(&u, w, run);
        out += 2 * run;
        frames -= run;
    }
    v->index = (uint32_t)(t.at >> 16), v->fraction = t.at & 65535;
    w->index = (uint32_t)(u.at >> 16), w->fraction = u.at & 65535;
}

void mix_sides(voice *v, int16_t *out, size_t frames) {
    if (!moves(&v[0]) && !moves(&v[1]) && !moves(&v[2]) && !moves(&v[3])) {
        memset(out, 0, 2 * sizeof out[0] * frames);
        return;
    }
    mix_side(&v[0], &v[3], out, frames);
    mix_side(&v[1], &v[2], out + 1, frames);
}

/* More than two voices that sound, again two positions in one number. */
static inline void run_more(const track *const *t, const int count, int16_t *out, uint32_t frames) {
    const int8_t *bytes[MOST_SIDE];
    int32_t weight[MOST_SIDE];
    uint64_t at[2] = {0, 0}, growth[2] = {0, 0};
    for (int i = 0; i < count; i++) {
        bytes[i] = t[i]->bytes + (t[i]->at >> 16);
        weight[i] = t[i]->weight;
        at[i / 2] |= (t[i]->at & 65535) << 32 * (i % 2);
        growth[i / 2] |= (uint64_t)t[i]->growth << 32 * (i % 2);
    }
    for (size_t k = 0; k < frames; k++, at[0] += growth[0], at[1] += growth[1]) {
        int32_t sum = 0;
        for (int i = 0; i < count; i++) sum += bytes[i][i % 2 ? at[i / 2] >> 48 : (uint32_t)at[i / 2] >> 16] * weight[i];
        out[2 * k] = (int16_t)sum;
    }
}

static void run_sounding(const track *const *t, int count, int16_t *out, uint32_t frames) {
    switch (count) {
    case 0:
        for (size_t k = 0; k < frames; k++) out[2 * k] = 0;
        break;
    case 1: run_one(t[0], out, frames); break;
    case 2: run_two(t[0], t[1], out, frames); break;
    case 3: run_more(t, 3, out, frames); break;
    default: run_more(t, 4, out, frames);
    }
}

/* A side of up to four channels. */
static void mix_more(voice *v, const int *channels, int count, int16_t *out, size_t frames) {
    track t[MOST_SIDE];
    for (int i = 0; i < count; i++) t[i] = begin(&v[channels[i]], PLAIN);
    while (frames != 0) {
        const track *sounding[MOST_SIDE];
        uint32_t run = (uint32_t)frames;
        int sound = 0;
        for (int i = 0; i < count; i++) {
            if (t[i].left < run) run = t[i].left;
            if (t[i].weight != 0) sounding[sound++] = &t[i];
        }
        run_sounding(sounding, sound, out, run);
        for (int i = 0; i < count; i++) go_on(&t[i], &v[channels[i]], run);
        out += 2 * run;
        frames -= run;
    }
    for (int i = 0; i < count; i++) {
        v[channels[i]].index = (uint32_t)(t[i].at >> 16);
        v[channels[i]].fraction = t[i].at & 65535;
    }
}

static void mix_more_sides(voice *v, int count, int16_t *out, size_t frames) {
    mix_more(v, LEFT, count / 2, out, frames);
    mix_more(v, RIGHT, count / 2, out + 1, frames);
}

void mix_sides_six(voice *v, int16_t *out, size_t frames) { mix_more_sides(v, 6, out, frames); }
void mix_sides_eight(voice *v, int16_t *out, size_t frames) { mix_more_sides(v, 8, out, frames); }

/* ---- all at once */

/* What a voice reads in a run: its byte moves on where the fraction, in the high half, overflows. */
typedef struct line {
    const int8_t *byte;
    uint32_t fraction, growth;
    int32_t weight;
} line;

static line line_of(const voice *v, uint32_t growth, int32_t times) {
    static const int8_t nothing[1];
    line l = {nothing, 0, 0, 0};
    if (moves(v) && v->index >= SILENT_BYTES && v->volume != 0) {
        line sounding = {v->bytes + v->index, v->fraction << 16, growth << 16, times * v->volume};
        l = sounding;
    }
    return l;
}

#define STEP(voice) (next = voice##f + voice##g, voice += next < voice##f, voice##f = next)

static void run_four(const line *l, int16_t *out, size_t frames) {
    const int8_t *a = l[0].byte, *b = l[1].byte, *c = l[2].byte, *d = l[3].byte;
    const int32_t aw = l[0].weight, bw = l[1].weight, cw = l[2].weight, dw = l[3].weight;
    const uint32_t ag = l[0].growth, bg = l[1].growth, cg = l[2].growth, dg = l[3].growth;
    uint32_t af = l[0].fraction, bf = l[1].fraction, cf = l[2].fraction, df = l[3].fraction, next;
    for (size_t k = 0; k < frames; k++) {
        out[2 * k] = (int16_t)(*a * aw + *d * dw);
        out[2 * k + 1] = (int16_t)(*b * bw + *c * cw);
        STEP(a), STEP(b), STEP(c), STEP(d);
    }
}

/* The same for any count of channels. */
static inline void run_lines(const line *l, const int count, int16_t *out, size_t frames) {
    const int8_t *byte[MOST];
    uint32_t fraction[MOST];
    for (int i = 0; i < count; i++) byte[i] = l[i].byte, fraction[i] = l[i].fraction;
    for (size_t k = 0; k < frames; k++) {
        int32_t sides[2] = {0, 0};
        for (int i = 0; i < count; i++) {
            const uint32_t next = fraction[i] + l[i].growth;
            sides[is_right(i)] += *byte[i] * l[i].weight;
            byte[i] += next < fraction[i];
            fraction[i] = next;
        }
        out[2 * k] = (int16_t)sides[0];
        out[2 * k + 1] = (int16_t)sides[1];
    }
}

static void run_six(const line *l, int16_t *out, size_t frames) { run_lines(l, 6, out, frames); }
static void run_eight(const line *l, int16_t *out, size_t frames) { run_lines(l, 8, out, frames); }

static void go_far(voice *v, uint32_t growth, size_t frames) {
    const uint64_t at = ((uint64_t)v->index << 16 | v->fraction) + (uint64_t)frames * growth;
    if (!moves(v)) return;
    v->index = (uint32_t)(at >> 16);
    v->fraction = at & 65535;
    if (v->index == v->end) wrap(v);
}

void mix_four(voice *v, int16_t *out, size_t frames) {
    const uint32_t growths[4] = {growth(&v[0]), growth(&v[1]), growth(&v[2]), growth(&v[3])};
    while (frames != 0) {
        line lines[4];
        size_t run = frames;
        int sounds = 0;
        for (int k = 0; k < 4; k++) {
            lines[k] = line_of(&v[k], growths[k], DOUBLED);
            sounds |= lines[k].weight;
            if (moves(&v[k])) {
                uint64_t at = (uint64_t)v[k].index << 16 | v[k].fraction;
                uint32_t left = frames_to(at, v[k].index < SILENT_BYTES ? SILENT_BYTES : v[k].end, growths[k]);
                if (left < run) run = left;
            }
        }
        if (sounds)
            run_four(lines, out, run);
        else
            memset(out, 0, 2 * sizeof out[0] * run);
        for (int k = 0; k < 4; k++) go_far(&v[k], growths[k], run);
        out += 2 * run;
        frames -= run;
    }
}

typedef void run_of(const line *l, int16_t *out, size_t frames);

/* The same for any count of channels. It stands apart: as one function, four took half longer in short loops. */
static inline void mix_at_once(voice *v, const int count, run_of *run_all, int16_t *out, size_t frames) {
    uint32_t growths[MOST];
    for (int k = 0; k < count; k++) growths[k] = growth(&v[k]);
    while (frames != 0) {
        line lines[MOST];
        size_t run = frames;
        for (int k = 0; k < count; k++) {
            lines[k] = line_of(&v[k], growths[k], PLAIN);
            if (moves(&v[k])) {
                uint64_t at = (uint64_t)v[k].index << 16 | v[k].fraction;
                uint32_t left = frames_to(at, v[k].index < SILENT_BYTES ? SILENT_BYTES : v[k].end, growths[k]);
                if (left < run) run = left;
            }
        }
        run_all(lines, out, run);
        for (int k = 0; k < count; k++) go_far(&v[k], growths[k], run);
        out += 2 * run;
        frames -= run;
    }
}

void mix_six(voice *v, int16_t *out, size_t frames) { mix_at_once(v, 6, run_six, out, frames); }
void mix_eight(voice *v, int16_t *out, size_t frames) { mix_at_once(v, 8, run_eight, out, frames); }

/* ---- all frames of a byte at once */

enum { PIECE = 1024, TOGETHER = 8, MOST_FRAMES = 16, QUICK = 8192, INVERSE_BITS = 46 };

static void fill(int16_t y, int16_t *cells) {
    for (size_t j = 0; j < TOGETHER; j++) cells[j] = y;
}

/* What a voice gives at a weight in a run of frames that comes to no limit, and up to MOST_FRAMES cells more. */
static void fill_run(const voice *v, int32_t weight, uint32_t growth, uint64_t inverse, size_t frames, int16_t *cells) {
    const int8_t *byte = v->bytes + v->index;
    uint64_t due = (65536 - v->fraction + growth - 1) * inverse;
    for (size_t k = 0; k < frames; k = due >> INVERSE_BITS, due += inverse << 16) {
        const int16_t y = (int16_t)(*byte++ * weight);
        fill(y, cells + k);
        if (growth < QUICK) fill(y, cells + k + TOGETHER);
    }
}

/* What stays the same for a voice through a tick. */
typedef struct pace {
    uint32_t growth;
    uint64_t inverse;
    int32_t weight;
} pace;

static pace pace_of(const voice *v, int32_t times) {
    const uint32_t g = growth(v);
    const pace p = {g, g == 0 ? 0 : (1ull << INVERSE_BITS) / g + 1, times * v->volume};
    return p;
}

static void spread(voice *v, const pace *p, size_t frames, int16_t *cells) {
    for (size_t k = 0, run; k < frames; k += run) {
        run = frames - k;
        if (!moves(v)) {
            memset(cells + k, 0, run * sizeof cells[0]);
            return;
        }
        const uint32_t limit = v->index < SILENT_BYTES ? SILENT_BYTES : v->end;
        const uint64_t at = (uint64_t)v->index << 16 | v->fraction, way = ((uint64_t)limit << 16) - at;
        if (way <= (uint64_t)(run - 1) * p->growth) run = (size_t)((way + p->growth - 1) * p->inverse >> INVERSE_BITS);
        fill_run(v, v->index < SILENT_BYTES ? 0 : p->weight, p->growth, p->inverse, run, cells + k);
        go_far(v, p->growth, run);
    }
}

/* A side of a piece: the first voice that sounds is spread into its cells, the others added. */
static void spread_side(voice *v, const pace *paces, const int *channels, int count, size_t frames, int16_t *cells) {
    int16_t further[PIECE + MOST_FRAMES];
    int sounds = 0;
    for (int i = 0; i < count; i++) {
        const int k = channels[i];
        if (!moves(&v[k])) continue;
        spread(&v[k], &paces[k], frames, sounds ? further : cells);
        if (sounds)
            for (size_t j = 0; j < frames; j++) cells[j] = (int16_t)(cells[j] + further[j]);
        sounds = 1;
    }
    if (!sounds) memset(cells, 0, frames * sizeof cells[0]);
}

static void mix_by_bytes(voice *v, int count, int32_t times, int16_t *out, size_t frames) {
    int16_t l[PIECE + MOST_FRAMES], r[PIECE + MOST_FRAMES];
    pace paces[MOST];
    for (int k = 0; k < count; k++) paces[k] = pace_of(&v[k], times);
    for (size_t at = 0; at < frames; at += PIECE) {
        const size_t piece = frames - at < PIECE ? frames - at : PIECE;
        spread_side(v, paces, LEFT, count / 2, piece, l);
        spread_side(v, paces, RIGHT, count / 2, piece, r);
        for (size_t k = 0; k < piece; k++) {
            out[2 * (at + k)] = l[k];
            out[2 * (at + k) + 1] = r[k];
        }
    }
}

void mix_bytes(voice *v, int16_t *out, size_t frames) { mix_by_bytes(v, 4, DOUBLED, out, frames); }
void mix_bytes_six(voice *v, int16_t *out, size_t frames) { mix_by_bytes(v, 6, PLAIN, out, frames); }
void mix_bytes_eight(voice *v, int16_t *out, size_t frames) { mix_by_bytes(v, 8, PLAIN, out, frames); }
