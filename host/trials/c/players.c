/* players MODULE: how long players take for ten seconds of a module, 48,000 frames a second, two channels of 16-bit numbers, without
   filters and interpolation: medians of 101 runs, in ns of processor time a frame. The players take turns, so that a slow moment meets them
   all. Compiled with those of WITH_MIKMOD, WITH_XMP and WITH_OPENMPT that are installed. */
#define _POSIX_C_SOURCE 200809L
#include "lampthistle.h"
#include <stdio.h>
#include <stdlib.h>
#include <time.h>
#ifdef WITH_MIKMOD
#include <mikmod.h>
#endif
#ifdef WITH_XMP
#include <xmp.h>
#endif
#ifdef WITH_OPENMPT
#include <libopenmpt/libopenmpt.h>
#endif

enum { FRAMES = 480000, RUNS = 101, LARGEST = 1 << 23 };

static uint8_t module[LARGEST];
static size_t length;
static int16_t out[2 * (FRAMES + 8192)];

/* A work plays at least FRAMES frames from the beginning, and says how many; 0 where it cannot. */
typedef size_t (*work)(void);

/* A run takes longer than a turn on a shared core, so what others take is not counted. */
static double now(void) {
    struct timespec t;
    clock_gettime(CLOCK_PROCESS_CPUTIME_ID, &t);
    return t.tv_sec * 1e9 + t.tv_nsec;
}

static int order(const void *a, const void *b) {
    double x = *(const double *)a, y = *(const double *)b;
    return (x > y) - (x < y);
}

static size_t one_tick_a_call(void) {
    lampthistle_state state;
    size_t numbers = 0;
    lampthistle_fresh(state.cell);
    while (numbers < 2 * FRAMES) {
        uint64_t answer[3];
        lampthistle_state before = state;
        lampthistle_play(module, length, state.cell, 1, out + numbers, LAMPTHISTLE_TICK_NUMBERS, answer);
        if (answer[2] != 1) return 0;
        numbers += lampthistle_tick_numbers(before.cell, state.cell);
    }
    return numbers / 2;
}

static size_t one_call(void) {
    lampthistle_state state;
    uint64_t answer[3];
    lampthistle_fresh(state.cell);
    lampthistle_play(module, length, state.cell, UINT32_MAX, out, 2 * FRAMES, answer);
    return answer[2] == 0 ? 0 : FRAMES;
}

#ifdef WITH_MIKMOD
/* The silent driver mixes 32,768 bytes, 8,192 frames, an update. */
static size_t mikmod(void) {
    size_t frames = 0;
    MODULE *song = Player_LoadMem((const char *)module, (int)length, 64, 0);
    if (!song) return 0;
    Player_Start(song);
    for (; frames < FRAMES && Player_Active(); frames += 8192) MikMod_Update();
    Player_Stop();
    Player_Free(song);
    return frames;
}

static int begin_mikmod(void) {
    MikMod_RegisterDriver(&drv_nos);
    MikMod_RegisterAllLoaders();
    md_mode = DMODE_SOFT_MUSIC | DMODE_16BITS | DMODE_STEREO;
    md_mixfreq = LAMPTHISTLE_RATE;
    md_reverb = 0;
    return MikMod_Init("") == 0;
}
#endif

#ifdef WITH_XMP
static size_t libxmp(void) {
    size_t frames = 0;
    struct xmp_frame_info frame;
    xmp_context player = xmp_create_context();
    if (xmp_load_module_from_memory(player, module, (long)length) != 0) return 0;
    xmp_start_player(player, LAMPTHISTLE_RATE, 0);
    xmp_set_player(player, XMP_PLAYER_INTERP, XMP_INTERP_NEAREST);
    xmp_set_player(player, XMP_PLAYER_DSP, 0);
    while (frames < FRAMES && xmp_play_frame(player) == 0) {
        xmp_get_frame_info(player, &frame);
        frames += (size_t)frame.buffer_size / 4;
    }
    xmp_end_player(player);
    xmp_release_module(player);
    xmp_free_context(player);
    return frames;
}
#endif

#ifdef WITH_OPENMPT
static size_t openmpt(void) {
    size_t frames = 0;
    openmpt_module *song = openmpt_module_create_from_memory2(module, length, NULL, NULL, NULL, NULL, NULL, NULL, NULL);
    if (!song) return 0;
    openmpt_module_set_render_param(song, OPENMPT_MODULE_RENDER_INTERPOLATIONFILTER_LENGTH, 1);
    openmpt_module_set_render_param(song, OPENMPT_MODULE_RENDER_VOLUMERAMPING_STRENGTH, 0);
    openmpt_module_set_repeat_count(song, -1);
    while (frames < FRAMES) {
        size_t got = openmpt_module_read_interleaved_stereo(song, LAMPTHISTLE_RATE, 960, out);
        if (got == 0) break;
        frames += got;
    }
    openmpt_module_destroy(song);
    return frames;
}
#endif

typedef struct player {
    const char *name;
    work play;
    double took[RUNS];
} player;

static player players[] = {
    {"lampthistle, one call", one_call, {0}},
    {"lampthistle, one tick a call", one_tick_a_call, {0}},
#ifdef WITH_MIKMOD
    {"libmikmod, not interpolated", mikmod, {0}},
#endif
#ifdef WITH_XMP
    {"libxmp, nearest, no filter", libxmp, {0}},
#endif
#ifdef WITH_OPENMPT
    {"libopenmpt, not interpolated", openmpt, {0}},
#endif
};

enum { PLAYERS = sizeof players / sizeof players[0] };

/* Whether every player could play the module, every time. */
static int measure(void) {
    for (int run = 0; run < RUNS; run++)
        for (int k = 0; k < PLAYERS; k++) {
            double began = now();
            size_t frames = players[k].play();
            if (frames == 0) return fprintf(stderr, "%s: cannot play it\n", players[k].name), 0;
            players[k].took[run] = (now() - began) / frames;
        }
    return 1;
}

int main(int words, char **word) {
    FILE *in = words == 2 ? fopen(word[1], "rb") : NULL;
    if (!in) return fprintf(stderr, "usage: players MODULE\n"), 2;
    length = fread(module, 1, sizeof module, in);
#ifdef WITH_MIKMOD
    if (!begin_mikmod()) return fprintf(stderr, "libmikmod does not begin\n"), 1;
#endif
    if (!measure()) return 1;
    printf("ten seconds of %s; the other players load the module in each run, too\n", word[1]);
    for (int k = 0; k < PLAYERS; k++) {
        qsort(players[k].took, RUNS, sizeof players[k].took[0], order);
        printf("  %-34s %10.3f ns a frame\n", players[k].name, players[k].took[RUNS / 2]);
    }
#ifdef WITH_MIKMOD
    MikMod_Exit();
#endif
    return 0;
}
