/* Lampthistle: the proved library's calls, for C99 and C++11 on x86-64 Linux. Link liblampthistle.a.

   ANSWERS
   A call answers a number, a place and a count. Number 0 is accepted; another number is a refusal, and the place says where, 0 where
   none is named. The count is ticks played (play, play_stream, play_stream_from, and the same as floats; board_feed), touches answered
   (touch_burst), bytes written (translate) or a cause's number (why_quiet); 0 for the other calls and for every refusal, but for a fault
   that board_feed meets. All three cells are written by every call that takes them; board_feed's fourth is the bytes that it took.
   lampthistle_refusal_text says a number in words.

   WHAT A CALLER OWES
   Every pointer is aligned for its type and good for its length for the whole call, and none that is written overlaps another. A
   length counts elements: bytes of a file, stream or room, 16-bit numbers or floats of a sound buffer, numbers of a list. A pointer that
   comes with a length may be null where the length is 0; a state, a board, an answer, a pair and its tick may not. Nothing else is
   asked: any bytes and any numbers may be passed.

   WHAT A CALLER GETS
   Every call returns, on any input. A refused call writes the answer and nothing else: the state and every lent buffer stay. For a
   fault of a stream as it arrives alone they do not: the ticks before it stand, and the board keeps it. An accepted call writes what it
   says and leaves the rest of the buffer.

   THREADS AND MEMORY
   The library has no memory of its own, allocates nothing, does no I/O and keeps no pointer: calls on separate data may run in any
   threads at once. One state or board is for one thread at a time. A file or stream that is only read may be shared. A call takes at most
   LAMPTHISTLE_STACK_BYTES of stack, whatever its input; a call that plays floats LAMPTHISTLE_FLOAT_STACK_BYTES, since it holds one
   tick's 16-bit numbers there.

   FRAMES
   48,000 frames a second, two signed 16-bit numbers a frame, left first. Channels 1, 4, 5 and 8 are left, 2, 3, 6 and 7 right, as far as
   the module has them; with four channels a side is twice their sum, with six and eight the plain sum. A tick has (120,000 + remainder)
   div tempo frames, and the rest modulo tempo is the next tick's remainder, so that n ticks at one tempo have (120,000 n) div tempo
   frames: 960 a tick at tempo 125, 470 or 471 at tempo 255, never more than 3,750. A tick whose tempo is not that of the tick before
   begins with remainder 0. Only whole ticks are played, so a buffer of LAMPTHISTLE_TICK_NUMBERS always takes one. To pull sound as it is
   needed, play one tick a call; lampthistle_tick_numbers then says how many numbers it wrote.

   FLOATS
   play_floats, play_stream_floats and play_stream_floats_from play the same ticks as 32-bit floats, for as many sides as are asked
   for. A frame is then
     for 1 side, LAMPTHISTLE_MONO, one number: the sum of left and right / 65,536;
     for 2 sides, LAMPTHISTLE_STEREO, two numbers: left / 32,768, then right / 32,768;
   each from -1 up to, not including, 1. Every float is exact, so that left and right times 32,768 are the 16-bit numbers again. 0 is
   positive zero, all 32 bits 0, also where left and right are opposite and mono is asked for. A frame whose left and right are both 0 is
   silence: as many zeros as there are sides. Any other number of sides is refused (24). A tick of n frames takes n times the sides floats,
   so a buffer of LAMPTHISTLE_TICK_NUMBERS takes any one; lampthistle_tick_floats says how many a call for one tick wrote.
   The left and right of the last frame that a call played go to `pair`, as floats for two sides, also where mono is asked for; its tick,
   counted from 0 in the call, goes to `pair_tick`. A call that plays no frame, and a refused one, leaves both as they are. What they hold
   before is never judged: it may be NaN.

   STATES
   A state is LAMPTHISTLE_STATE_CELLS plain numbers. lampthistle_fresh makes the first one; it may be copied, stored and sent, and
   played on later. Each call that takes a state judges the module first, then the state against the module. Every state has
   LAMPTHISTLE_CHANNELS channels. A module has as many as its tag names: 4 for M.K. and 4CHN, 6 for 6CHN, 8 for 8CHN, as
   lampthistle_channels says. In a state for it the channels past these are as in a fresh one; with anything else there it is refused.

   FINETUNE
   A channel has a finetune, -8 to 7, in eighths of a semitone: that of the sample that it latched last, or what effect E5 set after that.
   Its notes, slides, vibrato and arpeggio go by the finetune's own row of 36 periods. So a period of a state or a stream is 0 or 108 to
   907, while one in a cell of a file is 0 or 113 to 856. In a state the finetune is a 32-bit number in two's complement, 4,294,967,288 for
   -8; a state with another than -8 to 7 is refused (14).

   VERSIONS
   Cells, refusals and calls are the same in all versions that differ in their last number alone. Otherwise they may differ: then this
   header and the archive do not fit together, and a state that was stored by the one version is no state of the other, even where 14
   does not refuse it. So store a state with its version, and play it on only where LAMPTHISTLE_SAME_CELLS holds of that; else begin
   with a fresh one. A program that is linked apart from its compiling asks LAMPTHISTLE_SAME_CELLS(lampthistle_version()) at its start.

   TOUCHES
   A touch carries the page on which it was made, the state's clock when it was made, and the song position that it asks for. It is
   refused if it comes from another page, is older than 25 ticks or names a position past the song's end. A page change shuts out every
   touch made before it. What arrived between two ticks can be handed over as one burst, with an answer for each touch.

   QUIET CHANNELS
   Asked why a channel is quiet, the library names the first true cause for the next frame, from the voice as the state has it: the next
   tick's work is not done first. lampthistle_cause_text says a cause in words.

   STREAMS
   A stream holds the ticks of a song as registers for a sound board: tempo, and for each channel sample, volume, period and start.
   The board takes samples from the module, never its patterns or table. Translation writes version 3, which names the module's channel
   count; a stream is played with modules of its count alone. Streams of version 2, which the library wrote before 0.6.0, and of
   version 1, before 0.2.0, are for four channels and sound as they did: by version 1 each tick has 120,000 div tempo frames, with no
   remainder. docs/FORMATS.md gives every byte.
   A stream is rendered piece by piece in a small buffer by play_stream_from, each piece from the tick after the last that was counted.
   Any piece can be played by itself: its frames are those of the whole play. A call first runs the ticks before its own, without
   writing them, so that a larger buffer, with fewer calls, takes less time.

   STREAMS AS THEY ARRIVE
   A board takes a stream in pieces of any length, as they come in, and needs no room for the whole. It is LAMPTHISTLE_BOARD_CELLS
   plain numbers: lampthistle_board_fresh makes the first one, and it may be copied, stored and sent as a state may.
   lampthistle_board_feed takes bytes until none is left, one shows a fault, or a tick does not fit into `out`. A record is played
   when its last byte is in. If its tick does not fit, that byte is not taken, and that is no refusal: the answer's fourth cell says
   how many bytes were taken, and the next call is lent the others first, with more room. LAMPTHISTLE_TICK_NUMBERS are room for any
   one tick. However an accepted stream is cut, its frames are those that lampthistle_play_stream has.
   A fault is answered as soon as a byte shows it: 21, 22, 28 or 23, with its place in the stream. The byte counts as taken, unless
   it is one past the declared end. The ticks before it have been played and are counted, and their frames stand in `out`. The board
   keeps the fault: later calls take nothing, write nothing and repeat its number and place, with count 0.
   lampthistle_board_close tells the board that the stream has ended. Short of the declared end that is a fault (21, at the bytes
   taken), which is kept; after it nothing changes. A last byte that waits for room has not been taken.
   Each call judges the module first (1 to 9), then the board against the module (14), then repeats what is kept. 14 is given for
   voices or a remainder that are not legal, more records than ticks, more bytes than declared, a kept number that is no fault of a
   stream, and kept bytes that show another fault than the kept one or are no open header or record. A board that is refused stays
   as it is. */
#ifndef LAMPTHISTLE_H
#define LAMPTHISTLE_H

#if !defined(__linux__) || !defined(__x86_64__) || defined(__ILP32__)
#error "lampthistle: the library is built for x86-64 Linux alone; this compiler is for another machine or system"
#endif

#include <stddef.h>
#include <stdint.h>

#ifdef __cplusplus
extern "C" {
#endif

#define LAMPTHISTLE_VERSION_MAJOR 0
#define LAMPTHISTLE_VERSION_MINOR 8
#define LAMPTHISTLE_VERSION_PATCH 0
/* This header's version as one number, and as text. */
#define LAMPTHISTLE_VERSION (1000000 * LAMPTHISTLE_VERSION_MAJOR + 1000 * LAMPTHISTLE_VERSION_MINOR + LAMPTHISTLE_VERSION_PATCH)
#define LAMPTHISTLE_VERSION_TEXT "0.8.0"
/* Whether cells, refusals and calls of a version are those of this header. */
#define LAMPTHISTLE_SAME_CELLS(version) ((version) / 1000 == LAMPTHISTLE_VERSION / 1000)

#define LAMPTHISTLE_RATE 48000
/* The channels of a state, and the most that a module has; lampthistle_channels says how many one has. */
#define LAMPTHISTLE_CHANNELS 8
#define LAMPTHISTLE_STATE_CELLS 173
#define LAMPTHISTLE_BOARD_CELLS 74
/* The most numbers that one tick takes: 3,750 frames at tempo 32. */
#define LAMPTHISTLE_TICK_NUMBERS 7500
/* The sides of a frame of floats. */
#define LAMPTHISTLE_MONO 1
#define LAMPTHISTLE_STEREO 2
/* The most ticks that one translation takes. */
#define LAMPTHISTLE_MOST_TICKS 65535
/* The most touches that one burst takes. */
#define LAMPTHISTLE_MOST_TOUCHES 64
/* The most stack that one call takes, and one that plays floats. */
#define LAMPTHISTLE_STACK_BYTES 16384
#define LAMPTHISTLE_FLOAT_STACK_BYTES 32768

/* An answer's cells. */
enum lampthistle_answer_cell {
    LAMPTHISTLE_NUMBER,
    LAMPTHISTLE_PLACE,
    LAMPTHISTLE_COUNT,
    LAMPTHISTLE_ANSWER_CELLS,
    LAMPTHISTLE_TAKEN = LAMPTHISTLE_ANSWER_CELLS, /* of lampthistle_board_feed alone: the bytes taken */
    LAMPTHISTLE_FEED_CELLS
};

/* An answer's numbers, each with its place. The smallest number wins, but 24 comes before those of a stream, and of these 28 comes after
   22 and before 23; of bad cells the first in the file decides, with 8 before 9 in one cell. */
enum lampthistle_refusal {
    LAMPTHISTLE_ACCEPTED = 0,
    /* of the file, by every call that is lent one */
    LAMPTHISTLE_REFUSED_SHORT_FILE = 1,    /* its length */
    LAMPTHISTLE_REFUSED_TAG = 2,           /* 1080 */
    LAMPTHISTLE_REFUSED_SONG_LENGTH = 3,   /* 950 */
    LAMPTHISTLE_REFUSED_TABLE_ENTRY = 4,   /* the first such byte */
    LAMPTHISTLE_REFUSED_VOLUME = 5,        /* the first such byte */
    LAMPTHISTLE_REFUSED_LOOP = 6,          /* the first such header's repeat start */
    LAMPTHISTLE_REFUSED_CUT_FILE = 7,      /* its length */
    LAMPTHISTLE_REFUSED_SAMPLE_NUMBER = 8, /* the cell */
    LAMPTHISTLE_REFUSED_PERIOD = 9,        /* the cell */
    /* of a translation */
    LAMPTHISTLE_REFUSED_TICKS = 11, /* 0 */
    LAMPTHISTLE_REFUSED_ROOM = 12,  /* the length needed */
    /* of a state or a board */
    LAMPTHISTLE_REFUSED_STATE = 14, /* 0 */
    /* of a touch */
    LAMPTHISTLE_REFUSED_PAGE = 16,     /* 0 */
    LAMPTHISTLE_REFUSED_AGE = 17,      /* 0 */
    LAMPTHISTLE_REFUSED_POSITION = 18, /* 0 */
    /* of a stream */
    LAMPTHISTLE_REFUSED_STREAM_LENGTH = 21,  /* its length */
    LAMPTHISTLE_REFUSED_STREAM_VERSION = 22, /* 4 */
    LAMPTHISTLE_REFUSED_CHANNEL_COUNT = 28,  /* 4 */
    LAMPTHISTLE_REFUSED_RECORD = 23,         /* that record, or the first byte left */
    /* of a play as floats */
    LAMPTHISTLE_REFUSED_SIDES = 24, /* 0 */
    /* of a question why a channel is quiet */
    LAMPTHISTLE_REFUSED_CHANNEL = 25, /* 0 */
    /* of a burst of touches, by its lists */
    LAMPTHISTLE_REFUSED_TOUCHES = 26, /* 0 */
    LAMPTHISTLE_REFUSED_ANSWERS = 27, /* 0 */
    LAMPTHISTLE_REFUSED_LISTS = 34    /* 0 */
};

/* What an answer's number means, for a person. */
static inline const char *lampthistle_refusal_text(uint64_t number) {
    switch (number) {
    case LAMPTHISTLE_ACCEPTED: return "accepted";
    case LAMPTHISTLE_REFUSED_SHORT_FILE: return "the file is shorter than 1,084 bytes";
    case LAMPTHISTLE_REFUSED_TAG: return "the tag at byte 1080 is not M.K., 4CHN, 6CHN or 8CHN";
    case LAMPTHISTLE_REFUSED_SONG_LENGTH: return "the song length is 0 or above 128";
    case LAMPTHISTLE_REFUSED_TABLE_ENTRY: return "a table entry is above 63";
    case LAMPTHISTLE_REFUSED_VOLUME: return "a sample's volume is above 64";
    case LAMPTHISTLE_REFUSED_LOOP: return "a sample's loop leaves the sample";
    case LAMPTHISTLE_REFUSED_CUT_FILE: return "the file ends before its patterns and samples do";
    case LAMPTHISTLE_REFUSED_SAMPLE_NUMBER: return "a cell's sample number is above 31";
    case LAMPTHISTLE_REFUSED_PERIOD: return "a cell's period is neither 0 nor 113 to 856";
    case LAMPTHISTLE_REFUSED_TICKS: return "more than 65,535 ticks to translate";
    case LAMPTHISTLE_REFUSED_ROOM: return "the room is shorter than the stream; the place is the length needed";
    case LAMPTHISTLE_REFUSED_STATE: return "the state or board is not legal for this module";
    case LAMPTHISTLE_REFUSED_PAGE: return "the touch was made on another page";
    case LAMPTHISTLE_REFUSED_AGE: return "the touch is older than 25 ticks";
    case LAMPTHISTLE_REFUSED_POSITION: return "the touch names a position at or past the song length";
    case LAMPTHISTLE_REFUSED_STREAM_LENGTH:
        return "the stream is shorter than 9 bytes, or its length is not 4 plus its first number";
    case LAMPTHISTLE_REFUSED_STREAM_VERSION: return "the stream's version is not 1, 2 or 3";
    case LAMPTHISTLE_REFUSED_CHANNEL_COUNT:
        return "the stream's channel count is not the module's, or version 3 is shorter than 10 bytes";
    case LAMPTHISTLE_REFUSED_RECORD: return "a record of the stream is bad, or bytes are left over";
    case LAMPTHISTLE_REFUSED_SIDES: return "the sides asked for are neither 1 nor 2";
    case LAMPTHISTLE_REFUSED_CHANNEL: return "the module has no channel of this number";
    case LAMPTHISTLE_REFUSED_TOUCHES: return "a touch list is longer than 64";
    case LAMPTHISTLE_REFUSED_ANSWERS: return "the answer list is shorter than the longest touch list";
    case LAMPTHISTLE_REFUSED_LISTS: return "the touch lists are not equally long";
    default: return "an unknown refusal";
    }
}

/* Why a channel is quiet in the next frame, in the order in which the causes are asked for, or that it sounds. */
enum lampthistle_cause {
    LAMPTHISTLE_CAUSE_NO_SAMPLE = 1, /* the voice's sample is 0 */
    LAMPTHISTLE_CAUSE_NO_PERIOD = 2, /* the voice's period is 0 */
    LAMPTHISTLE_CAUSE_STOPPED = 3,   /* the voice is stopped */
    LAMPTHISTLE_CAUSE_NO_VOLUME = 4, /* the voice's volume is 0 */
    LAMPTHISTLE_CAUSE_ZERO_BYTE = 5, /* the byte at the voice's index reads 0, as a sample's first two always do */
    LAMPTHISTLE_CAUSE_SOUNDS = 6     /* none of these: what the voice gives is not 0 */
};

/* What a cause means, for a person. */
static inline const char *lampthistle_cause_text(uint64_t cause) {
    switch (cause) {
    case LAMPTHISTLE_CAUSE_NO_SAMPLE: return "it has no sample";
    case LAMPTHISTLE_CAUSE_NO_PERIOD: return "its period is 0";
    case LAMPTHISTLE_CAUSE_STOPPED: return "its sample has ended";
    case LAMPTHISTLE_CAUSE_NO_VOLUME: return "its volume is 0";
    case LAMPTHISTLE_CAUSE_ZERO_BYTE: return "its sample is at a byte that reads 0";
    case LAMPTHISTLE_CAUSE_SOUNDS: return "it sounds";
    default: return "an unknown cause";
    }
}

typedef struct lampthistle_state {
    uint32_t cell[LAMPTHISTLE_STATE_CELLS];
} lampthistle_state;

/* The song's cells. */
enum lampthistle_cell {
    LAMPTHISTLE_POSITION,
    LAMPTHISTLE_ROW,
    LAMPTHISTLE_TICK, /* the tick in the row, from 0 */
    LAMPTHISTLE_DELAY,
    LAMPTHISTLE_NEXT_POSITION,
    LAMPTHISTLE_NEXT_ROW,
    LAMPTHISTLE_LOOP_ROW,
    LAMPTHISTLE_LOOP_COUNT,
    LAMPTHISTLE_SPEED,
    LAMPTHISTLE_TEMPO,
    LAMPTHISTLE_REMAINDER, /* what the ticks at this tempo left over, below the tempo */
    LAMPTHISTLE_CLOCK,     /* ticks played, modulo 2^32 */
    LAMPTHISTLE_PAGE,
    LAMPTHISTLE_FIRST_CHANNEL /* the channels' cells begin here */
};

/* A channel's cells. A wave's x, what its place gains with each use, and y, its depth, are remembered; its place is 0 to 63, its form a
   lampthistle_form. */
enum lampthistle_channel_cell {
    LAMPTHISTLE_LATCHED_SAMPLE,
    LAMPTHISTLE_FINETUNE, /* -8 to 7, as a 32-bit number in two's complement */
    LAMPTHISTLE_VOLUME,
    LAMPTHISTLE_PERIOD,
    LAMPTHISTLE_TARGET,
    LAMPTHISTLE_SLIDE_MEMORY,
    LAMPTHISTLE_VIBRATO_X,
    LAMPTHISTLE_VIBRATO_Y,
    LAMPTHISTLE_VIBRATO_PLACE,
    LAMPTHISTLE_VIBRATO_FORM,
    LAMPTHISTLE_TREMOLO_X,
    LAMPTHISTLE_TREMOLO_Y,
    LAMPTHISTLE_TREMOLO_PLACE,
    LAMPTHISTLE_TREMOLO_FORM,
    LAMPTHISTLE_VOICE_SAMPLE,
    LAMPTHISTLE_VOICE_PERIOD,
    LAMPTHISTLE_VOICE_VOLUME,
    LAMPTHISTLE_VOICE_INDEX,
    LAMPTHISTLE_VOICE_FRACTION,
    LAMPTHISTLE_VOICE_STOPPED, /* 0 or 1 */
    LAMPTHISTLE_CHANNEL_CELLS
};

/* A wave's forms. */
enum lampthistle_form {
    LAMPTHISTLE_FORM_SINE,
    LAMPTHISTLE_FORM_RAMP,
    LAMPTHISTLE_FORM_SQUARE
};

/* Where a channel's cell stands in the state; channels from 0. */
#define LAMPTHISTLE_CHANNEL_CELL(channel, which) \
    (LAMPTHISTLE_FIRST_CHANNEL + LAMPTHISTLE_CHANNEL_CELLS * (channel) + (which))

/* How many numbers a call of play for one tick wrote, from the state before it and after it, where its count is 1. */
static inline size_t lampthistle_tick_numbers(const uint32_t before[LAMPTHISTLE_STATE_CELLS],
                                              const uint32_t after[LAMPTHISTLE_STATE_CELLS]) {
    const size_t tempo = after[LAMPTHISTLE_TEMPO];
    const size_t remainder = before[LAMPTHISTLE_TEMPO] == tempo ? before[LAMPTHISTLE_REMAINDER] : 0;
    return tempo == 0 ? 0 : 2 * ((120000 + remainder) / tempo);
}

/* The same of a call of play_floats for one tick, in floats, for so many sides. */
static inline size_t lampthistle_tick_floats(const uint32_t before[LAMPTHISTLE_STATE_CELLS],
                                             const uint32_t after[LAMPTHISTLE_STATE_CELLS], uint32_t sides) {
    return sides * (lampthistle_tick_numbers(before, after) / 2);
}

typedef struct lampthistle_board {
    uint32_t cell[LAMPTHISTLE_BOARD_CELLS];
} lampthistle_board;

/* A board's cells. The bytes taken are the place and the bytes kept; LOW and HIGH are a number's two halves of 32 bits. */
enum lampthistle_board_cell {
    LAMPTHISTLE_BOARD_PLACE_LOW, /* where the open record begins; 0 while the header is open */
    LAMPTHISTLE_BOARD_PLACE_HIGH,
    LAMPTHISTLE_BOARD_KEPT,        /* how many bytes of the open header or record are kept */
    LAMPTHISTLE_BOARD_FIRST_BYTES, /* room for 52 of them, four a cell, the first lowest */
    LAMPTHISTLE_BOARD_FOLLOW = LAMPTHISTLE_BOARD_FIRST_BYTES + 13, /* the header's numbers, when it is in: how many bytes follow */
    LAMPTHISTLE_BOARD_VERSION,
    LAMPTHISTLE_BOARD_STREAM_CHANNELS, /* byte 5, which is the channel count from version 3 on */
    LAMPTHISTLE_BOARD_TICKS,
    LAMPTHISTLE_BOARD_RECORDS,      /* how many are played */
    LAMPTHISTLE_BOARD_FAULT_NUMBER, /* the kept fault, or 0 */
    LAMPTHISTLE_BOARD_FAULT_LOW,    /* its place */
    LAMPTHISTLE_BOARD_FAULT_HIGH,
    LAMPTHISTLE_BOARD_TEMPO,       /* the last tick's; version 1 leaves it and the remainder alone */
    LAMPTHISTLE_BOARD_REMAINDER,   /* what the ticks at this tempo left over, below the tempo */
    LAMPTHISTLE_BOARD_FIRST_VOICE, /* the voices' cells begin here */
    LAMPTHISTLE_VOICE_CELLS = LAMPTHISTLE_VOICE_STOPPED - LAMPTHISTLE_VOICE_SAMPLE + 1
};

/* Where a voice's cell stands in the board; channels from 0, and the cell by its name in a state, LAMPTHISTLE_VOICE_SAMPLE to
   LAMPTHISTLE_VOICE_STOPPED. */
#define LAMPTHISTLE_BOARD_VOICE_CELL(channel, which) \
    (LAMPTHISTLE_BOARD_FIRST_VOICE + LAMPTHISTLE_VOICE_CELLS * (channel) + (which) - LAMPTHISTLE_VOICE_SAMPLE)

/* How many numbers a call of board_feed wrote, from the board before it and after it, where its count is 1. Under version 1 the board's
   tempo is not the tick's: that is the second byte of its record, which the board holds until the next record's second byte is taken. Then
   this is 0. In a stream that is fed byte by byte that does not happen. */
static inline size_t lampthistle_board_numbers(const uint32_t before[LAMPTHISTLE_BOARD_CELLS],
                                               const uint32_t after[LAMPTHISTLE_BOARD_CELLS]) {
    size_t tempo = after[LAMPTHISTLE_BOARD_TEMPO];
    size_t remainder = before[LAMPTHISTLE_BOARD_TEMPO] == tempo ? before[LAMPTHISTLE_BOARD_REMAINDER] : 0;
    if (after[LAMPTHISTLE_BOARD_VERSION] == 1) {
        tempo = after[LAMPTHISTLE_BOARD_KEPT] < 2 ? after[LAMPTHISTLE_BOARD_FIRST_BYTES] / 256 % 256 : 0;
        remainder = 0;
    }
    return tempo == 0 ? 0 : 2 * ((120000 + remainder) / tempo);
}

/* The version of the library that is linked, as LAMPTHISTLE_VERSION. */
uint32_t lampthistle_version(void);

/* Whether the bytes are a module that can be played: refusals 1 to 9. */
void lampthistle_judge(const uint8_t *file, size_t file_len, uint64_t answer[LAMPTHISTLE_ANSWER_CELLS]);

/* How many channels the file's tag names: 4, 6 or 8; 0 where the file is too short to have a tag, or the tag is another, so that
   lampthistle_judge answers 1 or 2. Nothing else of the file is looked at. */
uint32_t lampthistle_channels(const uint8_t *file, size_t file_len);

/* Writes the state before the first tick of any song: position, row, remainder and clock 0, speed 6, tempo 125, voices stopped. */
void lampthistle_fresh(uint32_t state[LAMPTHISTLE_STATE_CELLS]);

/* Plays the largest number of whole ticks, up to `ticks`, whose frames fit into `out`; counts them. The state goes on by as many ticks,
   the frames lie at the beginning of `out`, and the rest of `out` stays. Refusals 1 to 9, 14. */
void lampthistle_play(const uint8_t *file, size_t file_len, uint32_t state[LAMPTHISTLE_STATE_CELLS], uint32_t ticks,
                      int16_t *out, size_t out_len, uint64_t answer[LAMPTHISTLE_ANSWER_CELLS]);

/* Plays as lampthistle_play does, but floats for 1 or 2 `sides`: the largest number of whole ticks, up to `ticks`, whose floats fit into
   `out`. The last frame's left and right go to `pair` and its tick in the call to `pair_tick`; without a frame both stay. Refusals 1 to 9,
   14, 24. */
void lampthistle_play_floats(const uint8_t *file, size_t file_len, uint32_t state[LAMPTHISTLE_STATE_CELLS], uint32_t ticks,
                             uint32_t sides, float *out, size_t out_len, float pair[2], uint32_t *pair_tick,
                             uint64_t answer[LAMPTHISTLE_ANSWER_CELLS]);

/* Takes a touch: the song goes to the beginning of `position`; voices, speed, tempo, remainder, clock and page stay. Refusals 1 to 9,
   14, 16 to 18. */
void lampthistle_touch(const uint8_t *file, size_t file_len, uint32_t state[LAMPTHISTLE_STATE_CELLS],
                       uint32_t page, uint32_t made, uint32_t position, uint64_t answer[LAMPTHISTLE_ANSWER_CELLS]);

/* Takes up to LAMPTHISTLE_MOST_TOUCHES touches in their order: touch k was made on pages[k] at clock mades[k] for positions[k]. State and
   answers are those of single touches: answers[k] is 0, or the refusal 16, 17 or 18 of touch k alone. Counts the touches, answered by
   0 or not; no touch at all is accepted, too. Answers past the touches stay. Refusals 1 to 9, 14, 26, 27, 34. */
void lampthistle_touch_burst(const uint8_t *file, size_t file_len, uint32_t state[LAMPTHISTLE_STATE_CELLS],
                             const uint32_t *pages, size_t pages_len, const uint32_t *mades, size_t mades_len,
                             const uint32_t *positions, size_t positions_len, uint32_t *answers, size_t answers_len,
                             uint64_t answer[LAMPTHISTLE_ANSWER_CELLS]);

/* Adds 1 to the page, modulo 2^32. Refusals 1 to 9, 14. */
void lampthistle_change_page(const uint8_t *file, size_t file_len, uint32_t state[LAMPTHISTLE_STATE_CELLS],
                             uint64_t answer[LAMPTHISTLE_ANSWER_CELLS]);

/* Why a channel of the module, counted from 1, is quiet in the next frame, or that it sounds; the count is an enum lampthistle_cause. The
   state stays. Refusals 1 to 9, 14, 25. */
void lampthistle_why_quiet(const uint8_t *file, size_t file_len, const uint32_t state[LAMPTHISTLE_STATE_CELLS],
                           uint32_t channel, uint64_t answer[LAMPTHISTLE_ANSWER_CELLS]);

/* Writes the stream, of version 3, of the song's first `ticks` ticks, from the fresh state, into `room`; counts its bytes. Room past
   them stays. With room_len 0 it is a question for the length needed (12). Refusals 1 to 9, 11, 12. */
void lampthistle_translate(const uint8_t *file, size_t file_len, uint32_t ticks,
                           uint8_t *room, size_t room_len, uint64_t answer[LAMPTHISTLE_ANSWER_CELLS]);

/* Plays the largest number of the ticks of a stream whose frames fit into `out`, from its first tick, stopped voices and remainder 0,
   with the samples of the module; counts them. The rest of `out` stays. Refusals 1 to 9, 21, 22, 28, 23; every record is judged, also
   those that do not fit. */
void lampthistle_play_stream(const uint8_t *stream, size_t stream_len, const uint8_t *file, size_t file_len,
                             int16_t *out, size_t out_len, uint64_t answer[LAMPTHISTLE_ANSWER_CELLS]);

/* Plays as lampthistle_play_stream does, but floats for 1 or 2 `sides`, with `pair` and `pair_tick` as in lampthistle_play_floats.
   Refusals 1 to 9, 24, 21, 22, 28, 23, in this order. */
void lampthistle_play_stream_floats(const uint8_t *stream, size_t stream_len, const uint8_t *file, size_t file_len,
                                    uint32_t sides, float *out, size_t out_len, float pair[2], uint32_t *pair_tick,
                                    uint64_t answer[LAMPTHISTLE_ANSWER_CELLS]);

/* Plays the ticks of a stream from tick `from` on, counted from 0: the largest number of whole ticks, beginning with that one, whose
   frames fit into `out`; counts them. Their frames are those that lampthistle_play_stream has for these ticks: the ticks before `from`
   move voices and remainder, but are not written. The first frame stands at out[0], and the rest of `out` stays. Any `from` is
   accepted; where the stream has no such tick nothing is played. Refusals 1 to 9, 21, 22, 28, 23. */
void lampthistle_play_stream_from(const uint8_t *stream, size_t stream_len, const uint8_t *file, size_t file_len,
                                  uint32_t from, int16_t *out, size_t out_len, uint64_t answer[LAMPTHISTLE_ANSWER_CELLS]);

/* Plays as lampthistle_play_stream_from does, but floats for 1 or 2 `sides`, with `pair` and `pair_tick` as in lampthistle_play_floats:
   tick `from` is the call's tick 0. Refusals 1 to 9, 24, 21, 22, 28, 23, in this order. */
void lampthistle_play_stream_floats_from(const uint8_t *stream, size_t stream_len, const uint8_t *file, size_t file_len,
                                         uint32_t from, uint32_t sides, float *out, size_t out_len, float pair[2],
                                         uint32_t *pair_tick, uint64_t answer[LAMPTHISTLE_ANSWER_CELLS]);

/* Writes the board before the first byte of any stream: nothing taken, voices stopped, tempo and remainder 0. */
void lampthistle_board_fresh(uint32_t board[LAMPTHISTLE_BOARD_CELLS]);

/* Takes bytes of a stream as it arrives, and plays each record when its last byte is in, with the samples of the module: until no byte is
   left, one shows a fault, or a tick does not fit into `out`; then its last byte is not taken. Counts the ticks played and the bytes
   taken. The frames lie at the beginning of `out`, and the rest of `out` stays. A fault is kept in the board, and repeated by later calls.
   Refusals 1 to 9, 14, 21, 22, 28, 23. */
void lampthistle_board_feed(const uint8_t *file, size_t file_len, uint32_t board[LAMPTHISTLE_BOARD_CELLS],
                            const uint8_t *bytes, size_t bytes_len, int16_t *out, size_t out_len,
                            uint64_t answer[LAMPTHISTLE_FEED_CELLS]);

/* Tells a board that its stream has ended: 21 short of the declared end, which is kept, or the fault that is kept already. Refusals 1 to
   9, 14, 21, 22, 28, 23. */
void lampthistle_board_close(const uint8_t *file, size_t file_len, uint32_t board[LAMPTHISTLE_BOARD_CELLS],
                             uint64_t answer[LAMPTHISTLE_ANSWER_CELLS]);

#ifdef __cplusplus
}
#endif
#endif
