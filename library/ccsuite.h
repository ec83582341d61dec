/* ccsuite.h: broadcast captions as a library, for makers of encoders, players and test gear.
 *
 * Commands of the program `ccsuite` as calls: each answers what the command of its name answers, over memory in place of files; and builders,
 * receivers and verifiers that live from one call to the next. The library is written in Rattle and proved; this header and what a caller owes are
 * not. Valid C11 and C++17.
 *
 * NOT HERE
 *   Frame after frame, one list is built (not two, and not with packets of extended data), and words are received and verified: insertion,
 *   conversion, extended data and files are whole runs alone. A receiver hears of no extended data. The command `fit` has no call, nor has `import`
 *   with a time code.
 *
 * BYTES
 *   A cue list is the text that `ccsuite build` reads, a list of packets the one that `ccsuite xds` reads (docs/MANUAL.md). Words are ancillary
 *   packets of captions as 16-bit words, the first byte the high one: SMPTE ST 334-1 packets (ST 291-1) of ST 334-2 distribution packets. SCC and
 *   MCC files are texts. Frames, cues and bytes are counted in whole numbers, as each field says; there are no times in seconds.
 *
 * ANSWERS
 *   Every call but `_close` and `ccsuite_version` returns one of the codes below, and says beside it which can come. Codes 0 to 13 are the exit
 *   statuses of the program. Where a call answers with a report, the report has the numbers of its status, and its line, which the program writes
 *   to its standard error; of CCSUITE_ARGUMENT it is `argument out of range`, of CCSUITE_ROOM `too little room`.
 *
 * MEMORY
 *   The caller owns every buffer, and the library keeps no pointer to one beyond the call. A handle owns what its `_open` took from malloc, and
 *   `_close` frees it. Out of memory is an answer (CCSUITE_MEMORY), never fatal; a call that answers it has freed what it took.
 *   Nothing is written past `room`. Bytes of `out` after the written ones are as they were. ROOM comes only where there are more bytes
 *   to write than `room`.
 *
 * HANDLES
 *   A handle lives in the caller's memory and is two words. All zeros is a closed one: write `ccsuite_builder builder = {0};` (C++: `{}`).
 *   A call on a closed handle answers CCSUITE_CLOSED and does nothing; closing a closed one does nothing; opening an open one frees what it
 *   held. An open that fails leaves the handle closed. A handle of another kind is answered as a closed one, and `_close` leaves it as it is.
 *
 * WHAT A CALLER OWES
 *   Nothing checks it: by its type a pointer that comes from C is valid, so a null one can't be told from others; nor can a handle's copy.
 *   - A handle is zeroed before its first call, then written by this library's calls alone, and never copied. It goes to one call at a time; it
 *     may go from thread to thread. Different handles are independent.
 *   - A `bool` is 0 or 1. No pointer is null, even with length 0. A length counts bytes that may be read or, of `out`, written, and is below 2^63.
 *   - What a call writes overlaps nothing else that it is given.
 *   - malloc, realloc and free are of one allocator. No call comes from a signal handler, nor from the child that was forked in a process with
 *     threads. 256 KB of stack were enough for every call that was tried; give 512.
 */
#ifndef CCSUITE_H
#define CCSUITE_H

/* The version of this header; `ccsuite_version` tells the version of the library at run time. MINOR rises with a call or a field that
 * is new, PATCH with neither. If a program would have to be compiled anew, MAJOR rises, and the library has another soname: libccsuite.so.0 here. Structs
 * that the library writes have fields `reserved`, which are 0, so that a field may come without that. */
#define CCSUITE_VERSION "1.0"
#define CCSUITE_VERSION_MAJOR 1
#define CCSUITE_VERSION_MINOR 0
#define CCSUITE_VERSION_PATCH 0

#include <stdbool.h>
#include <stddef.h>
#include <stdint.h>

#ifdef __cplusplus
extern "C" {
#endif

/* Codes: the statuses of the program. */
enum {
    CCSUITE_OK = 0,           /* done */
    CCSUITE_ARGUMENT = 1,     /* an argument is out of its range; nothing was done */
    CCSUITE_READ_FAULT = 2,   /* never over memory */
    CCSUITE_ROOM = 3,         /* `out` has too little room */
    CCSUITE_MEMORY = 4,       /* memory wasn't found */
    CCSUITE_LIMIT = 5,        /* the input passes a limit: report.limit */
    CCSUITE_MALFORMED = 6,    /* malformed: report.why at report.place, or at report.record and report.field */
    CCSUITE_RULE = 7,         /* a cue breaks a rule: report.why, report.cue, report.other */
    CCSUITE_NO_ROOM = 8,      /* report.cue is the first without a placement */
    CCSUITE_DIFFERS = 9,      /* report.why was found at report.frame */
    CCSUITE_SHORT = 10,       /* the words have only report.frame frames */
    CCSUITE_NO_ROOM_BESIDE = 11, /* report.cue of the second list is the first without a placement beside the first list */
    CCSUITE_NO_XDS_ROOM = 12, /* report.packet is the first XDS packet that doesn't end in a free slot */
    CCSUITE_MISFIT = 13,      /* report.frame can't be converted to 59.94: report.misfit */
    /* Codes of handles alone. */
    CCSUITE_CLOSED = 32,      /* the handle is closed */
    CCSUITE_END = 33,         /* there is no further frame */
    CCSUITE_FULL = 34,        /* 4,294,967,295 frames have ended, and no more can be counted */
    CCSUITE_NONE = 35         /* there is no such frame or window */
};

/* The reasons: report.why, fed.why. `ccsuite_reason_of` tells what each says. */
enum {
    /* words and packets */
    CCSUITE_WHY_OVERRUN = 1,
    CCSUITE_WHY_IDENTIFIER = 2,
    CCSUITE_WHY_LENGTH = 3,
    CCSUITE_WHY_RATE = 4,
    CCSUITE_WHY_SECTION = 5,
    CCSUITE_WHY_COUNT = 6,
    CCSUITE_WHY_COUNTER = 7,
    CCSUITE_WHY_SUM = 8,
    CCSUITE_WHY_HIGH_BITS = 9,
    CCSUITE_WHY_WORD_PARITY = 10,
    CCSUITE_WHY_FLAG = 11,
    CCSUITE_WHY_ANC_SUM = 12,
    CCSUITE_WHY_TRUNCATED = 13,
    /* SCC and MCC files */
    CCSUITE_WHY_NO_SUCH_TIME = 14,
    CCSUITE_WHY_HEADER = 15,
    CCSUITE_WHY_SCC_SYNTAX = 16,
    CCSUITE_WHY_BACKWARDS = 17,
    /* cue lists */
    CCSUITE_WHY_FIELD = 20,
    CCSUITE_WHY_NO_CODE = 21,
    CCSUITE_WHY_ORDER = 22,
    CCSUITE_WHY_OVERLAP = 23,
    CCSUITE_WHY_CLASH = 24,
    CCSUITE_WHY_UNHIDDEN = 25,
    CCSUITE_WHY_WINDOW_BUSY = 26,
    CCSUITE_WHY_DELAY_COVERS = 27,
    CCSUITE_WHY_SHARE = 28,
    CCSUITE_WHY_PAST_END = 29,
    CCSUITE_WHY_OFF_SLOT = 31,
    CCSUITE_WHY_FIELD_CLASH = 32,
    CCSUITE_WHY_OTHER_LIST = 33,
    CCSUITE_WHY_MCC_SYNTAX = 34,
    /* findings */
    CCSUITE_WHY_COUNTER_JUMP = 40,
    CCSUITE_WHY_WRONG_COUNT = 41,
    CCSUITE_WHY_BUFFER_FULL = 42,
    CCSUITE_WHY_GRID_DIFFERS = 43,
    CCSUITE_WHY_WRONG_RATE = 44,
    CCSUITE_WHY_TWO_PAIRS = 45,
    CCSUITE_WHY_EIGHT_BITS = 46
};

/* Frame rates, by their codes in distribution packets (SMPTE ST 334-2). */
enum {
    CCSUITE_RATE_23_976 = 1,
    CCSUITE_RATE_24 = 2,
    CCSUITE_RATE_25 = 3,
    CCSUITE_RATE_29_97 = 4,
    CCSUITE_RATE_30 = 5,
    CCSUITE_RATE_50 = 6,
    CCSUITE_RATE_59_94 = 7,
    CCSUITE_RATE_60 = 8
};

/* How a run ended. A number that the status doesn't carry is 0. Written whole by each call that takes one. */
typedef struct ccsuite_report {
    uint32_t status;   /* the code, 0 to 13; what the call returns */
    uint32_t why;      /* the number of the reason, 1 to 46 (docs/MANUAL.md): of MALFORMED, RULE, DIFFERS */
    uint32_t limit;    /* of LIMIT: 1 bytes, 2 frames, 3 cues, 4 packet, 5 day */
    uint32_t misfit;   /* of MISFIT: 1 rate, 2 count, 3 one, 4 two, 5 many, 6 changed */
    uint32_t record;   /* of MALFORMED in a cue list: the record, counted from 1; 0 where a byte is at fault */
    uint32_t field;    /* its field, counted from 1 */
    uint32_t cue;      /* of RULE, NO_ROOM, NO_ROOM_BESIDE: the cue, counted from 1 */
    uint32_t other;    /* of RULE: the other cue, counted from 1; 0 where there is none */
    uint32_t packet;   /* of NO_XDS_ROOM: the packet, counted from 1 */
    uint32_t frame;    /* of DIFFERS, MISFIT: the frame, counted from 0; of SHORT: the number of frames */
    uint32_t channel;  /* of DIFFERS, MISFIT: the channel that shows something else, 1 CC1 to 4 CC4 */
    uint32_t service;  /* of DIFFERS, MISFIT: the service that does, or whose buffer is full, 1 to 63 */
    uint32_t expected; /* of DIFFERS: the counter, number of triplets, code of a rate (1 to 8) or number of pairs that is wanted */
    uint32_t seen;     /* of DIFFERS, MISFIT: what there is in its place */
    uint64_t place;    /* of MALFORMED: the byte at fault, counted from 0 */
    uint64_t written;  /* the number of bytes that stand at the front of `out` */
    uint64_t wanted;   /* of ROOM: how many bytes the whole output has */
    uint64_t reserved[7];
    char text[160];    /* the line of the status, with its line end, and behind it zeros; empty of OK */
} ccsuite_report;

/* A reason, as texts with zeros after them. */
typedef struct ccsuite_reason {
    char name[32];      /* as the program writes it, as `GridDiffers` */
    char sentence[128]; /* what is wrong, with a full stop */
} ccsuite_reason;

/* Tells the reason of a number. ARGUMENT where there is none, and then the struct is as it was. */
uint32_t ccsuite_reason_of(uint32_t why, ccsuite_reason *reason);

/* The version of the library: 65,536 MAJOR + 256 MINOR + PATCH. */
uint32_t ccsuite_version(void);

/* ---- Whole runs ------------------------------------------------------------------------------------------------------------------------
 * Each reads its input to the end, writes to the front of `out`, fills the report and returns report->status. Where it isn't OK, the bytes
 * that were written before stand in `out` all the same (report->written), as with the program; commands that judge first have written none.
 * ROOM: the output has more bytes than `out`, whose whole room a front of it fills; report->wanted is how much room is enough. Memory is taken for the
 * output too, beside `out`. These are always enough: of `build`, `dual` and `xds` for each frame of the list 40 bytes and 6 for each triplet of the
 * rate's frames (160 at 29.97 and 30, 100 at 59.94 and 60), of `pairs` 10 for each frame, of `verify` 3, of `load` 100. */

/* A cue list in; out a line for each frame, of its pairs of both fields; or the words of each frame; or the list as it is written.
 * LIMIT, MALFORMED, RULE, NO_ROOM (not of cues), ROOM, MEMORY. */
uint32_t ccsuite_pairs(const uint8_t *list, size_t list_size, uint8_t *out, size_t room, ccsuite_report *report);
uint32_t ccsuite_build(const uint8_t *list, size_t list_size, uint8_t *out, size_t room, ccsuite_report *report);
uint32_t ccsuite_cues(const uint8_t *list, size_t list_size, uint8_t *out, size_t room, ccsuite_report *report);

/* Two cue lists in; out the words of both, the second on CC2 and CC4. LIMIT, MALFORMED, RULE, NO_ROOM, NO_ROOM_BESIDE, ROOM, MEMORY. */
uint32_t ccsuite_dual(const uint8_t *list, size_t list_size, const uint8_t *other, size_t other_size, uint8_t *out, size_t room,
                      ccsuite_report *report);

/* A cue list and a list of packets of extended data (XDS) in; out the words of the cue list, with the packets in the slots of field 2 that its
 * captions leave free. NO_XDS_ROOM at the first packet that doesn't fit; LIMIT, MALFORMED, RULE, NO_ROOM, ROOM, MEMORY. */
uint32_t ccsuite_xds(const uint8_t *list, size_t list_size, const uint8_t *packets, size_t packets_size, uint8_t *out, size_t room,
                     ccsuite_report *report);

/* Words in; out the screens and windows that change at each frame, and then the number of frames. LIMIT, MALFORMED, ROOM, MEMORY.
 * conceal takes words of which frames are missing, or whose bytes of line 21 have bad parity. */
uint32_t ccsuite_decode(const uint8_t *words, size_t words_size, uint8_t *out, size_t room, ccsuite_report *report);
uint32_t ccsuite_conceal(const uint8_t *words, size_t words_size, uint8_t *out, size_t room, ccsuite_report *report);

/* Words in; out the packets of extended data (XDS) that end in each frame, and then the number of frames. LIMIT, MALFORMED, ROOM, MEMORY. */
uint32_t ccsuite_xds_show(const uint8_t *words, size_t words_size, uint8_t *out, size_t room, ccsuite_report *report);

/* Words at 29.97 frames a second in; out words at 59.94 that show the same. MISFIT at the first frame that can't be converted; LIMIT, MALFORMED,
 * ROOM, MEMORY. */
uint32_t ccsuite_convert(const uint8_t *words, size_t words_size, uint8_t *out, size_t room, ccsuite_report *report);

/* Words in; out all screens and windows at a frame, counted from 0. SHORT where there is no such frame; LIMIT, MALFORMED, ROOM, MEMORY. */
uint32_t ccsuite_show(const uint8_t *words, size_t words_size, uint32_t frame, uint8_t *out, size_t room, ccsuite_report *report);

/* Words and a cue list in; out `ok` and a line end where nothing is found. DIFFERS at the first finding, SHORT where the list has more frames;
 * LIMIT, MALFORMED (record is 0: the words; else the list), RULE, ROOM, MEMORY. */
uint32_t ccsuite_verify(const uint8_t *words, size_t words_size, const uint8_t *list, size_t list_size, uint8_t *out, size_t room,
                        ccsuite_report *report);

/* Words and a cue list in; out the words with the list's captions in place of their own. DIFFERS at the first frame of another rate, LIMIT
 * (packet) where a packet would be too long, SHORT where the list has more frames; other LIMITs, MALFORMED as of verify, RULE, NO_ROOM, ROOM,
 * MEMORY. */
uint32_t ccsuite_insert(const uint8_t *words, size_t words_size, const uint8_t *list, size_t list_size, uint8_t *out, size_t room,
                        ccsuite_report *report);

/* An SCC file in; out words that carry its pairs, at 29.97 frames a second. LIMIT, MALFORMED, ROOM, MEMORY. */
uint32_t ccsuite_import(const uint8_t *scc, size_t scc_size, uint8_t *out, size_t room, ccsuite_report *report);

/* An MCC file in; out the words of its packets, each packet of captions at its time, with frames without captions where some are missing.
 * LIMIT (bytes, frames), MALFORMED, ROOM, MEMORY. */
uint32_t ccsuite_import_mcc(const uint8_t *mcc, size_t mcc_size, uint8_t *out, size_t room, ccsuite_report *report);

/* The time code of frame 0. */
typedef struct ccsuite_time {
    uint8_t hours;   /* 0 to 23 */
    uint8_t minutes; /* 0 to 59 */
    uint8_t seconds; /* 0 to 59 */
    uint8_t frames;  /* from 0, and below the number in a second */
    bool drop_frame; /* it counts with drop frame */
} ccsuite_time;

/* Words in; out the SCC file of their field 1, whose time codes count 30 frames a second. ARGUMENT where no frame of the day has the time code;
 * DIFFERS, LIMIT, MALFORMED, ROOM, MEMORY. */
uint32_t ccsuite_export(const uint8_t *words, size_t words_size, const ccsuite_time *start, uint8_t *out, size_t room, ccsuite_report *report);

/* Words in; out the MCC file of all their packets, whose time codes count this many frames a second: 24, 25, 30, 50 or 60, at 30 and 60 with drop
 * frame too. ARGUMENT where they can't count so, or no frame of the day has the time code; DIFFERS at the first packet whose rate they don't count,
 * or that MCC can't carry; LIMIT (bytes, day), MALFORMED, ROOM, MEMORY. */
uint32_t ccsuite_export_mcc(const uint8_t *words, size_t words_size, uint32_t frames, const ccsuite_time *start, uint8_t *out, size_t room,
                            ccsuite_report *report);

/* Out four lines on what comes of a list of this many captions, 1 to 10,000, that the library makes, builds and shows: a test of the library on this
 * machine. ARGUMENT, ROOM, MEMORY. */
uint32_t ccsuite_load(uint32_t count, uint8_t *out, size_t room, ccsuite_report *report);

/* ---- Packets of one frame ------------------------------------------------------------------------------------------------------------------
 * A frame's captions as triplets of cc_data (CTA-708-E), in a distribution packet (CDP, SMPTE ST 334-2), in the words of an ancillary packet
 * (SMPTE ST 334-1). None of these calls takes memory. Of ROOM `*written` is how many bytes are wanted, and `out` is as it was; of other answers than
 * OK and ROOM it is 0. */

/* The most bytes of the triplets of a packet that is written (31 of them), and of one that is read; of a distribution packet; of a packet's words. */
#define CCSUITE_CC_DATA_SIZE 93
#define CCSUITE_CC_DATA_ROOM 244
#define CCSUITE_CDP_ROOM 255
#define CCSUITE_PACKET_ROOM 524

/* Triplets in, three bytes each; out the words of the packet that carries them and nothing else, with this rate and counter. ARGUMENT where the rate is
 * none of the eight, the counter is above 65,535, or `size` isn't a multiple of three up to CCSUITE_CC_DATA_SIZE; ROOM. The marker bits, the top five of a
 * triplet's first byte, are written as ones. */
uint32_t ccsuite_words_from_cc_data(const uint8_t *cc_data, size_t size, uint32_t rate, uint32_t counter, uint8_t *out, size_t room, size_t *written);

/* What a packet says beside its triplets. */
typedef struct ccsuite_packet {
    uint32_t rate;    /* the code of its rate */
    uint32_t counter; /* its number, 0 to 65,535 */
    uint32_t flags;   /* as they stand */
    uint32_t reserved[5];
} ccsuite_packet;

/* The words of one ancillary packet of captions in; out its triplets as they stand, and in `packet` what else it says, which is written only where the
 * answer is OK. MALFORMED where the words aren't just one such packet, whole and right in both layers (a receiver tells why, if they are fed to it); ROOM. */
uint32_t ccsuite_cc_data_from_words(const uint8_t *words, size_t size, uint8_t *out, size_t room, size_t *written, ccsuite_packet *packet);

/* A distribution packet in; out the words that carry it, byte for byte. MALFORMED where it isn't one, from the first byte to the last; ROOM. */
uint32_t ccsuite_words_from_cdp(const uint8_t *cdp, size_t size, uint8_t *out, size_t room, size_t *written);

/* The other way. MALFORMED as of ccsuite_cc_data_from_words; ROOM. */
uint32_t ccsuite_cdp_from_words(const uint8_t *words, size_t size, uint8_t *out, size_t room, size_t *written);

/* ---- A builder: the frames of a cue list, one after another ------------------------------------------------------------------------------ */

typedef struct ccsuite_builder {
    bool live; /* the library's own */
    void *at;  /* the library's own */
} ccsuite_builder;

/* Opens it at frame 0 of a cue list; `list` may go when this returns. LIMIT, MALFORMED, RULE, NO_ROOM, MEMORY. */
uint32_t ccsuite_builder_open(const uint8_t *list, size_t list_size, ccsuite_builder *builder, ccsuite_report *report);

/* Writes the ancillary packet of the next frame to the front of `out`, and its number of bytes to `*written`. Takes no memory. CLOSED; ROOM where the
 * packet has more bytes than `out`, and then `*written` is how many, `out` is as it was, and the frame is still the next; END after the last frame,
 * from then on. Of CLOSED and END `*written` is 0. CCSUITE_PACKET_ROOM is always enough. */
uint32_t ccsuite_builder_next(ccsuite_builder *builder, uint8_t *out, size_t room, size_t *written);

/* The same of the frame's triplets of cc_data alone: as many as the rate's frames have, three bytes each. CCSUITE_CC_DATA_SIZE is always enough. Both
 * calls go to the next frame. */
uint32_t ccsuite_builder_next_cc_data(ccsuite_builder *builder, uint8_t *out, size_t room, size_t *written);

void ccsuite_builder_close(ccsuite_builder *builder);

/* ---- A receiver: words in, in any pieces; cells, windows and texts of what they show ----------------------------------------------------- */

typedef struct ccsuite_receiver {
    bool live; /* the library's own */
    void *at;  /* the library's own */
} ccsuite_receiver;

/* How far a call read, and what it met. */
typedef struct ccsuite_fed {
    size_t used;    /* the number of bytes read; feed those behind them next */
    uint64_t place; /* of MALFORMED: the refused word's first byte, counted from the first byte that was ever fed; or how many were fed */
    uint32_t ended; /* 0: no packet ended. 1: one that isn't of captions. 2: one of captions, and with it a frame */
    uint32_t why;   /* of MALFORMED: the number of the reason, 1 to 12; 13 where the words are cut short, of `_finish` */
    uint64_t reserved[2];
} ccsuite_fed;

/* The last whole frame. */
typedef struct ccsuite_frame {
    uint64_t number;  /* how many frames came before it; of a concealing receiver, its number by the frames' counters */
    uint64_t missing; /* how many frames are missing right before it, 0 to 65,535; 0 of one that doesn't conceal */
    uint32_t frames;  /* the number of whole frames so far */
    uint32_t reserved[3];
} ccsuite_frame;

/* A cell of a channel; all zeros where it is empty. */
typedef struct ccsuite_cell {
    uint32_t ch;       /* the Unicode scalar value; 0 where the cell is empty */
    uint8_t colour;    /* 0 white, 1 green, 2 blue, 3 cyan, 4 red, 5 yellow, 6 magenta */
    uint8_t italic;    /* 0 or 1 */
    uint8_t underline; /* 0 or 1 */
    uint8_t reserved;
} ccsuite_cell;

/* Colours of windows (CTA-708-E): red, green and blue from 0 to 3; opacity 0 solid, 1 flash, 2 translucent, 3 transparent. */
typedef struct ccsuite_shade {
    uint8_t opacity, red, green, blue;
} ccsuite_shade;

typedef struct ccsuite_edge {
    uint8_t red, green, blue;
} ccsuite_edge;

/* A window of a service (CTA-708-E, DefineWindow and SetWindowAttributes). Directions: 0 left to right, 1 right to left, 2 top to bottom,
 * 3 bottom to top. */
typedef struct ccsuite_window {
    uint8_t visible;          /* 1 where it is shown */
    uint8_t rows;             /* 1 to 16 */
    uint8_t columns;          /* 1 to 64 */
    uint8_t row_lock;         /* 1 where the number of rows stays as it is */
    uint8_t column_lock;      /* 1 where the number of columns stays as it is */
    uint8_t priority;         /* 0, the highest, to 7 */
    uint8_t anchor;           /* which point is anchored: 0 to 8, from the upper left to the lower right; at most 15 */
    uint8_t relative;         /* 1 where the position is in hundredths of the picture, and not in cells */
    uint8_t vertical;         /* the anchor's position, 0 to 127 */
    uint8_t horizontal;       /* 0 to 255 */
    uint8_t justify;          /* 0 left, 1 right, 2 centre, 3 full */
    uint8_t print;            /* the direction of the characters */
    uint8_t scroll;           /* the direction in which text scrolls */
    uint8_t wrap;             /* 1 where words are wrapped */
    uint8_t effect;           /* 0 snap, 1 fade, 2 wipe; at most 3 */
    uint8_t effect_direction; /* of a wipe */
    uint8_t effect_speed;     /* in half seconds, 0 to 15 */
    uint8_t border;           /* 0 none, 1 raised, 2 depressed, 3 uniform, 4 left shadow, 5 right shadow; at most 7 */
    ccsuite_shade fill;
    ccsuite_edge border_colour;
    uint8_t reserved[7];
} ccsuite_window;

/* A cell of a window; all zeros where it is empty (CTA-708-E, SetPenAttributes and SetPenColor). */
typedef struct ccsuite_window_cell {
    uint32_t ch;       /* the Unicode scalar value; 0 where the cell is empty */
    uint8_t size;      /* 0 small, 1 standard, 2 large; at most 3 */
    uint8_t font;      /* 0 default, 1 monospaced serif, 2 proportional serif, 3 monospaced sans, 4 proportional sans, 5 casual, 6 cursive, 7 small capitals */
    uint8_t tag;       /* the text tag, 0 dialogue, to 15 */
    uint8_t offset;    /* 0 subscript, 1 normal, 2 superscript; at most 3 */
    uint8_t italic;    /* 0 or 1 */
    uint8_t underline; /* 0 or 1 */
    uint8_t edge;      /* as a window's border */
    ccsuite_shade foreground;
    ccsuite_shade background;
    ccsuite_edge edge_colour;
    uint8_t reserved[2];
} ccsuite_window_cell;

/* What is shown otherwise than before. */
typedef struct ccsuite_changed {
    uint64_t services; /* bit N of service N, 1 to 63 */
    uint32_t channels; /* bit 0 of CC1 to bit 3 of CC4 */
    uint32_t reserved[3];
} ccsuite_changed;

/* Opens it, reset before the first frame; with `conceals` for a line that loses frames: it is then reset where the frames' counters jump, and
 * shows a solid block for a byte of line 21 that has bad parity. MEMORY. It takes all its memory here: 15 MB of addresses, of which 2 MB are used. */
uint32_t ccsuite_receiver_open(ccsuite_receiver *receiver, bool conceals);

/* Feeds bytes of words, up to the end of an ancillary packet: feed on behind fed->used. Takes no memory. CLOSED, FULL; MALFORMED where no file
 * goes on with a word, which is kept and answered from then on: what is shown stays. */
uint32_t ccsuite_receiver_feed(ccsuite_receiver *receiver, const uint8_t *bytes, size_t size, ccsuite_fed *fed);

/* Feeds the words that `ccsuite_words_from_cc_data` makes of these triplets; fed->used and fed->place count bytes of words. ARGUMENT as of that call, and
 * then nothing is fed; else as `_feed`. A concealing receiver counts frames by the counters. */
uint32_t ccsuite_receiver_feed_cc_data(ccsuite_receiver *receiver, const uint8_t *cc_data, size_t size, uint32_t rate, uint32_t counter,
                                       ccsuite_fed *fed);

/* Tells whether the words may end behind the bytes that were fed; fed->used and fed->ended are 0. CLOSED; MALFORMED where a word is refused, or
 * where bytes were fed and the last of them doesn't end a packet. What is shown stays, and more may be fed. */
uint32_t ccsuite_receiver_finish(ccsuite_receiver *receiver, ccsuite_fed *fed);

/* Tells the last whole frame. CLOSED; NONE before the first one. The struct is written only where the answer is OK; so of the next three. */
uint32_t ccsuite_receiver_frame(ccsuite_receiver *receiver, ccsuite_frame *frame);

/* The displayed cell of a channel, 1 CC1 to 4 CC4, at a row, 1 to 15, and a column, 0 to 31, behind the last whole frame. CLOSED, ARGUMENT. */
uint32_t ccsuite_receiver_cell(ccsuite_receiver *receiver, uint32_t channel, uint32_t row, uint32_t column, ccsuite_cell *cell);

/* All displayed cells of a channel, row by row: that at row R and column C is cells[32 * (R - 1) + C]. CLOSED, ARGUMENT; ROOM where `room`, in cells, is
 * below CCSUITE_GRID_CELLS. They are written only where the answer is OK. */
#define CCSUITE_GRID_CELLS 480
uint32_t ccsuite_receiver_grid(ccsuite_receiver *receiver, uint32_t channel, ccsuite_cell *cells, size_t room);

/* The window of an id, 0 to 7, of a service, 1 to 63, behind the last whole frame. CLOSED, ARGUMENT; NONE where there is none. */
uint32_t ccsuite_receiver_window(ccsuite_receiver *receiver, uint32_t service, uint32_t id, ccsuite_window *window);

/* Its cell at a row, 0 to 15, and a column, 0 to 63; empty outside of the window. CLOSED, ARGUMENT; NONE where there is no window. */
uint32_t ccsuite_receiver_window_cell(ccsuite_receiver *receiver, uint32_t service, uint32_t id, uint32_t row, uint32_t column,
                                      ccsuite_window_cell *cell);

/* All its cells, row by row: the one at row R and column C is cells[columns * R + C], by the window's columns. CLOSED, ARGUMENT; NONE where there
 * is no window; ROOM where `room`, in cells, is below its rows times its columns; CCSUITE_WINDOW_CELLS is always enough. They are written only where the
 * answer is OK. */
#define CCSUITE_WINDOW_CELLS 1024
uint32_t ccsuite_receiver_window_grid(ccsuite_receiver *receiver, uint32_t service, uint32_t id, ccsuite_window_cell *cells, size_t room);

/* Tells which channels and services are shown otherwise than at the last call of this or of `_changes`, or at the open: called once a frame, those
 * that changed in it, just where `_changes` has a text of them. Takes no memory. CLOSED. The struct is written only where the answer is OK. */
uint32_t ccsuite_receiver_changed(ccsuite_receiver *receiver, ccsuite_changed *changed);

/* Writes the text of what changed since the last call of this or of `_changed`, or since the open, to the front of `out`, and its number of bytes to
 * `*written`, which is 0 elsewhere: called once a frame, all that `decode` prints of it, or the changes that `conceal` does. CLOSED, MEMORY; ROOM where the text has
 * more bytes than `out`, and then these changes aren't written again: `_screens` writes all that is shown. */
uint32_t ccsuite_receiver_changes(ccsuite_receiver *receiver, uint8_t *out, size_t room, size_t *written);

/* The same of all that is shown, as `show` prints it. CLOSED, ROOM, MEMORY. */
uint32_t ccsuite_receiver_screens(ccsuite_receiver *receiver, uint8_t *out, size_t room, size_t *written);

void ccsuite_receiver_close(ccsuite_receiver *receiver);

/* ---- A verifier: words in, in any pieces; a verdict against a cue list ------------------------------------------------------------------- */

typedef struct ccsuite_verifier {
    bool live; /* the library's own */
    void *at;  /* the library's own */
} ccsuite_verifier;

/* Opens it against a cue list; `list` may go when this returns. LIMIT, MALFORMED, RULE, MEMORY. */
uint32_t ccsuite_verifier_open(const uint8_t *list, size_t list_size, ccsuite_verifier *verifier, ccsuite_report *report);

/* Feeds bytes of words, up to the end of an ancillary packet. Takes no memory. CLOSED, FULL, MALFORMED as a receiver; DIFFERS where something was
 * found at the frame that ended, or before, and then nothing is read. The verdict tells what. */
uint32_t ccsuite_verifier_feed(ccsuite_verifier *verifier, const uint8_t *words, size_t size, ccsuite_fed *fed);

/* Reports on the words so far, if they end here: DIFFERS with the first finding; MALFORMED with the first offending word, or where they may not
 * end; SHORT where the list has more frames; OK. CLOSED, and then the report is as it was. */
uint32_t ccsuite_verifier_verdict(ccsuite_verifier *verifier, ccsuite_report *report);

void ccsuite_verifier_close(ccsuite_verifier *verifier);

#ifdef __cplusplus
}
#endif

#endif
