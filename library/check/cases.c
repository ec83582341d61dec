/* cases LIST: what no comparison of outputs shows. The fields of each struct against what the calls write there; handles that are closed, used
 * behind their close, opened again and passed from thread to thread; each allocation refused in turn. LIST is examples/windows.csv. */
#include "files.h"
#include <ccsuite.h>
#include <pthread.h>
#include <string.h>

#define CHECK(what)                                                                 \
    do {                                                                            \
        if (!(what)) {                                                              \
            fprintf(stderr, "cases.c, line %d: not so: %s\n", __LINE__, #what);     \
            exit(1);                                                                \
        }                                                                           \
    } while (0)

/* a struct, poisoned, with poison behind it */
#define POISONED(type, name)              \
    struct {                              \
        type it;                          \
        uint8_t behind[32];               \
    } name;                               \
    memset(&name, 0xEE, sizeof name)
#define IS_POISONED(name) is_poisoned((const uint8_t *)&name, sizeof name)
#define CHECK_BEHIND(name) \
    for (size_t i = 0; i < sizeof name.behind; i++) CHECK(name.behind[i] == 0xEE)

/* whether nothing was written there */
static bool is_poisoned(const uint8_t *bytes, size_t size) {
    for (size_t i = 0; i < size; i++)
        if (bytes[i] != 0xEE) return false;
    return true;
}

static const char HELLO[] = "ccsuite,1,29.97,30\npop,CC1,0,7,20\nrun,15,0,yellow-u,HI\n";
#define TEXT(text) (const uint8_t *)(text), sizeof(text) - 1

static void check_report(const ccsuite_report *r, uint32_t status, uint32_t why, const char *text) {
    CHECK(r->status == status && r->why == why && strcmp(r->text, text) == 0);
    CHECK(r->text[sizeof r->text - 1] == 0);
}

/* each number of a report, where a call writes it */
static void reports(void) {
    static uint8_t words[200000], out[200000];
    POISONED(ccsuite_report, r);
    CHECK(ccsuite_build(TEXT("ccsuite,1,29.97,30\npop,CC9,0,7,20\n"), out, sizeof out, &r.it) == CCSUITE_MALFORMED);
    check_report(&r.it, 6, 20, "malformed at record 2 field 2: Field\n");
    CHECK(r.it.record == 2 && r.it.field == 2 && r.it.place == 0 && r.it.written == 0 && r.it.cue == 0 && r.it.frame == 0);
    CHECK_BEHIND(r);
    CHECK(ccsuite_build(TEXT("ccsuite,1,29.97,30\npop,CC1,0,6,20\nrun,15,0,white,HI\n"), out, sizeof out, &r.it) == CCSUITE_NO_ROOM);
    check_report(&r.it, 8, 0, "no room: cue 1\n");
    CHECK(r.it.cue == 1 && r.it.record == 0 && r.it.field == 0);
    CHECK(ccsuite_build(TEXT("ccsuite,1,29.97,90\npop,CC1,0,7,20\nrun,15,0,white,A\npop,CC1,8,19,40\nrun,15,0,white,B\n"), out, sizeof out, &r.it)
          == CCSUITE_RULE);
    CHECK(r.it.cue == 2 && r.it.other == 1 && r.it.why >= 20 && r.it.why <= 32);
    CHECK(ccsuite_build(TEXT(HELLO), words, sizeof words, &r.it) == CCSUITE_OK);
    check_report(&r.it, 0, 0, "");
    CHECK(r.it.written == 4800 && r.it.cue == 0 && r.it.other == 0);
    CHECK(ccsuite_build(TEXT(HELLO), words, 4799, &r.it) == CCSUITE_ROOM);
    check_report(&r.it, 3, 0, "too little room\n");
    CHECK(r.it.written == 4799 && r.it.wanted == 4800);
    memset(out, 0xEE, 4800);
    CHECK(ccsuite_build(TEXT(HELLO), out, 4700, &r.it) == CCSUITE_ROOM && memcmp(out, words, 4700) == 0 && out[4700] == 0xEE);
    CHECK(ccsuite_build(TEXT(HELLO), out, 4800, &r.it) == CCSUITE_OK && r.it.wanted == 0 && memcmp(out, words, 4799) == 0);
    CHECK(ccsuite_show(words, 4800, 30, out, sizeof out, &r.it) == CCSUITE_SHORT);
    check_report(&r.it, 10, 0, "short: 30 frames\n");
    CHECK(r.it.frame == 30);
    CHECK(ccsuite_decode(words, 1601, out, sizeof out, &r.it) == CCSUITE_MALFORMED);
    check_report(&r.it, 6, 13, "malformed at byte 1601: Truncated\n");
    CHECK(r.it.place == 1601 && r.it.record == 0 && r.it.field == 0);
    CHECK(ccsuite_verify(words, 4800, TEXT("ccsuite,1,29.97,30\npop,CC1,0,7,20\nrun,15,0,white,HI\n"), out, sizeof out, &r.it) == CCSUITE_DIFFERS);
    check_report(&r.it, 9, 43, "differs at frame 7: GridDiffers CC1\n");
    CHECK(r.it.frame == 7 && r.it.channel == 1 && r.it.service == 0 && r.it.expected == 0 && r.it.seen == 0);
    CHECK(ccsuite_verify(words, 4800, TEXT("ccsuite,1,30,30\n"), out, sizeof out, &r.it) == CCSUITE_DIFFERS);
    check_report(&r.it, 9, 44, "differs at frame 0: WrongRate expected 5 seen 4\n");
    CHECK(r.it.expected == 5 && r.it.seen == 4 && r.it.channel == 0);
    ccsuite_time day = {24, 0, 0, 0, false}, left_out = {0, 1, 0, 0, true}, last = {23, 59, 59, 28, false};
    CHECK(ccsuite_export(words, 4800, &day, out, sizeof out, &r.it) == CCSUITE_ARGUMENT);
    check_report(&r.it, 1, 0, "argument out of range\n");
    CHECK(ccsuite_export(words, 4800, &left_out, out, sizeof out, &r.it) == CCSUITE_ARGUMENT);
    left_out.frames = 2;
    CHECK(ccsuite_export(words, 4800, &left_out, out, sizeof out, &r.it) == CCSUITE_OK);
    CHECK(strstr((char *)out, "00:01:00;02"));
    CHECK(ccsuite_export(words, 4800, &last, out, sizeof out, &r.it) == CCSUITE_LIMIT && r.it.limit == 5);
    CHECK(ccsuite_export_mcc(words, 4800, 30, &left_out, out, sizeof out, &r.it) == CCSUITE_OK && strstr((char *)out, "Time Code Rate=30DF\n"));
    CHECK(ccsuite_export_mcc(words, 4800, 25, &left_out, out, sizeof out, &r.it) == CCSUITE_ARGUMENT);
    CHECK(ccsuite_export_mcc(words, 4800, 29, &last, out, sizeof out, &r.it) == CCSUITE_ARGUMENT && r.it.written == 0);
    CHECK(ccsuite_export_mcc(words, 4800, 25, &last, out, sizeof out, &r.it) == CCSUITE_ARGUMENT);
    last.frames = 24;
    CHECK(ccsuite_export_mcc(words, 4800, 25, &last, out, sizeof out, &r.it) == CCSUITE_DIFFERS);
    check_report(&r.it, 9, 44, "differs at frame 0: WrongRate expected 3 seen 4\n");
    CHECK(ccsuite_xds(TEXT("ccsuite,1,29.97,1\n"), TEXT("xds,0,1,3,NEWS\n"), out, sizeof out, &r.it) == CCSUITE_NO_XDS_ROOM);
    check_report(&r.it, 12, 0, "no room: packet 1\n");
    CHECK(r.it.packet == 1 && r.it.cue == 0 && r.it.written == 0);
    CHECK(ccsuite_build(TEXT("ccsuite,1,59.94,2\n"), words, sizeof words, &r.it) == CCSUITE_OK);
    CHECK(ccsuite_convert(words, r.it.written, out, sizeof out, &r.it) == CCSUITE_MISFIT);
    check_report(&r.it, 13, 0, "misfit at frame 0: Rate 7\n");
    CHECK(r.it.misfit == 1 && r.it.seen == 7 && r.it.frame == 0 && r.it.channel == 0 && r.it.service == 0);
    CHECK(ccsuite_load(0, out, sizeof out, &r.it) == CCSUITE_ARGUMENT && ccsuite_load(10001, out, sizeof out, &r.it) == CCSUITE_ARGUMENT);
    CHECK(ccsuite_load(300, out, sizeof out, &r.it) == CCSUITE_OK && r.it.written == 49);
    CHECK(memcmp(out, "cues 300\nframes 27120\nbytes 4339200\nchanges 1401\n", 49) == 0);
    CHECK_BEHIND(r);
}

/* the words of a list, and a receiver that was fed so many of its frames */
static void receive(const uint8_t *list, size_t size, size_t frames, ccsuite_receiver *receiver) {
    ccsuite_builder builder = {0};
    POISONED(ccsuite_report, r);
    POISONED(ccsuite_fed, fed);
    uint8_t packet[CCSUITE_PACKET_ROOM];
    size_t written;
    CHECK(ccsuite_builder_open(list, size, &builder, &r.it) == CCSUITE_OK && r.it.status == 0);
    CHECK(ccsuite_receiver_open(receiver, false) == CCSUITE_OK);
    for (size_t n = 0; n < frames; n++) {
        CHECK(ccsuite_builder_next(&builder, packet, sizeof packet, &written) == CCSUITE_OK);
        CHECK(ccsuite_receiver_feed(receiver, packet, written, &fed.it) == CCSUITE_OK);
        CHECK(fed.it.used == written && fed.it.ended == 2 && fed.it.why == 0 && fed.it.place == 0);
    }
    CHECK_BEHIND(fed);
    ccsuite_builder_close(&builder);
}

/* all cells of the channels, and of the windows of services 1 and 2, against those that are told one by one */
static void grids(ccsuite_receiver *receiver) {
    static ccsuite_cell cells[CCSUITE_GRID_CELLS + 1];
    static ccsuite_window_cell wide[CCSUITE_WINDOW_CELLS + 1];
    ccsuite_window window;
    POISONED(ccsuite_cell, cell);
    POISONED(ccsuite_window_cell, wide_cell);
    for (uint32_t channel = 0; channel < 6; channel++) {
        memset(cells, 0xEE, sizeof cells);
        uint32_t code = ccsuite_receiver_grid(receiver, channel, cells, CCSUITE_GRID_CELLS - 1);
        CHECK(code == (channel == 0 || channel == 5 ? CCSUITE_ARGUMENT : CCSUITE_ROOM) && is_poisoned((uint8_t *)cells, sizeof cells));
        if (code == CCSUITE_ARGUMENT) continue;
        CHECK(ccsuite_receiver_grid(receiver, channel, cells, CCSUITE_GRID_CELLS + channel % 2) == CCSUITE_OK);
        CHECK(is_poisoned((uint8_t *)&cells[CCSUITE_GRID_CELLS], sizeof *cells));
        for (uint32_t row = 1; row < 16; row++)
            for (uint32_t column = 0; column < 32; column++) {
                CHECK(ccsuite_receiver_cell(receiver, channel, row, column, &cell.it) == CCSUITE_OK);
                CHECK(memcmp(&cell.it, &cells[32 * (row - 1) + column], sizeof cell.it) == 0);
            }
    }
    for (uint32_t service = 0; service < 3; service++)
        for (uint32_t id = 0; id < 9; id++) {
            memset(wide, 0xEE, sizeof wide);
            uint32_t told = ccsuite_receiver_window(receiver, service, id, &window);
            if (told != CCSUITE_OK) {
                CHECK(ccsuite_receiver_window_grid(receiver, service, id, wide, CCSUITE_WINDOW_CELLS) == told && is_poisoned((uint8_t *)wide, sizeof wide));
                continue;
            }
            uint32_t count = (uint32_t)window.rows * window.columns;
            CHECK(ccsuite_receiver_window_grid(receiver, service, id, wide, count - 1) == CCSUITE_ROOM && is_poisoned((uint8_t *)wide, sizeof wide));
            CHECK(ccsuite_receiver_window_grid(receiver, service, id, wide, count + id % 2) == CCSUITE_OK);
            CHECK(is_poisoned((uint8_t *)&wide[count], sizeof *wide));
            for (uint32_t place = 0; place < count; place++) {
                uint32_t row = place / window.columns, column = place % window.columns;
                CHECK(ccsuite_receiver_window_cell(receiver, service, id, row, column, &wide_cell.it) == CCSUITE_OK);
                CHECK(memcmp(&wide_cell.it, &wide[place], sizeof wide_cell.it) == 0);
            }
        }
}

/* each field of cells, windows and frames, where a call writes it */
static void cells(const char *name) {
    size_t size;
    uint8_t *list = read_named(name, &size);
    ccsuite_receiver receiver = {0}, other = {0};
    POISONED(ccsuite_cell, cell);
    POISONED(ccsuite_window, window);
    POISONED(ccsuite_window_cell, wide);
    POISONED(ccsuite_frame, frame);
    POISONED(ccsuite_fed, fed);
    receive(TEXT(HELLO), 8, &receiver);
    CHECK(ccsuite_receiver_cell(&receiver, 5, 15, 1, &cell.it) == CCSUITE_ARGUMENT && ccsuite_receiver_cell(&receiver, 1, 16, 1, &cell.it) == 1);
    CHECK(ccsuite_receiver_cell(&other, 1, 15, 1, &cell.it) == CCSUITE_CLOSED && IS_POISONED(cell));
    CHECK(ccsuite_receiver_cell(&receiver, 1, 15, 1, &cell.it) == CCSUITE_OK);
    grids(&receiver);
    CHECK(cell.it.ch == 'I' && cell.it.colour == 5 && cell.it.italic == 0 && cell.it.underline == 1);
    CHECK(ccsuite_receiver_cell(&receiver, 2, 15, 1, &cell.it) == CCSUITE_OK && cell.it.ch == 0 && cell.it.colour == 0 && cell.it.italic == 0);
    CHECK(ccsuite_receiver_cell(&receiver, 0, 15, 1, &cell.it) == CCSUITE_ARGUMENT && ccsuite_receiver_cell(&receiver, 5, 15, 1, &cell.it) == 1);
    CHECK(ccsuite_receiver_cell(&receiver, 1, 0, 1, &cell.it) == 1 && ccsuite_receiver_cell(&receiver, 1, 16, 1, &cell.it) == 1);
    CHECK(ccsuite_receiver_cell(&receiver, 1, 15, 32, &cell.it) == 1 && ccsuite_receiver_cell(&receiver, 1, 271, 1, &cell.it) == 1);
    CHECK_BEHIND(cell);
    CHECK(IS_POISONED(frame) && ccsuite_receiver_open(&other, false) == CCSUITE_OK);
    CHECK(ccsuite_receiver_frame(&other, &frame.it) == CCSUITE_NONE && IS_POISONED(frame));
    ccsuite_receiver_close(&other);
    CHECK(ccsuite_receiver_frame(&other, &frame.it) == CCSUITE_CLOSED && IS_POISONED(frame));
    CHECK(ccsuite_receiver_window(&receiver, 1, 1, &window.it) == CCSUITE_NONE && ccsuite_receiver_window(&receiver, 64, 1, &window.it) == 1);
    CHECK(ccsuite_receiver_window(&other, 1, 1, &window.it) == CCSUITE_CLOSED && IS_POISONED(window));
    CHECK(ccsuite_receiver_window_cell(&receiver, 1, 1, 0, 0, &wide.it) == CCSUITE_NONE);
    CHECK(ccsuite_receiver_window_cell(&receiver, 1, 1, 16, 0, &wide.it) == 1);
    CHECK(ccsuite_receiver_window_cell(&other, 1, 1, 0, 0, &wide.it) == CCSUITE_CLOSED && IS_POISONED(wide));
    CHECK(ccsuite_receiver_frame(&receiver, &frame.it) == CCSUITE_OK);
    CHECK(frame.it.number == 7 && frame.it.missing == 0 && frame.it.frames == 8);
    CHECK_BEHIND(frame);
    CHECK(ccsuite_receiver_finish(&receiver, &fed.it) == CCSUITE_OK && fed.it.used == 0 && fed.it.ended == 0 && fed.it.why == 0 && fed.it.place == 0);
    CHECK(ccsuite_receiver_feed(&receiver, (const uint8_t *)"\x00", 1, &fed.it) == CCSUITE_OK && fed.it.used == 1);
    CHECK(ccsuite_receiver_finish(&receiver, &fed.it) == CCSUITE_MALFORMED && fed.it.why == 13 && fed.it.place == 1281 && fed.it.used == 0);
    CHECK(ccsuite_receiver_feed(&receiver, (const uint8_t *)"\x00", 1, &fed.it) == CCSUITE_OK && fed.it.used == 1 && fed.it.place == 0);
    CHECK(ccsuite_receiver_feed(&receiver, (const uint8_t *)"\xFF\xFF", 2, &fed.it) == CCSUITE_MALFORMED);
    CHECK(fed.it.used == 0 && fed.it.ended == 0 && fed.it.why == 9 && fed.it.place == 1282);
    CHECK(ccsuite_receiver_feed(&receiver, (const uint8_t *)"\x00\x00", 2, &fed.it) == CCSUITE_MALFORMED && fed.it.place == 1282);
    CHECK(ccsuite_receiver_finish(&receiver, &fed.it) == CCSUITE_MALFORMED && fed.it.why == 9 && fed.it.place == 1282);
    CHECK_BEHIND(fed);
    receive(TEXT("ccsuite,1,29.97,30\npop,CC1,0,9,20\nrun,15,0,white-i,HI\n"), 10, &receiver);
    CHECK(ccsuite_receiver_cell(&receiver, 1, 15, 0, &cell.it) == CCSUITE_OK);
    CHECK(cell.it.ch == 'H' && cell.it.colour == 0 && cell.it.italic == 1 && cell.it.underline == 0);
    receive(list, size, 201, &receiver); /* opens it again: what it held is freed */
    CHECK(ccsuite_receiver_window(&receiver, 1, 1, &window.it) == CCSUITE_OK);
    CHECK(window.it.visible == 1 && window.it.rows == 2 && window.it.columns == 16 && window.it.priority == 2 && window.it.anchor == 0);
    CHECK(window.it.relative == 0 && window.it.vertical == 6 && window.it.horizontal == 10);
    CHECK(window.it.justify == 2 && window.it.print == 0 && window.it.scroll == 3 && window.it.wrap == 0 && window.it.effect == 0);
    CHECK(window.it.effect_direction == 0 && window.it.effect_speed == 0 && window.it.border == 3 && window.it.row_lock == 1 && window.it.column_lock == 1);
    CHECK(window.it.fill.opacity == 2 && window.it.fill.red == 0 && window.it.fill.green == 0 && window.it.fill.blue == 2);
    CHECK(window.it.border_colour.red == 3 && window.it.border_colour.green == 3 && window.it.border_colour.blue == 0);
    CHECK_BEHIND(window);
    CHECK(ccsuite_receiver_window(&receiver, 3, 1, &window.it) == CCSUITE_NONE && ccsuite_receiver_window(&receiver, 0, 1, &window.it) == 1);
    CHECK(ccsuite_receiver_window(&receiver, 64, 1, &window.it) == 1 && ccsuite_receiver_window(&receiver, 1, 8, &window.it) == 1);
    CHECK(ccsuite_receiver_window(&receiver, 257, 1, &window.it) == 1 && window.it.rows == 2);
    grids(&receiver);
    CHECK(ccsuite_receiver_window_cell(&receiver, 1, 1, 0, 1, &wide.it) == CCSUITE_OK);
    CHECK(wide.it.ch == 'R' && wide.it.size == 1 && wide.it.font == 2 && wide.it.tag == 0 && wide.it.offset == 1 && wide.it.edge == 0);
    CHECK(wide.it.italic == 0 && wide.it.underline == 0);
    CHECK(wide.it.foreground.opacity == 0 && wide.it.foreground.red == 3 && wide.it.foreground.green == 3 && wide.it.foreground.blue == 0);
    CHECK(wide.it.background.opacity == 3 && wide.it.background.red == 0 && wide.it.edge_colour.red == 0 && wide.it.edge_colour.blue == 0);
    CHECK(ccsuite_receiver_window_cell(&receiver, 1, 1, 1, 1, &wide.it) == CCSUITE_OK);
    CHECK(wide.it.ch == 'N' && wide.it.underline == 1 && wide.it.foreground.blue == 3);
    CHECK(ccsuite_receiver_window_cell(&receiver, 1, 1, 1, 63, &wide.it) == CCSUITE_OK && wide.it.ch == 0 && wide.it.size == 0);
    CHECK(ccsuite_receiver_window_cell(&receiver, 1, 1, 16, 0, &wide.it) == 1 && ccsuite_receiver_window_cell(&receiver, 1, 1, 0, 64, &wide.it) == 1);
    CHECK(ccsuite_receiver_window_cell(&receiver, 3, 1, 0, 0, &wide.it) == CCSUITE_NONE);
    CHECK_BEHIND(wide);
    ccsuite_receiver_close(&receiver);
    free(list);
}

/* the words of one frame at 29.97, with these codes to service 1, at most 31 (CTA-708-E, service blocks; SMPTE ST 334-2): 160 bytes */
static void author(const uint8_t *codes, size_t count, uint8_t *words) {
    ccsuite_report r;
    uint8_t packet[36] = {0}, cdp[73];
    size_t pairs = (count + 3) / 2;
    unsigned sum = 0;
    packet[0] = (uint8_t)pairs;
    packet[1] = (uint8_t)(0x20 | count);
    memcpy(packet + 2, codes, count);
    CHECK(count < 32 && ccsuite_build(TEXT("ccsuite,1,29.97,1\n"), words, 160, &r) == CCSUITE_OK && r.written == 160);
    for (size_t i = 0; i < 73; i++) cdp[i] = words[2 * (6 + i) + 1];
    for (size_t i = 0; i < pairs; i++) {
        uint8_t *triplet = cdp + 9 + 3 * (2 + i); /* behind those of line 21 */
        triplet[0] = i == 0 ? 0xFF : 0xFE;
        memcpy(triplet + 1, packet + 2 * i, 2);
    }
    for (size_t i = 0; i < 72; i++) sum += cdp[i];
    cdp[72] = (uint8_t)(0u - sum);
    for (size_t i = 0; i < 73; i++) { /* bit 8 makes the parity even, and bit 9 isn't bit 8 (SMPTE ST 291-1) */
        words[2 * (6 + i)] = __builtin_parity(cdp[i]) ? 1 : 2;
        words[2 * (6 + i) + 1] = cdp[i];
    }
    sum = 0;
    for (size_t i = 3; i < 79; i++) sum += (words[2 * i] & 1u) << 8 | words[2 * i + 1];
    sum &= 0x1FF;
    words[158] = (uint8_t)(sum >> 8 ? 1 : 2);
    words[159] = (uint8_t)sum;
}

/* a window and a cell behind the commands of two frames, in which no two fields beside each other have one value (CTA-708-E, DefineWindow,
 * SetWindowAttributes, SetPenAttributes, SetPenColor, SetPenLocation) */
static void layouts(void) {
    static const uint8_t FIRST[] = {0x99, 0x2D, 0xE1, 0x62, 0x6A, 0x27, 0x00, 0x97, 0x6C, 0x76, 0xDE, 0x96,
                                    0x90, 0xBA, 0x9C, 0x91, 0x6C, 0xB1, 0x2D, 0x92, 0x04, 0x07, 'Q'};
    static const uint8_t SECOND[] = {0x9A, 0x12, 0x05, 0xC8, 0x10, 0x02, 0x00, 0x97, 0xE1, 0x8D, 0x27, 0x39,
                                     0x90, 0x25, 0x6E, 0x91, 0xC6, 0x1B, 0x27, 0x92, 0x00, 0x02, 0x7F};
    static const ccsuite_window WINDOWS[] = {
        {1, 11, 40, 0, 1, 5, 6, 1, 97, 98, 2, 1, 3, 1, 2, 1, 9, 5, {1, 2, 3, 0}, {3, 1, 2}, {0}},
        {0, 1, 3, 1, 0, 2, 1, 0, 5, 200, 3, 2, 1, 0, 1, 2, 3, 2, {3, 2, 0, 1}, {0, 3, 1}, {0}},
    };
    static const ccsuite_window_cell CELLS[] = {
        {'Q', 2, 4, 11, 2, 1, 0, 3, {1, 2, 3, 0}, {2, 3, 0, 1}, {2, 3, 1}, {0}},
        {0x266A, 1, 6, 2, 1, 0, 1, 5, {3, 0, 1, 2}, {0, 1, 2, 3}, {2, 1, 3}, {0}},
    };
    ccsuite_receiver receiver = {0};
    POISONED(ccsuite_fed, fed);
    CHECK(ccsuite_receiver_open(&receiver, false) == CCSUITE_OK);
    for (uint32_t n = 0; n < 2; n++) {
        uint8_t words[160];
        POISONED(ccsuite_window, window);
        POISONED(ccsuite_window_cell, cell);
        author(n == 0 ? FIRST : SECOND, n == 0 ? sizeof FIRST : sizeof SECOND, words);
        ccsuite_receiver_close(&receiver); /* both have counter 0 */
        CHECK(ccsuite_receiver_open(&receiver, false) == CCSUITE_OK);
        CHECK(ccsuite_receiver_feed(&receiver, words, sizeof words, &fed.it) == CCSUITE_OK && fed.it.ended == 2 && fed.it.used == 160);
        CHECK(ccsuite_receiver_window(&receiver, 1, n + 1, &window.it) == CCSUITE_OK);
        CHECK(memcmp(&window.it, &WINDOWS[n], sizeof(ccsuite_window)) == 0);
        CHECK_BEHIND(window);
        CHECK(ccsuite_receiver_window_cell(&receiver, 1, n + 1, n == 0 ? 4 : 0, n == 0 ? 7 : 2, &cell.it) == CCSUITE_OK);
        CHECK(cell.it.ch == CELLS[n].ch && memcmp(&cell.it.size, &CELLS[n].size, 20) == 0);
        CHECK_BEHIND(cell);
        grids(&receiver);
    }
    ccsuite_receiver_close(&receiver);
    ccsuite_cell none;
    CHECK(ccsuite_receiver_grid(&receiver, 1, &none, 1) == CCSUITE_CLOSED);
}

/* handles that are closed, used behind their close, closed twice, and opened in vain */
static void closed(void) {
    ccsuite_builder builder = {0};
    ccsuite_receiver receiver = {0};
    ccsuite_verifier verifier = {0};
    ccsuite_report r;
    ccsuite_fed fed = {7, 7, 7, 7, {7, 7}};
    ccsuite_frame frame;
    ccsuite_cell cell;
    ccsuite_changed changed;
    ccsuite_window window;
    ccsuite_window_cell wide;
    uint8_t packet[CCSUITE_PACKET_ROOM] = {0xEE}, text[1000];
    size_t written = 9;
    for (int turn = 0; turn < 2; turn++) {
        CHECK(ccsuite_builder_next(&builder, packet, sizeof packet, &written) == CCSUITE_CLOSED && written == 0 && packet[0] == 0xEE);
        CHECK(ccsuite_receiver_feed(&receiver, packet, 2, &fed) == CCSUITE_CLOSED && fed.used == 0 && fed.place == 0 && fed.ended == 0 && fed.why == 0);
        CHECK(ccsuite_receiver_finish(&receiver, &fed) == CCSUITE_CLOSED && fed.used == 0 && fed.why == 0);
        CHECK(ccsuite_receiver_frame(&receiver, &frame) == CCSUITE_CLOSED && ccsuite_receiver_cell(&receiver, 1, 15, 0, &cell) == CCSUITE_CLOSED);
        CHECK(ccsuite_receiver_window(&receiver, 1, 0, &window) == CCSUITE_CLOSED);
        CHECK(ccsuite_receiver_window_cell(&receiver, 1, 0, 0, 0, &wide) == CCSUITE_CLOSED);
        CHECK(ccsuite_receiver_changed(&receiver, &changed) == CCSUITE_CLOSED);
        CHECK(ccsuite_receiver_changes(&receiver, text, sizeof text, &written) == CCSUITE_CLOSED && written == 0);
        CHECK(ccsuite_receiver_screens(&receiver, text, sizeof text, &written) == CCSUITE_CLOSED && written == 0);
        CHECK(ccsuite_verifier_feed(&verifier, packet, 2, &fed) == CCSUITE_CLOSED && ccsuite_verifier_verdict(&verifier, &r) == CCSUITE_CLOSED);
        if (turn == 1) break;
        CHECK(ccsuite_builder_open(TEXT("x"), &builder, &r) == CCSUITE_MALFORMED && !builder.live && !builder.at);
        CHECK(ccsuite_builder_open(TEXT(HELLO), &builder, &r) == 0 && ccsuite_receiver_open(&receiver, true) == 0);
        CHECK(ccsuite_verifier_open(TEXT(HELLO), &verifier, &r) == 0 && ccsuite_receiver_frame(&receiver, &frame) == CCSUITE_NONE);
        CHECK(ccsuite_builder_next(&builder, packet, 159, &written) == CCSUITE_ROOM && written == 160 && packet[0] == 0xEE);
        for (int n = 0; n < 30; n++) CHECK(ccsuite_builder_next(&builder, packet, 160, &written) == 0 && written == 160);
        CHECK(ccsuite_builder_next(&builder, packet, 524, &written) == CCSUITE_END && written == 0);
        CHECK(ccsuite_builder_next(&builder, packet, 0, &written) == CCSUITE_END && written == 0);
        CHECK(ccsuite_verifier_open(TEXT("x"), &verifier, &r) == CCSUITE_MALFORMED && !verifier.live && !verifier.at);
        CHECK(ccsuite_verifier_open(TEXT(HELLO), &verifier, &r) == 0);
        /* of another kind */
        CHECK(ccsuite_builder_next((ccsuite_builder *)&receiver, packet, sizeof packet, &written) == CCSUITE_CLOSED && written == 0);
        CHECK(ccsuite_receiver_feed((ccsuite_receiver *)&verifier, packet, 2, &fed) == CCSUITE_CLOSED && fed.used == 0);
        CHECK(ccsuite_receiver_frame((ccsuite_receiver *)&builder, &frame) == CCSUITE_CLOSED);
        CHECK(ccsuite_receiver_changed((ccsuite_receiver *)&builder, &changed) == CCSUITE_CLOSED);
        CHECK(ccsuite_verifier_verdict((ccsuite_verifier *)&builder, &r) == CCSUITE_CLOSED);
        ccsuite_builder_close((ccsuite_builder *)&receiver);
        ccsuite_receiver_close((ccsuite_receiver *)&verifier);
        ccsuite_verifier_close((ccsuite_verifier *)&builder);
        CHECK(builder.live && receiver.live && verifier.live);
        CHECK(ccsuite_receiver_frame(&receiver, &frame) == CCSUITE_NONE && ccsuite_verifier_verdict(&verifier, &r) == CCSUITE_SHORT);
        packet[0] = 0xEE;
        for (int n = 0; n < 2; n++) {
            ccsuite_builder_close(&builder);
            ccsuite_receiver_close(&receiver);
            ccsuite_verifier_close(&verifier);
            CHECK(!builder.live && !builder.at && !receiver.live && !receiver.at && !verifier.live && !verifier.at);
        }
        fed.used = fed.place = fed.ended = fed.why = 7;
        written = 9;
    }
}

/* each reason by its number, and the version */
static void reasons(void) {
    static const char *const NAMES[] = {
        NULL, "Overrun", "Identifier", "Length", "Rate", "Section", "Count", "Counter", "Sum", "HighBits", "WordParity", "Flag", "AncSum",
        "Truncated", "NoSuchTime", "Header", "SccSyntax", "Backwards", NULL, NULL, "Field", "NoCode", "Order", "Overlap", "Clash", "Unhidden",
        "WindowBusy", "DelayCovers", "Share", "PastEnd", NULL, "OffSlot", "FieldClash", "OtherList", "MccSyntax", NULL, NULL, NULL, NULL, NULL,
        "CounterJump", "WrongCount", "BufferFull", "GridDiffers", "WrongRate", "TwoPairs", "EightBits", NULL,
    };
    POISONED(ccsuite_reason, reason);
    for (uint32_t n = 0; n < sizeof NAMES / sizeof *NAMES; n++) {
        memset(&reason, 0xEE, sizeof reason);
        if (!NAMES[n]) {
            CHECK(ccsuite_reason_of(n, &reason.it) == CCSUITE_ARGUMENT && IS_POISONED(reason));
            continue;
        }
        CHECK(ccsuite_reason_of(n, &reason.it) == CCSUITE_OK && strcmp(reason.it.name, NAMES[n]) == 0);
        CHECK(reason.it.name[31] == 0 && reason.it.sentence[127] == 0 && reason.it.sentence[strlen(reason.it.sentence) - 1] == '.');
        CHECK_BEHIND(reason);
    }
    CHECK(ccsuite_reason_of(CCSUITE_WHY_GRID_DIFFERS, &reason.it) == CCSUITE_OK && strcmp(reason.it.name, "GridDiffers") == 0);
    CHECK(strcmp(reason.it.sentence, "What is shown isn't what was authored.") == 0);
    CHECK(ccsuite_reason_of(CCSUITE_WHY_TRUNCATED, &reason.it) == CCSUITE_OK && strcmp(reason.it.name, "Truncated") == 0);
    CHECK(ccsuite_reason_of(CCSUITE_WHY_FIELD, &reason.it) == CCSUITE_OK && strcmp(reason.it.name, "Field") == 0);
    CHECK(ccsuite_reason_of(CCSUITE_WHY_MCC_SYNTAX, &reason.it) == CCSUITE_OK && strcmp(reason.it.name, "MccSyntax") == 0);
    CHECK(ccsuite_reason_of(CCSUITE_WHY_EIGHT_BITS, &reason.it) == CCSUITE_OK && strcmp(reason.it.name, "EightBits") == 0);
    CHECK(ccsuite_reason_of(276, &reason.it) == CCSUITE_ARGUMENT);
    CHECK(ccsuite_version() == (CCSUITE_VERSION_MAJOR << 16 | CCSUITE_VERSION_MINOR << 8 | CCSUITE_VERSION_PATCH));
}

/* one frame's packets: what is written is read again, whole and bit by bit */
static void packets(void) {
    uint8_t words[CCSUITE_PACKET_ROOM], again[CCSUITE_PACKET_ROOM], cc_data[CCSUITE_CC_DATA_ROOM] = {0}, cdp[CCSUITE_CDP_ROOM], triplets[96];
    size_t written, size;
    ccsuite_builder builder = {0}, other = {0};
    ccsuite_receiver receiver = {0}, by_words = {0};
    ccsuite_report r;
    ccsuite_fed fed, fed_words;
    ccsuite_cell cell;
    POISONED(ccsuite_packet, packet);
    CHECK(ccsuite_builder_open(TEXT(HELLO), &builder, &r) == 0 && ccsuite_builder_open(TEXT(HELLO), &other, &r) == 0);
    CHECK(ccsuite_receiver_open(&receiver, true) == 0 && ccsuite_receiver_open(&by_words, true) == 0);
    for (uint32_t n = 0; n < 30; n++) {
        CHECK(ccsuite_builder_next(&builder, words, sizeof words, &written) == CCSUITE_OK && written == 160);
        CHECK(ccsuite_builder_next_cc_data(&other, cc_data, 59, &size) == CCSUITE_ROOM && size == 60);
        CHECK(ccsuite_builder_next_cc_data(&other, cc_data, 60, &size) == CCSUITE_OK && size == 60);
        CHECK(ccsuite_cc_data_from_words(words, written, triplets, 60, &size, &packet.it) == CCSUITE_OK && size == 60);
        CHECK(memcmp(cc_data, triplets, 60) == 0 && packet.it.rate == CCSUITE_RATE_29_97 && packet.it.counter == n && packet.it.flags == 0x43);
        CHECK(ccsuite_words_from_cc_data(cc_data, 60, CCSUITE_RATE_29_97, n, again, sizeof again, &size) == CCSUITE_OK && size == written);
        CHECK(memcmp(words, again, written) == 0);
        CHECK(ccsuite_cdp_from_words(words, written, cdp, sizeof cdp, &size) == CCSUITE_OK && size == 73 && cdp[0] == 0x96 && cdp[5] == 0 && cdp[6] == n);
        CHECK(ccsuite_words_from_cdp(cdp, size, again, 160, &size) == CCSUITE_OK && size == written && memcmp(words, again, written) == 0);
        CHECK(ccsuite_receiver_feed_cc_data(&receiver, cc_data, 60, CCSUITE_RATE_29_97, n, &fed) == CCSUITE_OK && fed.used == 160 && fed.ended == 2);
        CHECK(ccsuite_receiver_feed(&by_words, words, written, &fed_words) == CCSUITE_OK && memcmp(&fed, &fed_words, sizeof fed) == 0);
    }
    CHECK_BEHIND(packet);
    CHECK(ccsuite_builder_next_cc_data(&other, cc_data, 0, &size) == CCSUITE_END && size == 0);
    CHECK(ccsuite_builder_next(&other, words, 0, &size) == CCSUITE_END);
    for (size_t bit = 0; bit < 8 * written; bit++) { /* each bit changed is seen */
        words[bit / 8] ^= (uint8_t)(1u << bit % 8);
        CHECK(ccsuite_cdp_from_words(words, written, cdp, sizeof cdp, &size) == CCSUITE_MALFORMED && size == 0);
        CHECK(ccsuite_cc_data_from_words(words, written, cc_data, sizeof cc_data, &size, &packet.it) == CCSUITE_MALFORMED && size == 0);
        words[bit / 8] ^= (uint8_t)(1u << bit % 8);
    }
    CHECK(ccsuite_cdp_from_words(words, written - 2, cdp, sizeof cdp, &size) == CCSUITE_MALFORMED);
    CHECK(ccsuite_cdp_from_words(words, written + 2, cdp, sizeof cdp, &size) == CCSUITE_MALFORMED);
    CHECK(ccsuite_cdp_from_words(words, written, cdp, 72, &size) == CCSUITE_ROOM && size == 73);
    memset(&packet, 0xEE, sizeof packet);
    CHECK(ccsuite_cc_data_from_words(words, written, cc_data, 59, &size, &packet.it) == CCSUITE_ROOM && size == 60 && IS_POISONED(packet));
    CHECK(ccsuite_words_from_cc_data(cc_data, 93, CCSUITE_RATE_60, 65535, again, sizeof again, &size) == CCSUITE_OK && size == 226);
    CHECK(ccsuite_words_from_cc_data(cc_data, 0, CCSUITE_RATE_23_976, 0, again, 39, &size) == CCSUITE_ROOM && size == 40);
    CHECK(ccsuite_words_from_cc_data(cc_data, 96, 4, 0, again, sizeof again, &size) == CCSUITE_ARGUMENT && size == 0);
    CHECK(ccsuite_words_from_cc_data(cc_data, 61, 4, 0, again, sizeof again, &size) == CCSUITE_ARGUMENT);
    CHECK(ccsuite_words_from_cc_data(cc_data, 60, 0, 0, again, sizeof again, &size) == CCSUITE_ARGUMENT);
    CHECK(ccsuite_words_from_cc_data(cc_data, 60, 260, 0, again, sizeof again, &size) == CCSUITE_ARGUMENT);
    CHECK(ccsuite_words_from_cc_data(cc_data, 60, 4, 65536, again, sizeof again, &size) == CCSUITE_ARGUMENT);
    CHECK(ccsuite_receiver_feed_cc_data(&receiver, cc_data, 61, 4, 30, &fed) == CCSUITE_ARGUMENT && fed.used == 0 && fed.ended == 0);
    CHECK(ccsuite_receiver_feed_cc_data(&receiver, cc_data, 60, 4, 30, &fed) == CCSUITE_OK);
    CHECK(ccsuite_receiver_cell(&receiver, 1, 15, 0, &cell) == CCSUITE_OK);
    ccsuite_builder_close(&builder);
    ccsuite_builder_close(&other);
    ccsuite_receiver_close(&receiver);
    ccsuite_receiver_close(&by_words);
    CHECK(ccsuite_builder_next_cc_data(&builder, cc_data, sizeof cc_data, &size) == CCSUITE_CLOSED && size == 0);
    CHECK(ccsuite_receiver_feed_cc_data(&receiver, cc_data, 60, 4, 0, &fed) == CCSUITE_CLOSED && fed.used == 0);
}

/* changes that don't fit aren't told again, and all that is shown is */
static void texts(void) {
    static const char SHOWN[] = "frame 7\nCC1 1\n15 0 yellow-u HI\n";
    ccsuite_receiver receiver = {0};
    uint8_t text[100] = {0xEE};
    size_t written;
    receive(TEXT(HELLO), 8, &receiver);
    CHECK(ccsuite_receiver_changes(&receiver, text, sizeof SHOWN - 2, &written) == CCSUITE_ROOM && written == 0 && text[0] == 0xEE);
    CHECK(ccsuite_receiver_changes(&receiver, text, sizeof text, &written) == CCSUITE_OK && written == 0);
    CHECK(ccsuite_receiver_screens(&receiver, text, sizeof text, &written) == CCSUITE_OK && written == sizeof SHOWN - 1);
    CHECK(memcmp(text, SHOWN, sizeof SHOWN - 1) == 0 && text[sizeof SHOWN - 1] == 0);
    ccsuite_receiver_close(&receiver);
}

/* what changes in each frame is told by its bits: as the text of the changes does */
static void changes(const char *name) {
    size_t size;
    uint8_t *list = read_named(name, &size), packet[CCSUITE_PACKET_ROOM], text[4096];
    size_t written, told = 0;
    ccsuite_builder builder = {0};
    ccsuite_receiver receiver = {0}, texts = {0};
    ccsuite_report r;
    ccsuite_fed fed;
    POISONED(ccsuite_changed, changed);
    CHECK(ccsuite_receiver_changed(&receiver, &changed.it) == CCSUITE_CLOSED && IS_POISONED(changed));
    CHECK(ccsuite_builder_open(list, size, &builder, &r) == 0 && ccsuite_receiver_open(&receiver, false) == 0 && ccsuite_receiver_open(&texts, false) == 0);
    while (ccsuite_builder_next(&builder, packet, sizeof packet, &written) == CCSUITE_OK) {
        uint64_t services = 0;
        uint32_t channels = 0;
        CHECK(ccsuite_receiver_feed(&receiver, packet, written, &fed) == 0 && ccsuite_receiver_feed(&texts, packet, written, &fed) == 0);
        CHECK(ccsuite_receiver_changed(&receiver, &changed.it) == CCSUITE_OK);
        CHECK(ccsuite_receiver_changes(&texts, text, sizeof text - 1, &written) == CCSUITE_OK);
        text[written] = 0;
        for (const char *line = (const char *)text; *line; line = strchr(line, '\n') + 1) {
            unsigned number;
            if (sscanf(line, "CC%u ", &number) == 1) channels |= 1u << (number - 1);
            if (sscanf(line, "S%u ", &number) == 1) services |= (uint64_t)1 << number;
        }
        CHECK(changed.it.channels == channels && changed.it.services == services && changed.it.reserved[0] == 0 && changed.it.reserved[2] == 0);
        told += channels != 0 || services != 0;
    }
    CHECK_BEHIND(changed);
    CHECK(told > 2 && ccsuite_receiver_changed(&receiver, &changed.it) == CCSUITE_OK && changed.it.channels == 0 && changed.it.services == 0);
    ccsuite_builder_close(&builder);
    ccsuite_receiver_close(&receiver);
    ccsuite_receiver_close(&texts);
    free(list);
}

/* two threads in turn: one opens, another feeds, the first reads and closes */
static ccsuite_builder passed_builder;
static ccsuite_receiver passed_receiver;

static void *feed(void *none) {
    uint8_t packet[CCSUITE_PACKET_ROOM];
    ccsuite_fed fed;
    size_t written;
    while (ccsuite_builder_next(&passed_builder, packet, sizeof packet, &written) == CCSUITE_OK)
        CHECK(ccsuite_receiver_feed(&passed_receiver, packet, written, &fed) == CCSUITE_OK && fed.ended == 2);
    ccsuite_builder_close(&passed_builder);
    return none;
}

static void threads(void) {
    pthread_t thread;
    ccsuite_report r;
    ccsuite_frame frame;
    CHECK(ccsuite_builder_open(TEXT(HELLO), &passed_builder, &r) == 0 && ccsuite_receiver_open(&passed_receiver, true) == 0);
    CHECK(pthread_create(&thread, NULL, feed, NULL) == 0 && pthread_join(thread, NULL) == 0);
    CHECK(!passed_builder.live && ccsuite_receiver_frame(&passed_receiver, &frame) == 0 && frame.frames == 30 && frame.number == 29);
    ccsuite_receiver_close(&passed_receiver);
}

#ifdef REFUSALS
/* Linked with --wrap=malloc and --wrap=realloc: the allocation of this number is refused, counted from 0; none where it is negative. */
static long refused = -1, taken;
void *__real_malloc(size_t size);
void *__real_realloc(void *block, size_t size);
void *__wrap_malloc(size_t size) { return taken++ == refused ? NULL : __real_malloc(size); }
void *__wrap_realloc(void *block, size_t size) { return taken++ == refused ? NULL : __real_realloc(block, size); }

/* Tries a call with each of its allocations refused in turn, until one is refused that it doesn't make: it answers MEMORY; or OK, where what asked
 * for twice its room then asks for what it needs. */
#define REFUSE(call)                                                          \
    for (refused = 0, count = 0;; refused++) {                                \
        taken = 0;                                                            \
        uint32_t code = (call);                                               \
        if (taken <= refused) {                                               \
            CHECK(code == CCSUITE_OK);                                        \
            break;                                                            \
        }                                                                     \
        CHECK(code == CCSUITE_MEMORY || code == CCSUITE_OK);                  \
        count += code == CCSUITE_MEMORY;                                      \
    }                                                                         \
    refused = -1;                                                             \
    printf("  %s: %ld refused allocations of %ld answered MEMORY\n", #call, count, taken);                                  \
    CHECK(count > 0)

/* A call that takes no memory: each allocation would be refused, and none is tried. */
#define TAKES_NONE(call)                          \
    taken = refused = 0;                          \
    CHECK((call) == CCSUITE_OK && taken == 0);    \
    refused = -1

static void refusals(void) {
    static uint8_t words[10000], out[10000], mcc[10000], load[100];
    const uint8_t *list = (const uint8_t *)HELLO;
    const ccsuite_time hour = {1, 0, 0, 0, true};
    size_t size = sizeof HELLO - 1, mcc_size;
    long count;
    ccsuite_report r;
    ccsuite_builder builder = {0};
    ccsuite_receiver receiver = {0};
    ccsuite_verifier verifier = {0};
    ccsuite_fed fed;
    ccsuite_frame frame;
    ccsuite_cell cell;
    ccsuite_changed changed;
    ccsuite_packet packet;
    ccsuite_reason reason;
    static ccsuite_cell cells[CCSUITE_GRID_CELLS];
    size_t written;
    CHECK(ccsuite_build(list, size, words, sizeof words, &r) == CCSUITE_OK);
    REFUSE(ccsuite_build(list, size, out, sizeof out, &r));
    REFUSE(ccsuite_pairs(list, size, out, sizeof out, &r));
    REFUSE(ccsuite_cues(list, size, out, sizeof out, &r));
    REFUSE(ccsuite_decode(words, 4800, out, sizeof out, &r));
    REFUSE(ccsuite_conceal(words, 4800, out, sizeof out, &r));
    REFUSE(ccsuite_show(words, 4800, 7, out, sizeof out, &r));
    REFUSE(ccsuite_xds_show(words, 4800, out, sizeof out, &r));
    REFUSE(ccsuite_verify(words, 4800, list, size, out, sizeof out, &r));
    REFUSE(ccsuite_insert(words, 4800, list, size, out, sizeof out, &r));
    REFUSE(ccsuite_convert(words, 4800, out, sizeof out, &r));
    REFUSE(ccsuite_xds(list, size, TEXT("xds,0,1,3,NEWS\n"), out, sizeof out, &r));
    REFUSE(ccsuite_dual(list, size, TEXT("ccsuite,1,29.97,30\n"), out, sizeof out, &r));
    REFUSE(ccsuite_export(words, 4800, &hour, out, sizeof out, &r));
    REFUSE(ccsuite_import(TEXT("Scenarist_SCC V1.0\n\n01:00:00;00\t9420 9420\n\n"), out, sizeof out, &r));
    REFUSE(ccsuite_export_mcc(words, 4800, 30, &hour, mcc, sizeof mcc, &r));
    mcc_size = r.written;
    REFUSE(ccsuite_import_mcc(mcc, mcc_size, out, sizeof out, &r));
    CHECK(r.written == 4800 && memcmp(words, out, 4800) == 0);
    REFUSE(ccsuite_load(1, load, sizeof load, &r));
    REFUSE(ccsuite_builder_open(list, size, &builder, &r));
    REFUSE(ccsuite_receiver_open(&receiver, false));
    REFUSE(ccsuite_receiver_open(&receiver, true));
    REFUSE(ccsuite_receiver_changes(&receiver, out, sizeof out, &written));
    REFUSE(ccsuite_receiver_screens(&receiver, out, sizeof out, &written));
    REFUSE(ccsuite_verifier_open(list, size, &verifier, &r));
    for (int n = 0; n < 29; n++) {
        TAKES_NONE(ccsuite_builder_next(&builder, out, sizeof out, &written));
        TAKES_NONE(ccsuite_receiver_feed(&receiver, out, written, &fed));
        TAKES_NONE(ccsuite_receiver_changed(&receiver, &changed));
        TAKES_NONE(ccsuite_verifier_feed(&verifier, out, written, &fed));
    }
    TAKES_NONE(ccsuite_builder_next_cc_data(&builder, out, sizeof out, &written));
    TAKES_NONE(ccsuite_cdp_from_words(words, 160, out, sizeof out, &written));
    TAKES_NONE(ccsuite_words_from_cdp(out, written, mcc, sizeof mcc, &written));
    TAKES_NONE(ccsuite_cc_data_from_words(words, 160, out, sizeof out, &written, &packet));
    TAKES_NONE(ccsuite_words_from_cc_data(out, 60, 4, 0, out + 100, 1000, &written));
    TAKES_NONE(ccsuite_receiver_feed_cc_data(&receiver, out, 60, 4, 29, &fed));
    TAKES_NONE(ccsuite_receiver_finish(&receiver, &fed));
    TAKES_NONE(ccsuite_receiver_frame(&receiver, &frame));
    TAKES_NONE(ccsuite_receiver_cell(&receiver, 1, 15, 0, &cell));
    TAKES_NONE(ccsuite_receiver_grid(&receiver, 1, cells, CCSUITE_GRID_CELLS));
    TAKES_NONE(ccsuite_reason_of(CCSUITE_WHY_GRID_DIFFERS, &reason));
    TAKES_NONE(ccsuite_verifier_feed(&verifier, words + 4640, 160, &fed)); /* the last frame */
    TAKES_NONE(ccsuite_verifier_verdict(&verifier, &r));
    ccsuite_builder_close(&builder);
    ccsuite_receiver_close(&receiver);
    ccsuite_verifier_close(&verifier);
}
#else
static void refusals(void) {}
#endif

int main(int argc, char **argv) {
    if (argc != 2) return 98;
    reports();
    cells(argv[1]);
    layouts();
    closed();
    packets();
    reasons();
    texts();
    changes(argv[1]);
    threads();
    refusals();
    return 0;
}
