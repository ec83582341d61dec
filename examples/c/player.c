/* player: what changes on the screen, frame by frame, of the words that come on standard input, as `ccsuite decode` prints it; with the word
 * `conceal` of words of which frames are missing. */
#include <ccsuite.h>
#include <stdio.h>
#include <stdlib.h>
#include <string.h>

/* More than all screens and windows together, each cell a run of its own, have as text. */
#define TEXT_ROOM ((size_t)32 << 20)

/* Draws what a frame changed. A player with a picture asks ccsuite_receiver_changed which channels and services did, and reads their cells and windows:
 * ccsuite_receiver_grid, ccsuite_receiver_window, ccsuite_receiver_window_grid. */
static uint32_t draw(ccsuite_receiver *receiver, uint8_t *text) {
    size_t written;
    uint32_t code = ccsuite_receiver_changes(receiver, text, TEXT_ROOM, &written);
    if (code == CCSUITE_OK) fwrite(text, 1, written, stdout);
    return code;
}

/* Feeds bytes to their end, and draws each frame that ends in them. */
static uint32_t play(ccsuite_receiver *receiver, const uint8_t *bytes, size_t size, uint8_t *text, ccsuite_fed *fed) {
    while (size > 0) {
        uint32_t code = ccsuite_receiver_feed(receiver, bytes, size, fed);
        if (code == CCSUITE_OK && fed->ended == 2) code = draw(receiver, text);
        if (code != CCSUITE_OK) return code;
        bytes += fed->used;
        size -= fed->used;
    }
    return CCSUITE_OK;
}

/* Plays the words that come, to their end. */
static uint32_t play_words(ccsuite_receiver *receiver, uint8_t *text, ccsuite_fed *fed) {
    uint8_t bytes[4096];
    uint32_t code = CCSUITE_OK;
    for (size_t got; code == CCSUITE_OK && (got = fread(bytes, 1, sizeof bytes, stdin)) > 0;)
        code = play(receiver, bytes, got, text, fed);
    if (ferror(stdin)) return CCSUITE_READ_FAULT;
    return code == CCSUITE_OK ? ccsuite_receiver_finish(receiver, fed) : code;
}

int main(int argc, char **argv) {
    ccsuite_receiver receiver = {0};
    ccsuite_fed fed = {0};
    ccsuite_frame frame = {0};
    uint8_t *text = (uint8_t *)malloc(TEXT_ROOM);
    uint32_t code = text ? ccsuite_receiver_open(&receiver, argc > 1 && strcmp(argv[1], "conceal") == 0) : CCSUITE_MEMORY;
    if (code == CCSUITE_OK) code = play_words(&receiver, text, &fed);
    ccsuite_receiver_frame(&receiver, &frame);
    if (code == CCSUITE_MALFORMED)
        fprintf(stderr, "the words are refused at byte %llu, for reason %u\n", (unsigned long long)fed.place, (unsigned)fed.why);
    else if (code == CCSUITE_READ_FAULT)
        fputs("read fault\n", stderr);
    else if (code == CCSUITE_OK)
        printf("frames %u\n", (unsigned)frame.frames);
    ccsuite_receiver_close(&receiver);
    free(text);
    return (int)code;
}
