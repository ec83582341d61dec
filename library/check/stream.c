/* stream KIND PIECE [LIST]: a handle of the library, fed its input in pieces of so many bytes, 0 for all at once: `builder` writes as `build`,
 * `receiver` as `decode`, `conceal` as `conceal` but for its lines of lost frames, which it writes too, `verifier LIST` as `verify LIST`. */
#include "files.h"
#include <ccsuite.h>
#include <string.h>

static uint8_t text[1 << 22];

static int build(const uint8_t *list, size_t size) {
    ccsuite_builder builder = {0};
    ccsuite_report report;
    uint8_t packet[CCSUITE_PACKET_ROOM];
    size_t written;
    uint32_t code = ccsuite_builder_open(list, size, &builder, &report);
    fputs(report.text, stderr);
    if (code != CCSUITE_OK) return (int)code;
    while ((code = ccsuite_builder_next(&builder, packet, sizeof packet, &written)) == CCSUITE_OK) fwrite(packet, 1, written, stdout);
    ccsuite_builder_close(&builder);
    return code == CCSUITE_END ? 0 : 99;
}

/* what `conceal` and `decode` print of a frame */
static void put_frame(ccsuite_receiver *receiver, bool conceals) {
    ccsuite_frame frame;
    size_t written;
    if (ccsuite_receiver_frame(receiver, &frame) != CCSUITE_OK) exit(99);
    if (conceals && frame.missing > 0)
        printf("lost %llu before %llu\n", (unsigned long long)frame.missing, (unsigned long long)frame.number);
    if (ccsuite_receiver_changes(receiver, text, sizeof text, &written) != CCSUITE_OK) exit(99);
    fwrite(text, 1, written, stdout);
}

static int receive(const uint8_t *words, size_t size, size_t piece, bool conceals) {
    ccsuite_receiver receiver = {0};
    ccsuite_fed fed;
    ccsuite_frame frame;
    if (ccsuite_receiver_open(&receiver, conceals) != CCSUITE_OK) return 99;
    for (size_t at = 0; at < size; at += fed.used) {
        size_t next = piece && piece < size - at ? piece : size - at;
        uint32_t code = ccsuite_receiver_feed(&receiver, words + at, next, &fed);
        if (code != CCSUITE_OK) {
            fprintf(stderr, "%u at byte %llu: %u\n", code, (unsigned long long)fed.place, fed.why);
            ccsuite_receiver_close(&receiver);
            return (int)code;
        }
        if (fed.used == 0 || fed.used > next) return 99;
        if (fed.ended == 2) put_frame(&receiver, conceals);
    }
    uint32_t code = ccsuite_receiver_finish(&receiver, &fed);
    if (fed.used != 0 || fed.ended != 0) return 99;
    if (ccsuite_receiver_frame(&receiver, &frame) != CCSUITE_OK) frame.frames = 0;
    if (code == CCSUITE_OK) printf("frames %u\n", frame.frames);
    ccsuite_receiver_close(&receiver);
    return (int)code;
}

static int verify(const uint8_t *words, size_t size, size_t piece, const char *list_name) {
    ccsuite_verifier verifier = {0};
    ccsuite_report report;
    ccsuite_fed fed;
    size_t list_size;
    uint8_t *list = read_named(list_name, &list_size);
    uint32_t code = ccsuite_verifier_open(list, list_size, &verifier, &report);
    free(list);
    for (size_t at = 0; code == CCSUITE_OK && at < size; at += fed.used)
        code = ccsuite_verifier_feed(&verifier, words + at, piece && piece < size - at ? piece : size - at, &fed);
    if (verifier.live && ccsuite_verifier_verdict(&verifier, &report) != report.status) return 99;
    if (report.status == CCSUITE_OK) puts("ok");
    fputs(report.text, stderr);
    ccsuite_verifier_close(&verifier);
    return (int)report.status;
}

int main(int argc, char **argv) {
    size_t size;
    if (argc < 3) return 98;
    uint8_t *in = read_whole(stdin, &size);
    size_t piece = strtoul(argv[2], NULL, 10);
    int code = strcmp(argv[1], "builder") == 0 ? build(in, size)
        : strcmp(argv[1], "receiver") == 0     ? receive(in, size, piece, false)
        : strcmp(argv[1], "conceal") == 0      ? receive(in, size, piece, true)
        : argc == 4                            ? verify(in, size, piece, argv[3])
                                               : 98;
    free(in);
    return code;
}
