/* run COMMAND [ARGUMENT ..]: a whole run of the library, with the words of the program, its input and its output: so the bytes that both write, and
 * the status with which they end, can be compared. */
#include "files.h"
#include <ccsuite.h>
#include <string.h>

typedef uint32_t plain_call(const uint8_t *, size_t, uint8_t *, size_t, ccsuite_report *);
typedef uint32_t side_call(const uint8_t *, size_t, const uint8_t *, size_t, uint8_t *, size_t, ccsuite_report *);

static const struct {
    const char *name;
    plain_call *plain;
    side_call *side;
} CALLS[] = {
    {"pairs", ccsuite_pairs, NULL},   {"build", ccsuite_build, NULL},     {"cues", ccsuite_cues, NULL},
    {"decode", ccsuite_decode, NULL}, {"conceal", ccsuite_conceal, NULL}, {"xds-show", ccsuite_xds_show, NULL},
    {"import", ccsuite_import, NULL}, {"convert", ccsuite_convert, NULL}, {"verify", NULL, ccsuite_verify},
    {"insert", NULL, ccsuite_insert}, {"dual", NULL, ccsuite_dual},       {"xds", NULL, ccsuite_xds},
    {"import-mcc", ccsuite_import_mcc, NULL},
};

static ccsuite_time time_of(const char *text) {
    unsigned h = 99, m = 99, s = 99, f = 99;
    char mark = ':';
    sscanf(text, "%2u:%2u:%2u%c%2u", &h, &m, &s, &mark, &f);
    ccsuite_time time = {(uint8_t)h, (uint8_t)m, (uint8_t)s, (uint8_t)f, mark == ';'};
    return time;
}

static uint32_t run(int argc, char **argv, const uint8_t *in, size_t size, uint8_t *out, size_t room, ccsuite_report *report) {
    if (strcmp(argv[1], "show") == 0) return ccsuite_show(in, size, (uint32_t)strtoul(argv[2], NULL, 10), out, room, report);
    if (strcmp(argv[1], "load") == 0) return ccsuite_load((uint32_t)strtoul(argv[2], NULL, 10), out, room, report);
    if (strcmp(argv[1], "export") == 0) {
        ccsuite_time time = time_of(argv[2]);
        return ccsuite_export(in, size, &time, out, room, report);
    }
    if (strcmp(argv[1], "export-mcc") == 0) {
        ccsuite_time time = time_of(argv[3]);
        return ccsuite_export_mcc(in, size, (uint32_t)strtoul(argv[2], NULL, 10), &time, out, room, report);
    }
    for (size_t i = 0; i < sizeof CALLS / sizeof *CALLS; i++) {
        if (strcmp(argv[1], CALLS[i].name) != 0) continue;
        if (CALLS[i].plain) return CALLS[i].plain(in, size, out, room, report);
        if (argc != 3) break;
        size_t side_size;
        uint8_t *side = read_named(argv[2], &side_size);
        uint32_t code = CALLS[i].side(in, size, side, side_size, out, room, report);
        free(side);
        return code;
    }
    exit(98);
}

int main(int argc, char **argv) {
    size_t size, room = 1000;
    ccsuite_report report;
    if (argc < 2) return 98;
    uint8_t *in = read_whole(stdin, &size), *out = NULL;
    uint32_t code;
    do {
        out = (uint8_t *)realloc(out, room *= 20);
        if (!out) return 96;
        code = run(argc, argv, in, size, out, room, &report);
    } while (code == CCSUITE_ROOM);
    if (code != report.status) return 97;
    fwrite(out, 1, report.written, stdout);
    fputs(report.text, stderr);
    free(in);
    free(out);
    return (int)code;
}
