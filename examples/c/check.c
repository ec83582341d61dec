/* check LIST: whether the words that come on standard input show what a cue list authors, as `ccsuite verify LIST` says; it stops at the first
 * finding. */
#include "read_file.h"
#include <ccsuite.h>
#include <stdio.h>
#include <stdlib.h>

/* Feeds the words that come, to their end or up to the first finding. */
static void feed_words(ccsuite_verifier *verifier) {
    uint8_t bytes[4096];
    ccsuite_fed fed;
    uint32_t code = CCSUITE_OK;
    for (size_t got; code == CCSUITE_OK && (got = fread(bytes, 1, sizeof bytes, stdin)) > 0;)
        for (size_t at = 0; code == CCSUITE_OK && at < got; at += fed.used)
            code = ccsuite_verifier_feed(verifier, bytes + at, got - at, &fed);
}

int main(int argc, char **argv) {
    ccsuite_verifier verifier = {0};
    ccsuite_report report;
    size_t size;
    if (argc != 2) {
        fputs("usage: check LIST\n", stderr);
        return CCSUITE_ARGUMENT;
    }
    uint8_t *list = read_file(argv[1], &size);
    if (!list) {
        fputs("read fault\n", stderr);
        return CCSUITE_READ_FAULT;
    }
    ccsuite_verifier_open(list, size, &verifier, &report);
    free(list);
    if (report.status == CCSUITE_OK) {
        feed_words(&verifier);
        ccsuite_verifier_verdict(&verifier, &report);
        ccsuite_verifier_close(&verifier);
    }
    if (ferror(stdin)) {
        fputs("read fault\n", stderr);
        return CCSUITE_READ_FAULT;
    }
    if (report.status == CCSUITE_OK) puts("ok");
    fputs(report.text, stderr);
    return (int)report.status;
}
