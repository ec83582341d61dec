/* encoder LIST: the words of a cue list, a packet at each tick of the frame clock, as `ccsuite build < LIST` writes them. */
#include "read_file.h"
#include <ccsuite.h>
#include <stdio.h>
#include <stdlib.h>

/* An encoder waits here for the next frame of its video. */
static void wait_for_frame(void) {}

int main(int argc, char **argv) {
    ccsuite_builder builder = {0};
    ccsuite_report report;
    uint8_t packet[CCSUITE_PACKET_ROOM];
    size_t size, written;
    if (argc != 2) {
        fputs("usage: encoder LIST\n", stderr);
        return CCSUITE_ARGUMENT;
    }
    uint8_t *list = read_file(argv[1], &size);
    if (!list) {
        fputs("read fault\n", stderr);
        return CCSUITE_READ_FAULT;
    }
    ccsuite_builder_open(list, size, &builder, &report);
    free(list);
    if (report.status != CCSUITE_OK) {
        fputs(report.text, stderr);
        return (int)report.status;
    }
    while (ccsuite_builder_next(&builder, packet, sizeof packet, &written) == CCSUITE_OK) {
        wait_for_frame();
        fwrite(packet, 1, written, stdout);
    }
    ccsuite_builder_close(&builder);
    if (fflush(stdout) || ferror(stdout)) {
        fputs("write fault\n", stderr);
        return CCSUITE_ROOM;
    }
    return CCSUITE_OK;
}
