/* Runs the log on standard input on the setup at a path, as `calvin run SETUP` does:
 *
 *     replay SETUP [PIECE]      feeds PIECE bytes at a time, or 4096
 *
 * The exit status is the one that the library answers. */
#include "calvin.h"
#include <inttypes.h>
#include <stdio.h>
#include <stdlib.h>

/* All bytes of a file, or NULL. */
static uint8_t *bytes_of(const char *path, size_t *length) {
    FILE *file = fopen(path, "rb");
    uint8_t *bytes = NULL;
    if (file != NULL && fseek(file, 0, SEEK_END) == 0) {
        long size = ftell(file);
        if (size >= 0 && (bytes = malloc((size_t)size + 1)) != NULL) {
            rewind(file);
            *length = fread(bytes, 1, (size_t)size, file);
        }
    }
    if (file != NULL) fclose(file);
    return bytes;
}

/* Prints all that waits. */
static void print_report(calvin *session) {
    uint8_t piece[512];
    size_t taken;
    while (calvin_drain(session, piece, sizeof piece, &taken) == CALVIN_DONE && taken != 0) {
        fwrite(piece, 1, taken, stdout);
    }
}

/* Feeds standard input to its end, and prints each report as it comes. */
static int replay(calvin *session, size_t piece) {
    uint8_t *log = malloc(piece);
    int status = log == NULL ? CALVIN_NO_MEMORY : CALVIN_DONE;
    size_t length;
    while (status == CALVIN_DONE && (length = fread(log, 1, piece, stdin)) != 0) {
        status = calvin_feed(session, log, length);
        print_report(session);
    }
    if (status == CALVIN_DONE) status = calvin_end(session);
    print_report(session);
    free(log);
    return status;
}

int main(int count, char **words) {
    uint8_t message[256];
    size_t written, length = 0, piece = count > 2 ? strtoul(words[2], NULL, 10) : 4096;
    calvin *session;
    uint8_t *setup = count < 2 || piece == 0 ? NULL : bytes_of(words[1], &length);
    if (setup == NULL) {
        fprintf(stderr, "usage: replay SETUP [PIECE]\n");
        return CALVIN_MISUSED;
    }
    int status = calvin_open(setup, length, CALVIN_COARSEN, CALVIN_ARENA, &session, message, sizeof message, &written);
    free(setup);
    if (status != CALVIN_DONE) {
        fprintf(stderr, "%.*s\n", (int)written, (const char *)message);
        return status;
    }
    status = replay(session, piece);
    int fault;
    uint64_t line;
    if (calvin_fault(session, &fault, &line) == CALVIN_DONE && fault != 0) {
        fprintf(stderr, "fault %d line %" PRIu64 "\n", fault, line);
    }
    calvin_close(session);
    return status;
}
