/* Runs a log by single calls of the library for C, line by line: session_calls SETUP < LOG. What is drained goes to standard
 * output. A line that is no call and no cut is tested, and then left out: it must change nothing. It ends with status 1, and a line
 * that says where, if two calls don't agree with each other. */
#include "calvin.h"

#include <stdio.h>
#include <stdlib.h>
#include <string.h>

static void require(int holds, const char *what, unsigned long line) {
    if (holds) return;
    fprintf(stderr, "line %lu: %s\n", line, what);
    exit(1);
}

static uint8_t *contents(const char *path, size_t *length) {
    FILE *file = fopen(path, "rb");
    uint8_t *bytes = malloc(1 << 20);
    if (file == NULL || bytes == NULL) exit(1);
    *length = fread(bytes, 1, 1 << 20, file);
    fclose(file);
    return bytes;
}

static void drain(calvin *session) {
    uint8_t bytes[4096];
    size_t taken = 0;
    do {
        require(calvin_drain(session, bytes, sizeof bytes, &taken) == CALVIN_DONE, "nothing is drained", 0);
        fwrite(bytes, 1, taken, stdout);
    } while (taken != 0);
}

/* A line: a cut ends the batch, a call is tested and then taken, and each other line is refused twice alike. The number of the
 * batch's next call is `next`; it isn't known before the batch's first one. */
static void take(calvin *session, const char *line, size_t length, unsigned long place, uint64_t *next) {
    const uint8_t *bytes = (const uint8_t *)line;
    uint64_t number = 7;
    int fault = -1, answer;
    require(calvin_test(session, bytes, length, &fault) == CALVIN_DONE, "the line is not tested", place);
    if (strcmp(line, "[\"cut\"]") == 0) {
        require(fault == CALVIN_NOT_CALL, "a cut is taken for a call", place);
        require(calvin_call(session, bytes, length, &number) == CALVIN_NOT_CALL, "a cut is called", place);
        require(calvin_cut(session) == CALVIN_DONE, "the cut fails", place);
        *next = UINT64_MAX;
        return;
    }
    answer = calvin_call(session, bytes, length, &number);
    require(answer == fault, "test and call answer differently", place);
    if (answer != CALVIN_DONE) {
        require(number == 0, "a line with a fault has a number", place);
        fprintf(stderr, "fault %d line %lu\n", fault, place);
        return;
    }
    require(*next == UINT64_MAX || number == *next, "the numbers of a batch have a gap", place);
    *next = number + 1;
}

int main(int count, char **words) {
    static char line[1 << 16];
    char message[256];
    size_t length, written;
    unsigned long place = 0;
    uint64_t next = UINT64_MAX, number;
    int fault;
    calvin *session;
    uint8_t *setup;
    if (count != 2) return 2;
    setup = contents(words[1], &length);
    require(calvin_open(setup, length, CALVIN_COARSEN, CALVIN_ARENA, &session, (uint8_t *)message, sizeof message, &written) ==
                CALVIN_DONE, "the setup is refused", 0);
    free(setup);
    while (fgets(line, sizeof line, stdin) != NULL) {
        length = strcspn(line, "\n");
        line[length] = '\0';
        take(session, line, length, ++place, &next);
    }
    require(calvin_call(session, (const uint8_t *)"[\n]", 3, &number) == CALVIN_NOT_CALL, "two lines are a call", place);

    /* Where the beginning of a line is fed, neither a call nor a cut is taken. */
    require(calvin_feed(session, (const uint8_t *)"[\"cut", 5) == CALVIN_DONE, "a piece is not fed", place);
    require(calvin_test(session, (const uint8_t *)"1", 1, &fault) == CALVIN_MISUSED && fault == 0, "tested in a line", place);
    require(calvin_call(session, (const uint8_t *)"1", 1, &number) == CALVIN_MISUSED, "called in a line", place);
    require(calvin_cut(session) == CALVIN_MISUSED, "cut in a line", place);
    require(calvin_feed(session, (const uint8_t *)"\"]\n", 3) == CALVIN_DONE, "the rest is not fed", place);
    drain(session);
    require(calvin_end(session) == CALVIN_DONE, "the log doesn't end", place);
    drain(session);
    require(calvin_cut(session) == CALVIN_MISUSED, "a cut is taken after the end", place);
    calvin_close(session);
    return 0;
}
