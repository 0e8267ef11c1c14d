/* Runs a log through the static library once for each of its allocations, which fails:
 *
 *     refuse_memory SETUP LOG REPORT TABLE
 *
 * It is linked with `-Wl,--wrap=malloc,--wrap=realloc,--wrap=free`. In the first run the first allocation fails, in the next run the
 * second one, and so forth up to a run in which none does. The log is run in two ways:
 *
 * - It is fed in pieces, and all later allocations fail, too. The run ends whole or with status 3, and with fault 37 if the log was
 *   fed then. What it drained is a beginning of the report, and its replies are the first ones.
 * - It is taken by single calls, each tested before. If a call answers status 3 and the session has not ended, it is made once more,
 *   now with memory, and the run ends whole. Otherwise the run ends as above.
 *
 * A run that ends whole has drained the report. After the log it is asked for its digest, which is that of the report's end line, for
 * the rows of TABLE, one by one and by their keys, and for its rows document, on which another session is opened: if one of these
 * answers status 3, the session has not ended. All that a run allocated is freed. The program prints in how many runs an allocation
 * failed in each function, and how many runs ended so. Its status is 1 if a run ended otherwise, or if no allocation failed in a
 * function that takes memory. */
#include "calvin.h"
#include <stdbool.h>
#include <stdio.h>
#include <stdlib.h>
#include <string.h>

enum { MOST = 1 << 16, PIECE = 7 };

typedef struct text {
    uint8_t bytes[MOST];
    size_t length;
} text;

/* The functions in which an allocation may fail. */
enum function { OPEN, OPEN_ROWS, FEED, END, TEST, CALL, CUT, DIGEST, ROW, NEXT_ROW, ROWS_DOCUMENT, FUNCTIONS };
static const char *const names[FUNCTIONS] = {"open", "open_rows", "feed", "end", "test", "call", "cut",
                                             "digest", "row", "next_row", "rows_document"};
/* Those that take no memory. */
static const bool takes_none[FUNCTIONS] = {[ROW] = true, [NEXT_ROW] = true};

static text setup, log_bytes, report, drained, document;
static const char *table;
static size_t failures[FUNCTIONS];

/* How many more allocations of a run succeed, the blocks that it has, whether one has failed, whether all have succeeded since, and
 * the function that runs. */
static size_t granted, blocks;
static bool refused, granted_again;
static enum function running;

void *__real_malloc(size_t size);
void *__real_realloc(void *block, size_t size);
void __real_free(void *block);

/* Whether one more allocation is granted. */
static bool grants(void) {
    if (granted != 0) {
        granted--;
        return true;
    }
    if (!refused) failures[running]++;
    refused = true;
    return false;
}

void *__wrap_malloc(size_t size) {
    void *block = grants() ? __real_malloc(size) : NULL;
    if (block != NULL) blocks++;
    return block;
}

void *__wrap_realloc(void *block, size_t size) {
    return grants() ? __real_realloc(block, size) : NULL;
}

void __wrap_free(void *block) {
    if (block != NULL) blocks--;
    __real_free(block);
}

static bool read_text(const char *path, text *into) {
    FILE *file = fopen(path, "rb");
    if (file == NULL) return false;
    into->length = fread(into->bytes, 1, MOST, file);
    return fclose(file) == 0;
}

static bool has_ended_by_fault(calvin *session) {
    int fault;
    uint64_t line;
    calvin_fault(session, &fault, &line);
    return fault != 0;
}

/* Whether a function is to be called once more: an allocation failed in it, and the session goes on. All succeed from now on. */
static bool is_called_again(calvin *session, int status) {
    if (status != CALVIN_NO_MEMORY || granted_again || has_ended_by_fault(session)) return false;
    granted = SIZE_MAX;
    return granted_again = true;
}

/* The status of a call, which is made once more if an allocation failed in it and the session goes on. */
#define TRIED(function, call) (running = (function), status = (call), is_called_again(session, status) ? (call) : status)

/* Feeds the log in pieces; the status of the last call. */
static int feed_pieces(calvin *session) {
    int status = CALVIN_DONE;
    size_t at;
    running = FEED;
    for (at = 0; status == CALVIN_DONE && at < log_bytes.length; at += PIECE) {
        size_t left = log_bytes.length - at;
        status = calvin_feed(session, log_bytes.bytes + at, left < PIECE ? left : PIECE);
    }
    return status;
}

/* Takes a line: a cut, or a call, which is tested before. */
static int take_line(calvin *session, const uint8_t *line, size_t length) {
    uint64_t number;
    int fault, status;
    if (length == 7 && memcmp(line, "[\"cut\"]", 7) == 0) return TRIED(CUT, calvin_cut(session));
    status = TRIED(TEST, calvin_test(session, line, length, &fault));
    if (status == CALVIN_DONE && fault != 0) return -1;
    return status == CALVIN_DONE ? TRIED(CALL, calvin_call(session, line, length, &number)) : status;
}

/* Takes the log line by line; the status of the last call. */
static int take_lines(calvin *session) {
    int status = CALVIN_DONE;
    size_t at = 0;
    while (status == CALVIN_DONE && at < log_bytes.length) {
        const uint8_t *line = log_bytes.bytes + at;
        size_t length = (size_t)((const uint8_t *)memchr(line, '\n', log_bytes.length - at) - line);
        status = take_line(session, line, length);
        at += length + 1;
    }
    return status;
}

static int end(calvin *session) {
    int status;
    return TRIED(END, calvin_end(session));
}

static void drain(calvin *session) {
    size_t taken;
    while (calvin_drain(session, drained.bytes + drained.length, MOST - drained.length, &taken) == CALVIN_DONE && taken != 0) {
        drained.length += taken;
    }
}

/* Whether the replies that wait are numbered from 0 on, and are as many as the report has, or fewer in a run that isn't whole. */
static bool replies_are_right(calvin *session, bool whole) {
    static calvin_reply reply;
    uint64_t count = 0, lines = 0;
    size_t at;
    for (at = 0; at < report.length; at++) {
        bool begins = at == 0 || report.bytes[at - 1] == '\n';
        if (begins && report.bytes[at] >= '0' && report.bytes[at] <= '9') lines++;
    }
    while (calvin_next_reply(session, &reply) == CALVIN_DONE) {
        if (reply.head.number != count) return false;
        count++;
    }
    return whole ? count == lines : count <= lines;
}

/* Whether the report's end line has these digits of the rows. */
static bool is_told(const uint8_t digits[64]) {
    size_t at = report.length - 1;
    while (at != 0 && report.bytes[at - 1] != '\n') at--;
    while (memcmp(report.bytes + at, "rows ", 5) != 0) at++;
    return memcmp(report.bytes + at + 5, digits, 64) == 0;
}

/* Asks for the table's rows, each after the one before and by its key; the status of the last call. */
static int read_table(calvin *session) {
    static calvin_record row, same;
    const uint8_t *name = (const uint8_t *)table;
    size_t length = strlen(table);
    const uint64_t *after = NULL;
    int status;
    while ((status = TRIED(NEXT_ROW, calvin_next_row(session, name, length, after, &row))) == CALVIN_DONE) {
        status = TRIED(ROW, calvin_row(session, name, length, row.key, &same));
        if (status != CALVIN_DONE) return status;
        if (memcmp(&row, &same, sizeof row) != 0) return -1;
        after = &row.key;
    }
    return status == CALVIN_NONE ? CALVIN_DONE : status;
}

/* Asks for the digest, the table's rows and the rows document; the status of the last call. */
static int read_rows(calvin *session) {
    uint8_t digits[64];
    size_t length, taken;
    int status = TRIED(DIGEST, calvin_digest(session, digits));
    if ((status == CALVIN_DONE) != (digits[0] != 0) || (status == CALVIN_DONE && !is_told(digits))) return -1;
    if (status == CALVIN_DONE) status = read_table(session);
    if (status == CALVIN_DONE) status = TRIED(ROWS_DOCUMENT, calvin_rows_document(session, &length));
    if (status != CALVIN_DONE) return status;
    document.length = 0;
    while (calvin_drain_rows(session, document.bytes + document.length, PIECE, &taken) == CALVIN_DONE && taken != 0) {
        document.length += taken;
    }
    return document.length == length ? CALVIN_DONE : -1;
}

/* Opens another session on the rows document, and closes it; the status of opening. */
static int open_again(void) {
    calvin *other;
    size_t written;
    int status;
    running = OPEN_ROWS;
    status = calvin_open_rows(setup.bytes, setup.length, document.bytes, document.length, CALVIN_COARSEN, CALVIN_ARENA, &other,
                              NULL, 0, &written);
    if ((status == CALVIN_DONE) != (other != NULL)) return -1;
    calvin_close(other);
    return status;
}

/* Runs the log, by single calls or in pieces, and asks for what it left. Gives the last status, or -1 where something is wrong. */
static int run_session(calvin *session, bool by_calls) {
    int status;
    bool whole;
    granted_again = !by_calls;
    calvin_keep_replies(session);
    status = by_calls ? take_lines(session) : feed_pieces(session);
    if (status == CALVIN_DONE) status = end(session);
    drain(session);
    whole = status == CALVIN_DONE;
    if (has_ended_by_fault(session) == whole || !replies_are_right(session, whole)) return -1;
    if (drained.length > report.length || memcmp(drained.bytes, report.bytes, drained.length) != 0) return -1;
    if (whole && drained.length != report.length) return -1;
    if (whole) status = read_rows(session);
    return has_ended_by_fault(session) == whole ? -1 : status;
}

/* Whether a run that is granted a number of allocations ends as it is to. */
static bool ends_well(size_t allocations, bool by_calls) {
    calvin *session;
    size_t written;
    int status;
    granted = allocations, blocks = 0, refused = false, drained.length = 0, running = OPEN;
    status = calvin_open(setup.bytes, setup.length, CALVIN_COARSEN, CALVIN_ARENA, &session, NULL, 0, &written);
    if ((status == CALVIN_DONE) != (session != NULL)) return false;
    if (session != NULL) {
        status = run_session(session, by_calls);
        calvin_close(session);
        if (status == CALVIN_DONE) status = open_again();
    }
    if (blocks != 0) return false;
    if (status == CALVIN_DONE) return !refused || (by_calls && granted_again);
    return status == CALVIN_NO_MEMORY && refused;
}

int main(int count, char **words) {
    size_t right = 0, wrong = 0, way, function;
    if (count != 5 || !read_text(words[1], &setup) || !read_text(words[2], &log_bytes) || !read_text(words[3], &report)) return 2;
    table = words[4];
    for (way = 0; way < 2; way++) {
        size_t allocations = 0;
        do {
            if (ends_well(allocations, way == 1)) right++;
            else wrong++;
            allocations++;
        } while (refused);
    }
    for (function = 0; function < FUNCTIONS; function++) {
        printf("in calvin_%s an allocation fails in %zu runs\n", names[function], failures[function]);
        if ((failures[function] == 0) != takes_none[function]) wrong++;
    }
    printf("%zu runs of the static library without memory end well, %zu don't\n", right, wrong);
    return wrong != 0;
}
