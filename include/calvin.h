/* The executor as a library: runs a log of procedure calls on a setup, on the thread that calls it.
 *
 * A session takes the log in pieces of any size and gives its report in pieces of any size. docs/language.md says what a setup,
 * a log and a report are. The bytes that are drained are those that `calvin run` prints for the same setup and log.
 *
 * Link libcalvin_c.a and the toolchain's liblibc_c.a, which calls malloc, realloc and free; docs/embedding.md has the commands.
 *
 * No function starts a thread, waits, writes anything but what its caller passes, or ends the process. Only the thread that opened a
 * session uses it, with a stack of at least 256 KB. Sessions share nothing, so several threads may each have sessions of their own.
 * Nothing tests what the conditions below ask of a pointer that is not null.
 */
#ifndef CALVIN_H
#define CALVIN_H

#include <stddef.h>
#include <stdint.h>
#include <string.h>

#ifdef __cplusplus
extern "C" {
#endif

/* What a call answers: up to 3 as the exit statuses of the program. */
enum {
    CALVIN_DONE = 0,
    CALVIN_REFUSED = 1,   /* the setup or the log breaks a rule */
    CALVIN_MISUSED = 2,   /* a pointer is null, a setting is outside its range, the log has ended, or a line is begun */
    CALVIN_NO_MEMORY = 3, /* allocation failed */
    CALVIN_NONE = 4,      /* no reply waits, or there is no such row */
    CALVIN_NO_TABLE = 5   /* the setup has no table of that name */
};

/* What calvin_call answers, too: the number of a line's fault, as docs/faults.md has it. */
enum {
    CALVIN_NOT_JSON = 31,     /* the line is no JSON text */
    CALVIN_NOT_CALL = 32,     /* the line is no call: a cut, more than one line, or another form */
    CALVIN_NO_PROCEDURE = 33, /* no procedure has that name */
    CALVIN_ARGUMENTS = 34,    /* the values are not one for each parameter, of its type */
    CALVIN_BATCH_FULL = 35    /* the batch has 4,096 calls, or the log as many as it may have */
};

/* The settings of `calvin run` where none are given. None of them changes a report. */
enum {
    CALVIN_COARSEN = 64,   /* 0 to 65535 */
    CALVIN_ARENA = 65536   /* 1 to 1048576 */
};

/* How an attempt of a call ended, and what a value is. */
enum { CALVIN_COMMIT = 0, CALVIN_ABORT = 1, CALVIN_STALE = 2 };
enum { CALVIN_INT = 0, CALVIN_TEXT = 1 };

/* The most values of a reply, columns of a table and bytes of a text. */
enum { CALVIN_MOST_REPLIED = 64, CALVIN_MOST_COLUMNS = 16, CALVIN_MOST_BYTES = 64 };

/* A value: a number, or a text, which is the first `length` bytes of `text`, in UTF-8, without a null byte at its end. Null bytes and
 * newlines may be among them. */
typedef struct calvin_value {
    int64_t number;  /* 0 for a text */
    uint32_t kind;   /* CALVIN_INT or CALVIN_TEXT */
    uint32_t length; /* 0 for a number */
    uint8_t text[CALVIN_MOST_BYTES];
} calvin_value;

/* What came of an attempt of a call, but for its values. */
typedef struct calvin_reply_head {
    uint64_t number; /* of its transaction */
    uint64_t first;  /* that of the call's first attempt, the same where this is the first */
    uint32_t kind;   /* CALVIN_COMMIT, CALVIN_ABORT or CALVIN_STALE */
    uint32_t code;   /* of an abort, else 0 */
    size_t length;   /* how many values a commit replied */
} calvin_reply_head;

/* A reply. It has all that it says in itself, and so has a row: neither depends on the session that gave it. */
typedef struct calvin_reply {
    calvin_reply_head head;
    calvin_value values[CALVIN_MOST_REPLIED];
} calvin_reply;

/* A row of a table: its key, and a value a column. */
typedef struct calvin_record {
    uint64_t key;
    size_t length;
    calvin_value values[CALVIN_MOST_COLUMNS];
} calvin_record;

/* A session. A pointer to one is live from the calvin_open that gave it to the calvin_close that takes it. */
typedef struct calvin calvin;

/* The functions of the archive. They take a session as a struct of its pointer, and no null; those below call them. */
typedef struct calvin_c_session {
    calvin *at;
} calvin_c_session;
int32_t calvin_c_open(const uint8_t *setup, size_t setup_length, size_t coarsen, size_t arena, calvin **session,
                      uint8_t *message, size_t message_room, size_t *message_length);
int32_t calvin_c_open_rows(const uint8_t *setup, size_t setup_length, const uint8_t *rows, size_t rows_length, size_t coarsen,
                           size_t arena, calvin **session, uint8_t *message, size_t message_room, size_t *message_length);
int32_t calvin_c_feed(calvin_c_session *session, const uint8_t *bytes, size_t length);
int32_t calvin_c_end(calvin_c_session *session);
int32_t calvin_c_call(calvin_c_session *session, const uint8_t *line, size_t length, uint64_t *number);
int32_t calvin_c_test(calvin_c_session *session, const uint8_t *line, size_t length);
int32_t calvin_c_cut(calvin_c_session *session);
size_t calvin_c_drain(calvin_c_session *session, uint8_t *into, size_t room);
int32_t calvin_c_fault(calvin_c_session *session, uint64_t *line);
void calvin_c_keep_replies(calvin_c_session *session);
int32_t calvin_c_next_reply(calvin_c_session *session, calvin_reply_head *head, calvin_value *values, size_t room);
int32_t calvin_c_row(calvin_c_session *session, const uint8_t *table, size_t table_length, uint64_t key, size_t *length,
                     calvin_value *values, size_t room);
int32_t calvin_c_next_row(calvin_c_session *session, const uint8_t *table, size_t table_length, uint64_t least, uint64_t *key,
                          size_t *length, calvin_value *values, size_t room);
int32_t calvin_c_rows_document(calvin_c_session *session, size_t *length);
size_t calvin_c_drain_rows(calvin_c_session *session, uint8_t *into, size_t room);
int32_t calvin_c_carried(calvin_c_session *session, size_t *count);
int32_t calvin_c_digest(calvin_c_session *session, uint8_t *digits, size_t room);
void calvin_c_close(calvin_c_session session);

/* Opens a session on the setup whose JSON text has this length, and gives its pointer out by `session`. Otherwise `session` gets
 * null. Where the setup breaks a rule, the line of its first fault, as `fault 11 at /2/0`, goes to `message` without a null byte
 * at its end, as far as it fits into `message_room` bytes; `message_length` gets how many bytes were written, 0 if there is
 * no fault to tell. `message` may be null where the room is 0. The texts may be freed once the call has returned. */
static inline int calvin_open(const uint8_t *setup, size_t setup_length, size_t coarsen, size_t arena, calvin **session,
                              uint8_t *message, size_t message_room, size_t *message_length) {
    uint8_t none = 0;
    if (session == NULL) return CALVIN_MISUSED;
    *session = NULL;
    if (message_length != NULL) *message_length = 0;
    if (setup == NULL || message_length == NULL || (message == NULL && message_room != 0)) return CALVIN_MISUSED;
    return calvin_c_open(setup, setup_length, coarsen, arena, session, message == NULL ? &none : message, message_room,
                         message_length);
}

/* The same, but that the rows are those of a rows document, whose JSON text has that length, and not the setup's. */
static inline int calvin_open_rows(const uint8_t *setup, size_t setup_length, const uint8_t *rows, size_t rows_length,
                                   size_t coarsen, size_t arena, calvin **session, uint8_t *message, size_t message_room,
                                   size_t *message_length) {
    uint8_t none = 0;
    if (session == NULL) return CALVIN_MISUSED;
    *session = NULL;
    if (message_length != NULL) *message_length = 0;
    if (setup == NULL || rows == NULL || message_length == NULL || (message == NULL && message_room != 0)) return CALVIN_MISUSED;
    return calvin_c_open_rows(setup, setup_length, rows, rows_length, coarsen, arena, session,
                              message == NULL ? &none : message, message_room, message_length);
}

/* Feeds the next bytes of the log, in pieces of any size. Each batch whose cut is among them is executed before the call
 * returns, and its report waits to be drained. After a fault each further call answers the same. The session is live. */
static inline int calvin_feed(calvin *session, const uint8_t *bytes, size_t length) {
    static const uint8_t none = 0;
    calvin_c_session live = {session};
    if (session == NULL || (bytes == NULL && length != 0)) return CALVIN_MISUSED;
    return calvin_c_feed(&live, length == 0 ? &none : bytes, length);
}

/* Ends the log. Calls after the last cut are executed as a batch, and the end line waits to be drained. The session is live,
 * and nothing more can be fed to it. */
static inline int calvin_end(calvin *session) {
    calvin_c_session live = {session};
    return session == NULL ? CALVIN_MISUSED : calvin_c_end(&live);
}

/* Takes a line, which has no newline, as the next call of the log. Where it is a call that the setup takes, it waits for the cut,
 * and `number` gets the number of its transaction: that of its first attempt. Any other line, a cut too, answers its fault, 31 to
 * 35, and nothing has changed, as with each other answer but 0; `number` gets 0 then. CALVIN_MISUSED where the log has ended, or
 * where the beginning of a line was fed and its end was not. The session is live. */
static inline int calvin_call(calvin *session, const uint8_t *line, size_t length, uint64_t *number) {
    static const uint8_t none = 0;
    calvin_c_session live = {session};
    if (number == NULL) return CALVIN_MISUSED;
    *number = 0;
    if (session == NULL || (line == NULL && length != 0)) return CALVIN_MISUSED;
    return calvin_c_call(&live, length == 0 ? &none : line, length, number);
}

/* Tells in `fault` what calvin_call would answer for the line, 0 or 31 to 35, unless allocation fails, and takes nothing. Where it
 * would answer something else, that is the answer, and `fault` gets 0. The session is live. */
static inline int calvin_test(calvin *session, const uint8_t *line, size_t length, int *fault) {
    static const uint8_t none = 0;
    calvin_c_session live = {session};
    int32_t status;
    if (fault == NULL) return CALVIN_MISUSED;
    *fault = 0;
    if (session == NULL || (line == NULL && length != 0)) return CALVIN_MISUSED;
    status = calvin_c_test(&live, length == 0 ? &none : line, length);
    if (status < CALVIN_NOT_JSON) return status;
    *fault = status;
    return CALVIN_DONE;
}

/* Ends the batch: its calls are executed before the call returns, and their report waits to be drained, as if the line of a cut
 * were fed. CALVIN_MISUSED as for calvin_call, and nothing has changed then. CALVIN_NO_MEMORY ends the session, as in calvin_feed: open
 * another one, on rows that were written before, and go on from there;
 * where calvin_call or calvin_test answers it, calvin_fault tells whether the session has ended. The session is live. */
static inline int calvin_cut(calvin *session) {
    calvin_c_session live = {session};
    return session == NULL ? CALVIN_MISUSED : calvin_c_cut(&live);
}

/* Moves report bytes that wait to the front of `into`, as many as there are or as fit into `room` bytes; `taken` gets how many.
 * That is 0 where none waits. What was reported before a fault can be drained after it. The session is live. */
static inline int calvin_drain(calvin *session, uint8_t *into, size_t room, size_t *taken) {
    calvin_c_session live = {session};
    if (taken == NULL) return CALVIN_MISUSED;
    *taken = 0;
    if (session == NULL || (into == NULL && room != 0)) return CALVIN_MISUSED;
    if (room != 0) *taken = calvin_c_drain(&live, into, room);
    return CALVIN_DONE;
}

/* The number of the fault that ended the session, as docs/faults.md has it (31 to 35, or 37), in `fault`, and the line of the
 * log that it names in `line`; 0 and 0 where there was none. The session is live. */
static inline int calvin_fault(calvin *session, int *fault, uint64_t *line) {
    calvin_c_session live = {session};
    if (fault != NULL) *fault = 0;
    if (line != NULL) *line = 0;
    if (session == NULL || fault == NULL || line == NULL) return CALVIN_MISUSED;
    *fault = calvin_c_fault(&live, line);
    return CALVIN_DONE;
}

/* From the next batch on, replies wait to be taken one by one. Before this is called none is kept. They take memory until they
 * are taken, and report bytes wait beside them. The session is live. */
static inline int calvin_keep_replies(calvin *session) {
    calvin_c_session live = {session};
    if (session == NULL) return CALVIN_MISUSED;
    calvin_c_keep_replies(&live);
    return CALVIN_DONE;
}

/* Takes the next reply in the order of the log, each once. CALVIN_NONE where none waits; `reply` has null bytes alone then. What
 * was kept before a fault or the end of the log can be taken after it. The session is live. */
static inline int calvin_next_reply(calvin *session, calvin_reply *reply) {
    calvin_c_session live = {session};
    if (reply == NULL) return CALVIN_MISUSED;
    memset(reply, 0, sizeof *reply);
    if (session == NULL) return CALVIN_MISUSED;
    return calvin_c_next_reply(&live, &reply->head, reply->values, CALVIN_MOST_REPLIED);
}

/* Gives the row that a table has under a key, as the batches that have ended left it. The name of the table has this length.
 * CALVIN_NONE where there is none, CALVIN_NO_TABLE where the setup has no such table, and after a fault CALVIN_REFUSED or
 * CALVIN_NO_MEMORY; `row` has null bytes alone then. The session is live. */
static inline int calvin_row(calvin *session, const uint8_t *table, size_t table_length, uint64_t key, calvin_record *row) {
    calvin_c_session live = {session};
    int32_t status;
    if (row == NULL) return CALVIN_MISUSED;
    memset(row, 0, sizeof *row);
    if (session == NULL || table == NULL) return CALVIN_MISUSED;
    status = calvin_c_row(&live, table, table_length, key, &row->length, row->values, CALVIN_MOST_COLUMNS);
    if (status == CALVIN_DONE) row->key = key;
    return status;
}

/* Gives the row of a table with the least key above `*after`, or the one with the least key at all where `after` is null; `after`
 * may be the key of `row` itself. So a loop from null on meets each row once, by ascending keys, as long as no batch is executed.
 * Else as calvin_row. The session is live. */
static inline int calvin_next_row(calvin *session, const uint8_t *table, size_t table_length, const uint64_t *after,
                                  calvin_record *row) {
    calvin_c_session live = {session};
    uint64_t least = after == NULL ? 0 : *after < UINT64_MAX ? *after + 1 : UINT64_MAX;
    if (row == NULL) return CALVIN_MISUSED;
    memset(row, 0, sizeof *row);
    if (session == NULL || table == NULL) return CALVIN_MISUSED;
    return calvin_c_next_row(&live, table, table_length, least, &row->key, &row->length, row->values, CALVIN_MOST_COLUMNS);
}

/* The value of a reply or of a row at a place, from 0 on: in `number` the number; in `text` and `length` a text, which lies in the
 * reply or the row itself. CALVIN_NONE where there is no value of that kind there. */
static inline int calvin_int_at(const calvin_value *values, size_t count, size_t place, int64_t *number) {
    if (number == NULL) return CALVIN_MISUSED;
    *number = 0;
    if (place >= count || values[place].kind != CALVIN_INT) return CALVIN_NONE;
    *number = values[place].number;
    return CALVIN_DONE;
}

static inline int calvin_text_at(const calvin_value *values, size_t count, size_t place, const uint8_t **text,
                                 size_t *length) {
    if (text != NULL) *text = NULL;
    if (length != NULL) *length = 0;
    if (text == NULL || length == NULL) return CALVIN_MISUSED;
    if (place >= count || values[place].kind != CALVIN_TEXT) return CALVIN_NONE;
    *text = values[place].text;
    *length = values[place].length;
    return CALVIN_DONE;
}

static inline int calvin_reply_int(const calvin_reply *reply, size_t place, int64_t *number) {
    return calvin_int_at(reply->values, reply->head.length, place, number);
}

static inline int calvin_reply_text(const calvin_reply *reply, size_t place, const uint8_t **text, size_t *length) {
    return calvin_text_at(reply->values, reply->head.length, place, text, length);
}

static inline int calvin_row_int(const calvin_record *row, size_t place, int64_t *number) {
    return calvin_int_at(row->values, row->length, place, number);
}

static inline int calvin_row_text(const calvin_record *row, size_t place, const uint8_t **text, size_t *length) {
    return calvin_text_at(row->values, row->length, place, text, length);
}

/* Makes the rows document of all rows, as the batches that have ended left them, in place of one that waits, and gives its length;
 * calvin_drain_rows takes it, in pieces of any size. After a fault it answers CALVIN_REFUSED or CALVIN_NO_MEMORY. But for 0 none
 * waits, and `length` gets 0. CALVIN_NO_MEMORY doesn't end the session. The session is live. */
static inline int calvin_rows_document(calvin *session, size_t *length) {
    calvin_c_session live = {session};
    if (length == NULL) return CALVIN_MISUSED;
    *length = 0;
    return session == NULL ? CALVIN_MISUSED : calvin_c_rows_document(&live, length);
}

/* Moves bytes of the rows document that waits to the front of `into`, as calvin_drain does those of the report. */
static inline int calvin_drain_rows(calvin *session, uint8_t *into, size_t room, size_t *taken) {
    calvin_c_session live = {session};
    if (taken == NULL) return CALVIN_MISUSED;
    *taken = 0;
    if (session == NULL || (into == NULL && room != 0)) return CALVIN_MISUSED;
    if (room != 0) *taken = calvin_c_drain_rows(&live, into, room);
    return CALVIN_DONE;
}

/* Gives how many calls the batches that have ended carry to the next one, where they are tried again: under retries 1 and 2 those that
 * went stale, without retries none. Where it is 0 a session that is opened over the rows of this one goes on as this one. After a
 * fault it answers CALVIN_REFUSED or CALVIN_NO_MEMORY, and `count` gets 0. The session is live. */
static inline int calvin_carried(calvin *session, size_t *count) {
    calvin_c_session live = {session};
    if (count == NULL) return CALVIN_MISUSED;
    *count = 0;
    return session == NULL ? CALVIN_MISUSED : calvin_c_carried(&live, count);
}

/* Gives the digest of all rows, as the batches that have ended left them: 64 digits, without a null byte at their end, as R of the
 * report has them. After a fault it answers CALVIN_REFUSED or CALVIN_NO_MEMORY, and the digits are null bytes, as where allocation
 * fails, which doesn't end the session. The session is live. */
static inline int calvin_digest(calvin *session, uint8_t digits[64]) {
    calvin_c_session live = {session};
    if (digits == NULL) return CALVIN_MISUSED;
    memset(digits, 0, 64);
    return session == NULL ? CALVIN_MISUSED : calvin_c_digest(&live, digits, 64);
}

/* Closes a session and frees all that it has. Null is left alone. The session is live, and is not any more. */
static inline void calvin_close(calvin *session) {
    calvin_c_session live = {session};
    if (session != NULL) calvin_c_close(live);
}

#ifdef __cplusplus
}
#endif

#endif
