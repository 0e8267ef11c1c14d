/* Runs a log by the library for C, and prints its replies and then its rows, by single calls:
 *
 *     session_rows SETUP TABLES < LOG      TABLES are the names of the setup's tables, in its order, with a comma between
 *
 * Each reply is printed as its line in the report, and each row as its line in the row text, after an empty line. Then come the
 * digest of the rows, and the rows document. It ends with status 1, and a line that says what, if two calls don't agree with each
 * other: also, if a session that is opened on the rows document has other rows. */
#include "calvin.h"

#include <inttypes.h>
#include <stdio.h>
#include <stdlib.h>
#include <string.h>

static void require(int holds, const char *what) {
    if (holds) return;
    fprintf(stderr, "%s\n", what);
    exit(1);
}

static uint8_t *contents(FILE *file, size_t *length) {
    uint8_t *bytes = malloc(1 << 22);
    require(file != NULL && bytes != NULL, "a file can't be read");
    *length = fread(bytes, 1, 1 << 22, file);
    return bytes;
}

/* The values at the places of a reply or of a row, each after a space. Exactly one of the two accessors has it. */
static void print_values(const calvin_value *values, size_t count) {
    size_t place, length, at;
    int64_t number;
    const uint8_t *text;
    for (place = 0; place < count; place++) {
        int is_int = calvin_int_at(values, count, place, &number) == CALVIN_DONE;
        int is_text = calvin_text_at(values, count, place, &text, &length) == CALVIN_DONE;
        require(is_int != is_text, "a value has two kinds or none");
        if (is_int) printf(" %" PRId64, number);
        if (is_text) printf(" x");
        for (at = 0; is_text && at < length; at++) printf("%02x", text[at]);
    }
    require(calvin_int_at(values, count, count, &number) == CALVIN_NONE && number == 0, "there is a value past the last");
    require(calvin_text_at(values, count, count, &text, &length) == CALVIN_NONE && text == NULL, "there is a text past the last");
}

static void print_reply(const calvin_reply *reply) {
    static const char *const kinds[] = {"commit", "abort", "stale"};
    const calvin_reply_head *head = &reply->head;
    require(head->kind <= CALVIN_STALE && head->length <= CALVIN_MOST_REPLIED, "a reply of no kind");
    printf("%" PRIu64, head->number);
    if (head->first != head->number) printf(" of %" PRIu64, head->first);
    printf(" %s", kinds[head->kind]);
    if (head->kind == CALVIN_ABORT) printf(" %" PRIu32, head->code);
    print_values(reply->values, head->length);
    printf("\n");
}

/* Prints the rows of a table by ascending keys. Each is the one that its key gives. */
static void print_rows(calvin *session, const char *table) {
    static calvin_record row, again;
    const uint8_t *name = (const uint8_t *)table;
    size_t length = strlen(table);
    const uint64_t *after = NULL;
    uint64_t last = 0;
    int status;
    while ((status = calvin_next_row(session, name, length, after, &row)) == CALVIN_DONE) {
        require(after == NULL || row.key > last, "keys don't ascend");
        require(calvin_row(session, name, length, row.key, &again) == CALVIN_DONE, "a row isn't there by its key");
        require(memcmp(&row, &again, sizeof row) == 0, "a row is another one by its key");
        printf("%s %" PRIu64, table, row.key);
        print_values(row.values, row.length);
        printf("\n");
        last = row.key;
        after = &last;
    }
    require(status == CALVIN_NONE && row.length == 0, "the rows of a table don't end");
    require(calvin_row(session, name, length, UINT64_MAX, &row) == CALVIN_NONE, "there is a row with no key");
    last = UINT64_MAX;
    require(calvin_next_row(session, name, length, &last, &row) == CALVIN_NONE, "there is a row after all keys");
}

/* The rows document, taken in pieces of 5 bytes. */
static uint8_t *document_of(calvin *session, size_t *length) {
    size_t taken, at = 0;
    uint8_t *bytes;
    require(calvin_rows_document(session, length) == CALVIN_DONE, "there is no rows document");
    bytes = malloc(*length + 5);
    require(bytes != NULL, "there is no room for the rows document");
    while (calvin_drain_rows(session, bytes + at, 5, &taken) == CALVIN_DONE && taken != 0) at += taken;
    require(at == *length, "the rows document has another length");
    return bytes;
}

/* What null pointers and names of no table lead to. */
static void require_misuse(calvin *session) {
    static calvin_record row;
    static calvin_reply reply;
    uint8_t digits[64];
    size_t length = 7;
    const uint8_t *name = (const uint8_t *)"\xff";
    row.length = reply.head.length = 7;
    require(calvin_keep_replies(NULL) == CALVIN_MISUSED, "no session keeps replies");
    require(calvin_next_reply(NULL, &reply) == CALVIN_MISUSED && reply.head.length == 0, "no session replies");
    require(calvin_next_reply(session, NULL) == CALVIN_MISUSED, "there is a reply for nobody");
    require(calvin_row(NULL, name, 1, 1, &row) == CALVIN_MISUSED && row.length == 0, "no session has a row");
    require(calvin_row(session, NULL, 1, 1, &row) == CALVIN_MISUSED, "no table has a row");
    require(calvin_row(session, name, 1, 1, &row) == CALVIN_NO_TABLE, "a table has no text for a name");
    require(calvin_row(session, name, 0, 1, &row) == CALVIN_NO_TABLE, "a table has no name");
    require(calvin_next_row(session, name, 1, NULL, &row) == CALVIN_NO_TABLE, "a table has no text for a name");
    require(calvin_rows_document(NULL, &length) == CALVIN_MISUSED && length == 0, "no session has rows");
    length = 7;
    require(calvin_drain_rows(NULL, digits, 64, &length) == CALVIN_MISUSED && length == 0, "no session has a document");
    require(calvin_drain_rows(session, digits, 64, &length) == CALVIN_DONE && length == 0, "a document waits unasked");
    require(calvin_carried(NULL, &length) == CALVIN_MISUSED && length == 0, "no session carries a call");
    require(calvin_carried(session, NULL) == CALVIN_MISUSED, "nobody is told what is carried");
    require(calvin_digest(NULL, digits) == CALVIN_MISUSED && digits[0] == 0, "no session has a digest");
}

/* Prints what a session has: rows, digest and rows document. */
static uint8_t *print_all_rows(calvin *session, const char *tables, size_t *length) {
    char name[64];
    uint8_t digits[64], *document;
    while (*tables != '\0') {
        size_t count = strcspn(tables, ",");
        require(count < sizeof name, "the name of a table is long");
        memcpy(name, tables, count);
        name[count] = '\0';
        print_rows(session, name);
        tables += count + (tables[count] == ',');
    }
    require(calvin_digest(session, digits) == CALVIN_DONE, "there is no digest");
    printf("\n%.64s\n", (const char *)digits);
    document = document_of(session, length);
    fwrite(document, 1, *length, stdout);
    return document;
}

int main(int count, char **words) {
    static calvin_reply reply;
    uint8_t *setup, *log, *document, *again, digits[2][64];
    size_t setup_length, log_length, length, length_again, written;
    calvin *session, *other;
    if (count != 3) return 2;
    setup = contents(fopen(words[1], "rb"), &setup_length);
    log = contents(stdin, &log_length);
    require(calvin_open(setup, setup_length, CALVIN_COARSEN, CALVIN_ARENA, &session, NULL, 0, &written) == CALVIN_DONE,
            "the setup is refused");
    require(calvin_next_reply(session, &reply) == CALVIN_NONE, "a reply waits before the log");
    require_misuse(session);
    require(calvin_keep_replies(session) == CALVIN_DONE, "replies are not kept");
    require(calvin_feed(session, log, log_length) == CALVIN_DONE, "the log is refused");
    require(calvin_end(session) == CALVIN_DONE, "the log doesn't end");
    while (calvin_next_reply(session, &reply) == CALVIN_DONE) print_reply(&reply);
    require(calvin_next_reply(session, &reply) == CALVIN_NONE && reply.head.number == 0, "a reply comes twice");
    printf("\n");
    document = print_all_rows(session, words[2], &length);
    require(calvin_carried(session, &written) == CALVIN_DONE && written == 0, "a call is carried past the end of the log");

    require(calvin_open_rows(setup, setup_length, document, length, CALVIN_COARSEN, CALVIN_ARENA, &other, NULL, 0, &written) ==
                CALVIN_DONE, "the rows document is refused");
    again = document_of(other, &length_again);
    require(length == length_again && memcmp(document, again, length) == 0, "the rows are others once they are read");
    require(calvin_digest(session, digits[0]) == CALVIN_DONE && calvin_digest(other, digits[1]) == CALVIN_DONE &&
                memcmp(digits[0], digits[1], 64) == 0, "the digest is another one once the rows are read");
    calvin_close(other);
    require(calvin_open_rows(setup, setup_length, setup, setup_length, CALVIN_COARSEN, CALVIN_ARENA, &other, NULL, 0, &written) ==
                CALVIN_REFUSED && other == NULL && written == 0, "a setup is taken for rows");
    calvin_close(session);
    free(setup), free(log), free(document), free(again);
    return 0;
}
