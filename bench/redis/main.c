/* Runs a log by a server of Redis, each call as a script, and writes its reply lines: redis WORKLOAD SETUP < LOG.
   The calls of a batch are sent in a pipeline, and their replies are read when it ends. */
#include "procedures.h"
#include "reading.h"
#include "reply.h"
#include "server.h"

#include <stdio.h>
#include <stdlib.h>
#include <string.h>

enum { FIELDS = 10, LONGEST_KEY = 64, LONGEST_NUMBER = 24, SHA = 40, WINDOW = 4096, NO_ROW = 1 };
enum { MOST_WORDS = 3 + MOST_KEYS + MOST_VALUES + 2 * FIELDS };

static const char *const fields[FIELDS] = {"f0", "f1", "f2", "f3", "f4", "f5", "f6", "f7", "f8", "f9"};

enum { SENT_AT_ONCE = 64 };

/* The words of a command, and room for those that are made. */
struct command {
    int count;
    const char *words[MOST_WORDS];
    size_t lengths[MOST_WORDS];
    char keys[MOST_KEYS][LONGEST_KEY];
    char numbers[MOST_VALUES][LONGEST_NUMBER];
};

/* A workload on a server: the digest of each procedure's script, and how many replies are due. */
struct client {
    redisContext *redis;
    const struct workload *workload;
    char scripts[MOST_PROCEDURES][SHA + 1];
    size_t due;
};

static void add(struct command *command, const char *word, size_t length)
{
    command->words[command->count] = word;
    command->lengths[command->count++] = length;
}

static void add_values(struct command *command, const struct value *values, size_t count)
{
    for (size_t place = 0; place < count; place++) {
        const struct value *value = &values[place];
        char *room = command->numbers[place];
        if (value->is_text)
            add(command, value->text, value->length);
        else
            add(command, room, (size_t)snprintf(room, LONGEST_NUMBER, "%jd", (intmax_t)value->number));
    }
}

static void add_key(struct command *command, size_t place, const char *table, size_t length, int64_t key)
{
    char *room = command->keys[place];
    add(command, room, (size_t)snprintf(room, LONGEST_KEY, "%.*s:%jd", (int)length, table, (intmax_t)key));
}

/* Sends what waits to be sent, so that the server works while more is read. */
static void send_waiting(struct client *client)
{
    int is_done = 0;
    while (!is_done)
        if (redisBufferWrite(client->redis, &is_done) != REDIS_OK)
            fail(client->redis->errstr);
}

static void send_command(struct client *client, struct command *command)
{
    if (redisAppendCommandArgv(client->redis, command->count, command->words, command->lengths) != REDIS_OK)
        fail(client->redis->errstr);
    if (++client->due % SENT_AT_ONCE == 0)
        send_waiting(client);
}

/* The next reply of the server, which the caller gives back. */
static redisReply *received(struct client *client)
{
    void *reply;
    if (redisGetReply(client->redis, &reply) != REDIS_OK)
        fail(client->redis->errstr);
    redisReply *typed = reply;
    if (typed->type == REDIS_REPLY_ERROR)
        fail(typed->str);
    return typed;
}

static void drop_replies(struct client *client)
{
    for (; client->due > 0; client->due--)
        freeReplyObject(received(client));
}

/* Writes the reply line of a number, which is an abort's code, or of values. */
static void write_reply(const redisReply *reply)
{
    if (reply->type == REDIS_REPLY_INTEGER) {
        reply_abort((int)reply->integer);
        return;
    }
    reply_begin();
    for (size_t place = 0; place < reply->elements; place++) {
        const redisReply *element = reply->element[place];
        if (element->type == REDIS_REPLY_NIL) {
            reply_abort(NO_ROW);
            return;
        }
        if (element->type == REDIS_REPLY_INTEGER)
            reply_number(element->integer);
        else
            reply_text(element->str, element->len);
    }
    reply_commit();
}

static void write_replies(struct client *client)
{
    for (; client->due > 0; client->due--) {
        redisReply *reply = received(client);
        write_reply(reply);
        freeReplyObject(reply);
    }
    fflush(stdout);
}

static void load(void *context, const struct row *row)
{
    struct client *client = context;
    struct command command = {0};
    if (row->count > FIELDS)
        fail("a row has more columns than are known here");
    add(&command, row->count == 1 ? "SET" : "HSET", row->count == 1 ? 3 : 4);
    add_key(&command, 0, row->table.text, row->table.length, row->key);
    if (row->count == 1) {
        add_values(&command, row->values, 1);
    } else {
        for (size_t place = 0; place < row->count; place++) {
            add(&command, fields[place], 2);
            add(&command, row->values[place].text, row->values[place].length);
        }
    }
    send_command(client, &command);
    if (client->due == WINDOW)
        drop_replies(client);
}

static void load_scripts(struct client *client)
{
    const struct procedure *procedures = client->workload->procedures;
    for (size_t place = 0; place < MOST_PROCEDURES && procedures[place].name; place++) {
        if (!procedures[place].script)
            continue;
        redisReply *reply = redisCommand(client->redis, "SCRIPT LOAD %s", procedures[place].script);
        if (!reply || reply->type != REDIS_REPLY_STRING || reply->len != SHA)
            fail(reply && reply->type == REDIS_REPLY_ERROR ? reply->str : "a script can't be loaded");
        memcpy(client->scripts[place], reply->str, SHA + 1);
        freeReplyObject(reply);
    }
}

/* The place of the procedure with a name, or with the name before `_` and the digit that a name ends with. */
static size_t place_of(const struct client *client, const struct value *name, bool *has_digit)
{
    struct value stem = *name;
    *has_digit = name->length > 2 && name->text[name->length - 2] == '_';
    if (*has_digit)
        stem.length -= 2;
    const struct procedure *procedures = client->workload->procedures;
    for (size_t place = 0; place < MOST_PROCEDURES && procedures[place].name; place++)
        if (is_named(&stem, procedures[place].name))
            return place;
    fail("there is no such procedure");
}

static size_t add_keys(struct command *command, const struct procedure *procedure, const struct call *call)
{
    size_t place = 0;
    for (; place < MOST_KEYS && procedure->keys[place].table; place++) {
        const struct key *key = &procedure->keys[place];
        add_key(command, place, key->table, strlen(key->table), call->values[key->place].number);
    }
    return place;
}

/* Sends a call that replies with all fields of a hash. */
static void send_read(struct client *client, const struct procedure *procedure, const struct call *call)
{
    struct command command = {0};
    add(&command, "HMGET", 5);
    add_keys(&command, procedure, call);
    for (size_t place = 0; place < FIELDS; place++)
        add(&command, fields[place], 2);
    send_command(client, &command);
}

static void send_call(struct client *client, const struct call *call)
{
    struct command command = {0};
    bool has_digit;
    size_t place = place_of(client, &call->name, &has_digit);
    const struct procedure *procedure = &client->workload->procedures[place];
    char count;
    if (!procedure->script) {
        send_read(client, procedure, call);
        return;
    }
    add(&command, "EVALSHA", 7);
    add(&command, client->scripts[place], SHA);
    add(&command, &count, 1);
    count = (char)('0' + add_keys(&command, procedure, call));
    add_values(&command, call->values, call->count);
    if (has_digit)
        add(&command, call->name.text + call->name.length - 1, 1);
    send_command(client, &command);
}

static void load_setup(struct client *client, const char *path)
{
    struct setup setup;
    setup_open(&setup, path);
    load_scripts(client);
    setup_each_row(&setup, load, client);
    drop_replies(client);
    setup_close(&setup);
}

int main(int count, char **words)
{
    if (count != 3)
        fail("usage: redis WORKLOAD SETUP < LOG");
    struct server server;
    struct client client = {.workload = workload_named(words[1])};
    server_start(&server);
    client.redis = server.redis;
    load_setup(&client, words[2]);
    char *line = NULL;
    size_t room = 0;
    while (getline(&line, &room, stdin) > 0) {
        struct call call;
        if (log_line(line, &call) == LINE_CUT)
            write_replies(&client);
        else
            send_call(&client, &call);
    }
    write_replies(&client);
    free(line);
    server_stop(&server);
    return EXIT_SUCCESS;
}
