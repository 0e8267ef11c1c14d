/* A server of Redis of one's own, in a temporary folder: on a Unix socket alone, and without files of data. */
#ifndef SERVER_H
#define SERVER_H

#include <hiredis/hiredis.h>
#include <sys/types.h>

struct server {
    char folder[32];
    pid_t process;
    redisContext *redis;
};

/* Starts a server and connects to it. */
void server_start(struct server *server);

/* Ends the server, waits for it, so that its time counts as this process's, and takes its folder away. */
void server_stop(struct server *server);

#endif
