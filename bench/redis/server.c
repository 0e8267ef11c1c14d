#include "server.h"

#include "reading.h"

#include <fcntl.h>
#include <signal.h>
#include <stdio.h>
#include <stdlib.h>
#include <sys/prctl.h>
#include <sys/wait.h>
#include <time.h>
#include <unistd.h>

enum { TRIES = 500, PAUSE_NANOSECONDS = 10000000 };

static void become_server(const char *folder, const char *path)
{
    int nothing = open("/dev/null", O_RDWR);
    prctl(PR_SET_PDEATHSIG, SIGTERM); /* it doesn't outlive its client */
    dup2(nothing, STDIN_FILENO);
    dup2(nothing, STDOUT_FILENO);
    execlp("redis-server", "redis-server", "--port", "0", "--unixsocket", path, "--dir", folder, "--save", "",
           "--appendonly", "no", "--daemonize", "no", (char *)NULL);
    _exit(127);
}

void server_start(struct server *server)
{
    char path[48];
    snprintf(server->folder, sizeof server->folder, "/tmp/redis-XXXXXX");
    if (!mkdtemp(server->folder))
        fail("there is no room for the server's socket");
    snprintf(path, sizeof path, "%s/socket", server->folder);
    server->process = fork();
    if (server->process < 0)
        fail("the server can't be started");
    if (server->process == 0)
        become_server(server->folder, path);
    for (int tries = 0; tries < TRIES; tries++) {
        server->redis = redisConnectUnix(path);
        if (server->redis && !server->redis->err)
            return;
        redisFree(server->redis);
        nanosleep(&(struct timespec){.tv_nsec = PAUSE_NANOSECONDS}, NULL);
    }
    fail("the server doesn't answer");
}

void server_stop(struct server *server)
{
    char path[48];
    freeReplyObject(redisCommand(server->redis, "SHUTDOWN NOSAVE"));
    redisFree(server->redis);
    waitpid(server->process, NULL, 0);
    snprintf(path, sizeof path, "%s/socket", server->folder);
    unlink(path);
    rmdir(server->folder);
}
