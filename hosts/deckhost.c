/*
 * deckhost: a small daemon that exports simulated USB devices through the engine. Each client has a session, accepted
 * submits go to the devices, replies go back. One process, one thread, one loop. README.md says how to use it.
 */
#include "connection.h"
#include "log.h"
#include "support.h"

#include <arpa/inet.h>
#include <errno.h>
#include <fcntl.h>
#include <netinet/in.h>
#include <netinet/tcp.h>
#include <poll.h>
#include <signal.h>
#include <stdio.h>
#include <stdlib.h>
#include <string.h>
#include <sys/socket.h>
#include <unistd.h>

#define CONNECTIONS 16
#define BACKLOG 8

/* Places of the poll list: the pipe of signals, the listening socket, the connections. */
#define WAKE 0
#define LISTENER 1
#define FIRST 2

struct host {
    struct options options;
    struct exports exports;
    int listener;
    struct connection *connections[CONNECTIONS];
    unsigned accepted;
};

/* A signal ends the loop through a pipe, so that none is missed just before a poll. */
static int wake[2];

static void on_signal(int number)
{
    const int saved = errno;
    const ssize_t written = write(wake[1], "", 1);

    (void)number;
    (void)written;
    errno = saved;
}

static bool catch_signals(void)
{
    const struct sigaction action = {.sa_handler = on_signal};

    return pipe(wake) == 0 && sigaction(SIGINT, &action, NULL) == 0 && sigaction(SIGTERM, &action, NULL) == 0;
}

/* On the loopback interface only: USB/IP has no authentication. */
static bool listen_on(struct host *host)
{
    const int on = 1;
    struct sockaddr_in address = {.sin_family = AF_INET, .sin_port = htons(host->options.port)};

    address.sin_addr.s_addr = htonl(INADDR_LOOPBACK);
    host->listener = socket(AF_INET, SOCK_STREAM, 0);
    return host->listener >= 0 && setsockopt(host->listener, SOL_SOCKET, SO_REUSEADDR, &on, sizeof on) == 0
           && bind(host->listener, (struct sockaddr *)&address, sizeof address) == 0
           && listen(host->listener, BACKLOG) == 0;
}

/* The port may be one that the system chose. */
static bool say_port(const struct host *host)
{
    const struct options *o = &host->options;
    struct sockaddr_in address;
    socklen_t length = sizeof address;
    const bool known = getsockname(host->listener, (struct sockaddr *)&address, &length) == 0;

    if (known)
        log_line(0, "listening on 127.0.0.1:%u, devices %s, seed %lu%s%s%s", (unsigned)ntohs(address.sin_port),
                 o->devices, (unsigned long)o->seed, o->cuts ? ", cuts" : "", o->late ? ", late" : "",
                 o->hasty ? ", hasty" : "");
    return known;
}

static struct connection **free_place(struct host *host)
{
    struct connection **const end = host->connections + CONNECTIONS;
    struct connection **place = host->connections;

    while (place < end && *place)
        place++;
    return place < end ? place : NULL;
}

static void accept_client(struct host *host)
{
    const int on = 1;
    const int client = accept(host->listener, NULL, NULL);
    struct connection **place = free_place(host);

    if (client >= 0 && place && fcntl(client, F_SETFL, O_NONBLOCK) == 0) {
        setsockopt(client, IPPROTO_TCP, TCP_NODELAY, &on, sizeof on);
        host->accepted++;
        log_line(host->accepted, "connected");
        *place = connection_open(client, host->accepted, &host->options, &host->exports);
    } else if (client >= 0) {
        log_line(0, "a connection too many, hung up");
        close(client);
    }
}

/* Milliseconds for poll, rounded up; -1 is without end. */
static int wait_until(int64_t due)
{
    const int64_t rest = due - now_us();

    return due == INT64_MAX ? -1 : rest <= 0 ? 0 : (int)((rest + 999) / 1000);
}

/* Fills the poll list, and answers how long to wait. */
static int prepare(const struct host *host, struct pollfd *list)
{
    int64_t due = INT64_MAX;

    list[WAKE] = (struct pollfd){.fd = wake[0], .events = POLLIN};
    list[LISTENER] = (struct pollfd){.fd = host->listener, .events = POLLIN};
    for (size_t i = 0; i < CONNECTIONS; i++) {
        const struct connection *c = host->connections[i];
        const int64_t own = c ? connection_due(c) : INT64_MAX;

        list[FIRST + i] = (struct pollfd){.fd = c ? connection_socket(c) : -1, .events = c ? connection_events(c) : 0};
        due = own < due ? own : due;
    }
    return wait_until(due);
}

static void serve(struct host *host, const struct pollfd *list)
{
    for (size_t i = 0; i < CONNECTIONS; i++) {
        struct connection *c = host->connections[i];

        if (c && !connection_serve(c, list[FIRST + i].revents)) {
            connection_close(c);
            host->connections[i] = NULL;
        }
    }
}

/* Until a signal comes. */
static void run(struct host *host)
{
    struct pollfd list[FIRST + CONNECTIONS];
    bool running = true;

    while (running) {
        const int timeout = prepare(host, list);

        if (poll(list, FIRST + CONNECTIONS, timeout) >= 0) {
            serve(host, list);
            if (list[LISTENER].revents)
                accept_client(host);
            running = !list[WAKE].revents;
        } else {
            running = errno == EINTR;
        }
    }
}

static void stop(struct host *host)
{
    for (size_t i = 0; i < CONNECTIONS; i++)
        if (host->connections[i])
            connection_close(host->connections[i]);
    close(host->listener);
    log_line(0, "stopped");
    log_close();
}

/* Null, or why the host can't run. */
static const char *start(struct host *host)
{
    const char *fault = NULL;

    if (rimemaple_version() != RIMEMAPLE_VERSION)
        fault = "rimemaple.h and librimemaple.a don't belong together";
    else if (!exports_make(&host->exports, host->options.devices))
        fault = "--devices names a model that isn't there, or too many";
    else if (!log_open(host->options.log) || !catch_signals() || !listen_on(host) || !say_port(host))
        fault = strerror(errno);
    return fault;
}

int main(int argc, char **argv)
{
    static struct host host;
    const bool readable = options_read(&host.options, argc, argv);
    const char *fault = readable ? start(&host) : NULL;

    if (fault)
        fprintf(stderr, "deckhost: %s\n", fault);
    if (readable && !fault) {
        chance_seed(host.options.seed);
        run(&host);
        stop(&host);
    }
    return readable && !fault ? EXIT_SUCCESS : EXIT_FAILURE;
}
