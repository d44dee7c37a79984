/* A load of requests to a line server, for bench/serve and bench/journal.

   usage: load crawlgate PORT CONNECTIONS LANES LOOPS URL
          load redis PORT CONNECTIONS LANES LOOPS -

   Each connection has a thread, and that many lanes; each lane has one request in flight. A lane makes loops: of crawlgate ASK,
   START and DONE; of redis SET with NX, and DEL. All connections together make LOOPS of them. What is written is a line:
   requests, seconds, and the nanoseconds in which half of the replies came, and 99 of a hundred. A reply that is not the
   expected one ends the load with status 1. */
#define _GNU_SOURCE
#include <arpa/inet.h>
#include <netinet/tcp.h>
#include <pthread.h>
#include <stdio.h>
#include <stdlib.h>
#include <string.h>
#include <sys/socket.h>
#include <time.h>
#include <unistd.h>

enum { MOST_LANES = 1024, LINE = 512, REPLIES = 65536 };

struct lane {
    int step;
    char number[24];
    long begun;
};

/* Writes the request of a lane's step, and returns its length; its reply begins with one of these words. */
typedef int request_of(char *line, int connection, int at, const struct lane *lane);

struct protocol {
    int steps;
    const char *replies[3];
    request_of *request;
};

struct connection {
    int at, peer;
    long loops;
    long *waits, count;
    struct lane lanes[MOST_LANES];
    /* the lanes in the order of their requests that are in flight */
    int flight[MOST_LANES], first, flying;
    char unsent[MOST_LANES * LINE];
    long length;
};

static const struct protocol *protocol;
static int port, lanes;
static const char *url;
static pthread_barrier_t ready;

static void stop(const char *what)
{
    fprintf(stderr, "load: %s\n", what);
    exit(1);
}

static int gate_request(char *line, int connection, int at, const struct lane *lane)
{
    (void)connection, (void)at;
    switch (lane->step) {
    case 0:
        return snprintf(line, LINE, "ASK foobot %s\n", url);
    case 1:
        return snprintf(line, LINE, "START %s foobot %s\n", lane->number, url);
    default:
        return snprintf(line, LINE, "DONE %s\n", lane->number);
    }
}

static int redis_request(char *line, int connection, int at, const struct lane *lane)
{
    char key[24];
    int length = snprintf(key, sizeof key, "permit:%d:%d", connection, at);
    if (lane->step == 0)
        return snprintf(line, LINE, "*4\r\n$3\r\nSET\r\n$%d\r\n%s\r\n$1\r\n1\r\n$2\r\nNX\r\n", length, key);
    return snprintf(line, LINE, "*2\r\n$3\r\nDEL\r\n$%d\r\n%s\r\n", length, key);
}

static const struct protocol gate = {3, {"PERMIT ", "GO ", "DONE "}, gate_request};
static const struct protocol redis = {2, {"+OK", ":1"}, redis_request};

static long now(void)
{
    struct timespec it;
    clock_gettime(CLOCK_MONOTONIC, &it);
    return it.tv_sec * 1000000000L + it.tv_nsec;
}

/* The lane's next request stands after those that are unsent. */
static void request(struct connection *it, int at)
{
    it->length += protocol->request(it->unsent + it->length, it->at, at, &it->lanes[at]);
    it->flight[(it->first + it->flying++) % lanes] = at;
}

static void send_all(struct connection *it)
{
    long sent = 0, moment = now();
    /* (a request waits from here on, and not while others were made) */
    for (int at = 0; at < it->flying; at++) {
        struct lane *lane = &it->lanes[it->flight[(it->first + at) % lanes]];
        if (!lane->begun)
            lane->begun = moment;
    }
    while (sent < it->length) {
        long more = write(it->peer, it->unsent + sent, (size_t)(it->length - sent));
        if (more <= 0)
            stop("the connection takes nothing more");
        sent += more;
    }
    it->length = 0;
}

/* Takes the reply of the request that was the first in flight, at a moment. */
static void take(struct connection *it, const char *line, long moment)
{
    int at = it->flight[it->first];
    struct lane *lane = &it->lanes[at];
    const char *wanted = protocol->replies[lane->step];
    if (strncmp(line, wanted, strlen(wanted)) != 0)
        stop(line);
    if (protocol == &gate && lane->step == 0)
        snprintf(lane->number, sizeof lane->number, "%s", line + strlen(wanted));
    it->first = (it->first + 1) % lanes;
    it->flying--;
    it->waits[it->count++] = moment - lane->begun;
    lane->begun = 0;
    lane->step = (lane->step + 1) % protocol->steps;
    if (lane->step || it->loops-- > 0)
        request(it, at);
}

static void connect_to_server(struct connection *it)
{
    struct sockaddr_in address = {.sin_family = AF_INET, .sin_port = htons((unsigned short)port)};
    int yes = 1;
    address.sin_addr.s_addr = htonl(INADDR_LOOPBACK);
    it->peer = socket(AF_INET, SOCK_STREAM, 0);
    setsockopt(it->peer, IPPROTO_TCP, TCP_NODELAY, &yes, sizeof yes);
    if (connect(it->peer, (struct sockaddr *)&address, sizeof address) != 0)
        stop("no connection");
}

static void *play(void *given)
{
    struct connection *it = given;
    char replies[REPLIES + 1];
    long length = 0;
    connect_to_server(it);
    pthread_barrier_wait(&ready);
    for (int at = 0; at < lanes && it->loops-- > 0; at++)
        request(it, at);
    while (it->flying) {
        if (it->length)
            send_all(it);
        long more = read(it->peer, replies + length, (size_t)(REPLIES - length)), moment = now();
        if (more <= 0)
            stop("the connection ended");
        length += more;
        char *line = replies, *end;
        while ((end = memchr(line, '\n', (size_t)(replies + length - line)))) {
            *end = 0;
            take(it, line, moment);
            line = end + 1;
        }
        length -= line - replies;
        memmove(replies, line, (size_t)length);
    }
    close(it->peer);
    return NULL;
}

static int compare(const void *one, const void *other)
{
    long a = *(const long *)one, b = *(const long *)other;
    return (a > b) - (a < b);
}

int main(int count, char **given)
{
    if (count != 7)
        stop("usage: load crawlgate|redis PORT CONNECTIONS LANES LOOPS URL");
    protocol = strcmp(given[1], "redis") == 0 ? &redis : &gate;
    port = atoi(given[2]);
    int connections = atoi(given[3]);
    lanes = atoi(given[4]);
    long loops = atol(given[5]) / connections, all = 0;
    url = given[6];
    if (connections < 1 || lanes < 1 || lanes > MOST_LANES || strlen(url) > LINE / 2)
        stop("no such load");
    pthread_barrier_init(&ready, NULL, (unsigned)connections + 1);
    pthread_t *threads = calloc((size_t)connections, sizeof *threads);
    struct connection *them = calloc((size_t)connections, sizeof *them);
    long *waits = calloc((size_t)(loops * connections * protocol->steps), sizeof *waits);
    if (!threads || !them || !waits)
        stop("no memory");
    for (int at = 0; at < connections; at++) {
        them[at].at = at;
        them[at].loops = loops;
        them[at].waits = waits + at * loops * protocol->steps;
        if (pthread_create(&threads[at], NULL, play, &them[at]) != 0)
            stop("no thread");
    }
    pthread_barrier_wait(&ready);
    long began = now();
    for (int at = 0; at < connections; at++) {
        pthread_join(threads[at], NULL);
        all += them[at].count;
    }
    double seconds = (double)(now() - began) / 1e9;
    qsort(waits, (size_t)all, sizeof *waits, compare);
    printf("%ld %f %ld %ld\n", all, seconds, waits[all / 2], waits[all * 99 / 100]);
    return 0;
}
