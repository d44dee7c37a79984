/* Crawlers for bench/fleet: each takes the next site of a table, and asks a proxy for its pages, one after the other,
   on a connection that it keeps.

   usage: crawlers PORT SITE_PORT CRAWLERS SITES PAGES SECONDS

   Site n has the address 127.x.y.z of its number. Of each tenth site a page below /private/ is asked for, too. It ends
   after the last site, or after SECONDS, and writes: sites, pages of status 200, answers 403, 503 and others,
   connections that ended without an answer, seconds, and half and 99 of a hundred of the waits for pages in
   microseconds. */
#define _GNU_SOURCE
#include <arpa/inet.h>
#include <math.h>
#include <pthread.h>
#include <stdatomic.h>
#include <stdio.h>
#include <stdlib.h>
#include <string.h>
#include <strings.h>
#include <sys/socket.h>
#include <netinet/tcp.h>
#include <time.h>
#include <unistd.h>

/* buckets of waits, each 5% longer than the one before */
enum { ROOM = 65536, BUCKETS = 400 };

/* of the token foobot */
static const char credentials[] = "Proxy-Authorization: Basic Zm9vYm90Ong=";
static int proxy_port, site_port, pages;
static long sites, seconds;
static atomic_long next_site, done_sites, taken, denied, busy, others, broken;
static atomic_long waits[BUCKETS];
static double began;

static double now(void)
{
    struct timespec it;
    clock_gettime(CLOCK_MONOTONIC, &it);
    return it.tv_sec + it.tv_nsec / 1e9;
}

static int goes_on(void)
{
    return now() - began < seconds;
}

static void note_wait(double wait)
{
    int at = wait > 1e-6 ? log(wait * 1e6) / log(1.05) : 0;
    waits[at < BUCKETS ? at : BUCKETS - 1]++;
}

/* Returns the microseconds that a part of all waits are not above. */
static double wait_at(double part)
{
    long left = part * taken;
    int at = 0;
    while (at < BUCKETS - 1 && left >= waits[at])
        left -= waits[at++];
    return pow(1.05, at + 1);
}

static int connected(void)
{
    struct sockaddr_in address = {.sin_family = AF_INET, .sin_port = htons(proxy_port)};
    int one = 1, peer = socket(AF_INET, SOCK_STREAM, 0);
    address.sin_addr.s_addr = htonl(INADDR_LOOPBACK);
    if (peer < 0 || connect(peer, (void *)&address, sizeof address)) {
        perror("connect");
        exit(1);
    }
    setsockopt(peer, IPPROTO_TCP, TCP_NODELAY, &one, sizeof one);
    return peer;
}

/* Reads octets after those that are there, and returns how many came, or 0 where none do. */
static size_t read_more(int peer, char *room, size_t count)
{
    ssize_t got = count < ROOM ? recv(peer, room + count, ROOM - count, 0) : 0;
    return got > 0 ? got : 0;
}

/* Reads an answer whole, and returns its status, or 0 where the connection ends before. */
static int status_of_answer(int peer, char *room)
{
    size_t count = 0, got;
    char *end = 0;
    while (!end) {
        if (!(got = read_more(peer, room, count)))
            return 0;
        count += got;
        room[count] = 0;
        end = strstr(room, "\r\n\r\n");
    }
    char *field = strcasestr(room, "\r\ncontent-length:");
    size_t behind = count - (end + 4 - room), length = field && field < end ? strtoul(field + 17, 0, 10) : 0;
    while (behind < length) {
        if (!(got = read_more(peer, room + 4096, 0)))
            return 0;
        behind += got;
    }
    return atoi(room + 9);
}

/* Asks for a page of a site, and counts its answer. Returns the connection for the next one. */
static int ask(int peer, long site, const char *path, int number, char *room)
{
    char host[64], request[512];
    sprintf(host, "127.%ld.%ld.%ld:%d", 1 + site / 62500, site / 250 % 250, site % 250 + 1, site_port);
    int length = sprintf(request, "GET http://%s/%s/%d HTTP/1.1\r\nHost: %s\r\n%s\r\n\r\n",
                         host, path, number, host, credentials);
    double at = now();
    int status = send(peer, request, length, MSG_NOSIGNAL) == length ? status_of_answer(peer, room) : 0;
    if (status == 200) {
        note_wait(now() - at);
        taken++;
    } else if (status == 403) {
        denied++;
    } else if (status == 503) {
        busy++;
    } else if (status) {
        others++;
    } else {
        broken++;
        close(peer);
        return connected();
    }
    return peer;
}

static void *crawl(void *none)
{
    char *room = malloc(ROOM + 4097);
    int peer = connected();
    for (long site; room && (site = next_site++) < sites && goes_on(); done_sites++) {
        for (int page = 0; page < pages && goes_on(); page++)
            peer = ask(peer, site, "page", page, room);
        if (site % 10 == 0)
            peer = ask(peer, site, "private", 0, room);
    }
    close(peer);
    return none;
}

int main(int count, char **words)
{
    if (count != 7)
        return 2;
    proxy_port = atoi(words[1]);
    site_port = atoi(words[2]);
    int crawlers = atoi(words[3]);
    sites = atol(words[4]);
    pages = atoi(words[5]);
    seconds = atol(words[6]);
    pthread_t threads[crawlers];
    began = now();
    for (int at = 0; at < crawlers; at++)
        if (pthread_create(&threads[at], 0, crawl, 0))
            return 1;
    for (int at = 0; at < crawlers; at++)
        pthread_join(threads[at], 0);
    printf("%ld %ld %ld %ld %ld %ld %.3f %.0f %.0f\n", done_sites, taken, denied, busy, others, broken, now() - began,
           wait_at(0.5), wait_at(0.99));
}
