/* A site on the loopback for bench/shift, which costs the machine as little as can be; or very many sites, for
   bench/fleet.

   usage: site THREADS OCTETS [RULES]

   It writes the port at which it listens. Each thread takes one connection after the other, reads a request up to its
   empty line, and answers it, 404 for /robots.txt and a page of that many octets for each other target. It closes the
   connection behind a request with `Connection: close`, and else reads the next request.

   With RULES each address that begins with 127 is a site, whose robots.txt has that many rules, the first of which denies
   /private/, and names the address. At the end of its input it writes how many robots.txt files, pages, and pages below
   /private/ it was asked for. */
#include <arpa/inet.h>
#include <pthread.h>
#include <stdatomic.h>
#include <stdio.h>
#include <stdlib.h>
#include <string.h>
#include <sys/socket.h>
#include <unistd.h>

enum { REQUEST = 16384, ROBOTS = 65536 };

/* The lines of a head before its empty one: where the connection goes on, and where it does not. */
static const char *const ends[] = {"\r\n", "Connection: close\r\n\r\n"};
static int listener;
static char *pages[2];
static size_t lengths[2];
static int rules;
static atomic_long robots_count, page_count, denied_count;

static void stop(const char *what)
{
    perror(what);
    exit(1);
}

/* Reads a request up to its empty line, and returns whether one has come. */
static int read_request(int peer, char *request)
{
    size_t count = 0;
    request[0] = 0;
    while (!strstr(request, "\r\n\r\n") && count < REQUEST) {
        ssize_t got = recv(peer, request + count, REQUEST - count, 0);
        if (got <= 0)
            return 0;
        count += got;
        request[count] = 0;
    }
    return 1;
}

static void send_all(int peer, const char *said, size_t left)
{
    while (left) {
        ssize_t sent = send(peer, said, left, MSG_NOSIGNAL);
        if (sent <= 0)
            return;
        said += sent;
        left -= sent;
    }
}

/* Returns the address to which the peer has connected. */
static struct in_addr own_address(int peer)
{
    struct sockaddr_in own = {0};
    socklen_t size = sizeof own;
    getsockname(peer, (void *)&own, &size);
    return own.sin_addr;
}

static void send_missing(int peer, int closes)
{
    char said[128];
    send_all(peer, said, sprintf(said, "HTTP/1.1 404 None\r\nContent-Length: 0\r\n%s", ends[closes]));
}

static void send_rules(int peer, int closes)
{
    char name[INET_ADDRSTRLEN], body[ROBOTS], said[ROBOTS + 128];
    struct in_addr own = own_address(peer);
    inet_ntop(AF_INET, &own, name, sizeof name);
    int at = sprintf(body, "# %s\nUser-agent: *\nDisallow: /private/\n", name);
    for (int rule = 1; rule < rules && at < ROBOTS - 64; rule++)
        at += sprintf(body + at, "Disallow: /part%d/page\n", rule);
    int length = sprintf(said, "HTTP/1.1 200 OK\r\nContent-Length: %d\r\n%s%s", at, ends[closes], body);
    send_all(peer, said, length);
}

/* Answers the next request, and returns whether another one may follow. */
static int answer(int peer)
{
    char request[REQUEST + 1];
    if (!read_request(peer, request))
        return 0;
    /* (a client of HTTP/1.0 reads to the end of the connection) */
    int closes = strstr(request, "\r\nConnection: close\r\n") || strstr(request, " HTTP/1.0\r\n");
    if (!strncmp(request, "GET /robots.txt ", 16)) {
        robots_count++;
        if (rules)
            send_rules(peer, closes);
        else
            send_missing(peer, closes);
        return !closes;
    }
    page_count++;
    denied_count += !strncmp(request, "GET /private/", 13);
    send_all(peer, pages[closes], lengths[closes]);
    return !closes;
}

static void *serve(void *none)
{
    for (;;) {
        int peer = accept(listener, 0, 0);
        if (peer < 0)
            continue;
        /* (nobody on another machine is answered) */
        if (ntohl(own_address(peer).s_addr) >> 24 == 127)
            while (answer(peer))
                ;
        close(peer);
    }
    return none;
}

static void make_page(size_t octets, int closes)
{
    char *page = calloc(1, octets + 128);
    if (!page)
        stop("calloc");
    size_t length = sprintf(page, "HTTP/1.1 200 OK\r\nContent-Length: %zu\r\n%s", octets, ends[closes]);
    memset(page + length, 'x', octets);
    pages[closes] = page;
    lengths[closes] = length + octets;
}

static void open_listener(in_addr_t host)
{
    struct sockaddr_in address = {.sin_family = AF_INET, .sin_addr.s_addr = htonl(host)};
    socklen_t size = sizeof address;
    listener = socket(AF_INET, SOCK_STREAM, 0);
    if (listener < 0 || bind(listener, (void *)&address, size) || listen(listener, 4096))
        stop("listen");
    getsockname(listener, (void *)&address, &size);
    printf("%d\n", ntohs(address.sin_port));
    fflush(stdout);
}

int main(int count, char **words)
{
    if (count != 3 && count != 4)
        return 2;
    rules = count == 4 ? atoi(words[3]) : 0;
    make_page(strtoul(words[2], 0, 10), 0);
    make_page(strtoul(words[2], 0, 10), 1);
    open_listener(rules ? INADDR_ANY : INADDR_LOOPBACK);
    for (int at = rules ? 0 : 1; at < atoi(words[1]); at++) {
        pthread_t thread;
        if (pthread_create(&thread, 0, serve, 0))
            stop("pthread_create");
    }
    if (!rules)
        serve(0);
    while (getchar() != EOF)
        ;
    printf("%ld %ld %ld\n", robots_count, page_count, denied_count);
}
