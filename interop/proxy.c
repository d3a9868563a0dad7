/* A bad network between one server and its clients on 127.0.0.1: proxy FROM TO SEED [LOST REPEATED HELD [DELAY]]
   Takes datagrams at the port FROM and hands them to the port TO, each client's from a port of its own, and those that
   come back the other way. Of each hundred it loses, repeats and holds so many (5, 5 and 10; 0.1 is one of a thousand),
   as a generator with this seed draws. One that is held goes behind the next two of its way, or after 50 ms. Each is
   under way for so many milliseconds (0). On SIGTERM it prints what it did and ends. */
#define _GNU_SOURCE
#include <arpa/inet.h>
#include <poll.h>
#include <signal.h>
#include <stdint.h>
#include <stdio.h>
#include <stdlib.h>
#include <string.h>
#include <sys/socket.h>
#include <time.h>
#include <unistd.h>

enum { CLIENTS = 512, HELD = 64, LONGEST = 65536, HELD_MS = 50 };

static struct client { int socket; struct sockaddr_in at; } clients[CLIENTS];
static struct held { int socket, left, size; struct sockaddr_in to; double until; unsigned char *bytes; } held[HELD];
static struct late { struct late *next; int socket, size; struct sockaddr_in to; double until; unsigned char bytes[]; }
    *first_late, **last_late = &first_late;
static int count, front;
static double delay;
static uint64_t state;
static long given, lost, repeated, kept;
static volatile sig_atomic_t is_over;

static void stop(int signal)
{
    (void)signal;
    is_over = 1;
}

static double now(void)
{
    struct timespec at;
    clock_gettime(CLOCK_MONOTONIC, &at);
    return at.tv_sec * 1e3 + at.tv_nsec / 1e6;
}

/* A draw of 0 to 999 (xorshift64*); without its last digit it is a draw of 0 to 99. */
static int draw(void)
{
    int drawn;
    state ^= state >> 12;
    state ^= state << 25;
    state ^= state >> 27;
    drawn = (int)((state * 2685821657736338717u) >> 33);
    return drawn % 100 * 10 + drawn / 100 % 10;
}

static void hand(int socket, const struct sockaddr_in *to, const unsigned char *bytes, int size)
{
    struct late *late;
    if (delay <= 0) {
        sendto(socket, bytes, size, 0, (const struct sockaddr *)to, sizeof *to);
        return;
    }
    if (!(late = malloc(sizeof *late + size)))
        return;
    *late = (struct late){ .socket = socket, .size = size, .to = *to, .until = now() + delay };
    memcpy(late->bytes, bytes, size);
    *last_late = late;
    last_late = &late->next;
}

/* Hands on what was under way for long enough. */
static void arrive(void)
{
    struct late *late;
    while ((late = first_late) && late->until <= now()) {
        sendto(late->socket, late->bytes, late->size, 0, (const struct sockaddr *)&late->to, sizeof late->to);
        if (!(first_late = late->next))
            last_late = &first_late;
        free(late);
    }
}

/* Waits for a datagram, until one arrives, or for 10 ms. */
static void wait_for(struct pollfd *ready, int watched)
{
    double ms = 10;
    struct timespec most;
    if (first_late && first_late->until - now() < ms)
        ms = first_late->until - now();
    most = (struct timespec){ .tv_nsec = ms > 0 ? (long)(ms * 1e6) : 0 };
    ppoll(ready, watched, &most, NULL);
}

/* Hands on what was held until now, or, where one of this way passed, until that. */
static void release(const struct sockaddr_in *passed)
{
    for (int i = 0; i < HELD; i++) {
        struct held *h = &held[i];
        if (!h->bytes)
            continue;
        if (passed && h->to.sin_port == passed->sin_port)
            h->left--;
        if (h->left > 0 && now() < h->until)
            continue;
        hand(h->socket, &h->to, h->bytes, h->size);
        free(h->bytes);
        h->bytes = NULL;
    }
}

static int hold(int socket, const struct sockaddr_in *to, const unsigned char *bytes, int size)
{
    for (int i = 0; i < HELD; i++)
        if (!held[i].bytes && (held[i].bytes = malloc(size))) {
            memcpy(held[i].bytes, bytes, size);
            held[i].socket = socket;
            held[i].to = *to;
            held[i].size = size;
            held[i].left = 2;
            held[i].until = now() + HELD_MS;
            return 1;
        }
    return 0;
}

static void pass(int socket, const struct sockaddr_in *to, const unsigned char *bytes, int size, const int *share)
{
    int drawn = draw();
    given++;
    if (drawn < share[0]) {
        lost++;
        return;
    }
    if (drawn >= share[0] + share[1] && drawn < share[0] + share[1] + share[2] && hold(socket, to, bytes, size)) {
        kept++;
        return;
    }
    hand(socket, to, bytes, size);
    if (drawn >= share[0] && drawn < share[0] + share[1]) {
        repeated++;
        hand(socket, to, bytes, size);
    }
    release(to);
}

static int opened(int port)
{
    struct sockaddr_in at = { .sin_family = AF_INET, .sin_port = htons(port),
                              .sin_addr = { htonl(INADDR_LOOPBACK) } };
    int room = 1 << 22, socket_of = socket(AF_INET, SOCK_DGRAM, 0);
    if (setsockopt(socket_of, SOL_SOCKET, SO_RCVBUFFORCE, &room, sizeof room))
        setsockopt(socket_of, SOL_SOCKET, SO_RCVBUF, &room, sizeof room);
    if (bind(socket_of, (struct sockaddr *)&at, sizeof at))
        exit(1);
    return socket_of;
}

/* The client that sends from there; the first places go round. */
static struct client *client_at(const struct sockaddr_in *at)
{
    static int next;
    struct client *client;
    for (int i = 0; i < count; i++)
        if (clients[i].at.sin_port == at->sin_port)
            return &clients[i];
    client = &clients[next];
    if (count < CLIENTS) {
        count++;
        client->socket = opened(0);
    }
    next = (next + 1) % CLIENTS;
    client->at = *at;
    return client;
}

int main(int words, char **word)
{
    static unsigned char bytes[LONGEST];
    int share[3] = { 50, 50, 100 };
    struct sockaddr_in server = { .sin_family = AF_INET, .sin_addr = { htonl(INADDR_LOOPBACK) } };
    if (words < 4)
        return 2;
    server.sin_port = htons(atoi(word[2]));
    state = strtoull(word[3], NULL, 10) * 2 + 1;
    for (int i = 4; i < words && i < 7; i++)
        share[i - 4] = (int)(atof(word[i]) * 10 + 0.5);
    if (words > 7)
        delay = atof(word[7]);
    front = opened(atoi(word[1]));
    signal(SIGTERM, stop);
    printf("ready\n");
    fflush(stdout);
    while (!is_over) {
        struct pollfd ready[CLIENTS + 1] = { { .fd = front, .events = POLLIN } };
        for (int i = 0; i < count; i++)
            ready[i + 1] = (struct pollfd){ .fd = clients[i].socket, .events = POLLIN };
        int watched = count + 1;
        wait_for(ready, watched);
        release(NULL);
        arrive();
        for (int i = 0; i < watched; i++) {
            struct sockaddr_in from;
            socklen_t room = sizeof from;
            int size;
            if (!(ready[i].revents & (POLLIN | POLLERR)))
                continue;
            size = recvfrom(ready[i].fd, bytes, sizeof bytes, MSG_DONTWAIT, (struct sockaddr *)&from, &room);
            if (size < 0)
                continue;
            if (i == 0)
                pass(client_at(&from)->socket, &server, bytes, size, share);
            else
                pass(front, &clients[i - 1].at, bytes, size, share);
        }
    }
    printf("%ld datagrams, %ld lost, %ld repeated, %ld held\n", given, lost, repeated, kept);
    return 0;
}
