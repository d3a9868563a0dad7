/* What flood.c and endless.c share: datagrams of Rx, written and read by hand. */
#include <arpa/inet.h>
#include <stdint.h>
#include <stdio.h>
#include <stdlib.h>
#include <string.h>
#include <sys/socket.h>
#include <time.h>
#include <unistd.h>

enum { DATA = 1, ACK, BUSY, ABORT, ACKALL, CHALLENGE, RESPONSE };
enum { CLIENT_INITIATED = 1, ASKS = 2, LAST = 4, JUMBO = 32 };
enum { SERVICE = 60, ECHO_CALL = 1, UP_CALL, DOWN_CALL, HEADER = 28, PIECE = 1412, WINDOW = 32 };

/* A client as it shows: where it sends from, and its connection. */
struct link { uint32_t host, epoch, cid; uint16_t port; };

/* A datagram, and where it comes from. */
struct datagram { uint32_t host; uint16_t port; int size; unsigned char bytes[65536]; };

static inline double now(void)
{
    struct timespec at;
    clock_gettime(CLOCK_MONOTONIC, &at);
    return at.tv_sec * 1e3 + at.tv_nsec / 1e6;
}

static inline void put(unsigned char *to, uint32_t word)
{
    word = htonl(word);
    memcpy(to, &word, 4);
}

static inline uint32_t word_at(const unsigned char *from)
{
    uint32_t word;
    memcpy(&word, from, 4);
    return ntohl(word);
}

/* Makes a datagram of the header of a message on a connection. */
static inline void head(struct datagram *d, const struct link *link, uint32_t call, uint32_t seq, int type, int flags,
                        int service)
{
    static uint32_t serial;
    d->host = link->host;
    d->port = link->port;
    put(d->bytes, link->epoch);
    put(d->bytes + 4, link->cid);
    put(d->bytes + 8, call);
    put(d->bytes + 12, seq);
    put(d->bytes + 16, ++serial);
    put(d->bytes + 20, (uint32_t)type << 24 | (uint32_t)flags << 16);
    put(d->bytes + 24, service);
    d->size = HEADER;
}

/* Puts a word behind what a datagram has. */
static inline void add(struct datagram *d, uint32_t word)
{
    put(d->bytes + d->size, word);
    d->size += 4;
}

/* A socket of a host of 127.0.0.0/8 that sends to this port of 127.0.0.1. */
static inline int opened(uint32_t host, uint16_t port)
{
    struct sockaddr_in from = { .sin_family = AF_INET, .sin_addr = { htonl(host) } };
    struct sockaddr_in to = { .sin_family = AF_INET, .sin_addr = { htonl(INADDR_LOOPBACK) }, .sin_port = htons(port) };
    int one = socket(AF_INET, SOCK_DGRAM, 0);
    if (bind(one, (struct sockaddr *)&from, sizeof from) || connect(one, (struct sockaddr *)&to, sizeof to))
        exit(1);
    return one;
}
