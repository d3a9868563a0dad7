/* The work of rx_packet_bench in plain C: reads and writes a pool of mixed datagrams, and prints the same checksum. */
#include <stdbool.h>
#include <stdint.h>
#include <stdio.h>
#include <stdlib.h>
#include <string.h>

enum { DATA = 1, ACK, BUSY, ABORT, ACKALL, CHALLENGE, RESPONSE };
enum { JUMBO = 0x20, HEADER_BYTES = 28, ACK_BYTES = 18, PAYLOAD_BYTES = 1444, DATAGRAM_BYTES = 1472 };
enum fault { NONE, SHORT, KIND, IS_JUMBO, TOO_LONG, ACK_SHORT, ABORT_SHORT };

struct head {
    uint32_t epoch, cid, number, seq, serial;
    uint8_t flags, status, index;
    uint16_t spare, service;
};

struct ack {
    uint32_t first, previous, serial, window;
    bool has_window, marks[255];
    uint8_t reason, count;
};

struct body {
    uint8_t kind;
    union {
        struct {
            const uint8_t *bytes;
            size_t length;
        } payload;
        struct ack ack;
        int32_t code;
    };
};

static uint32_t get32(const uint8_t *p) {
    return (uint32_t)p[0] << 24 | (uint32_t)p[1] << 16 | (uint32_t)p[2] << 8 | p[3];
}

static uint16_t get16(const uint8_t *p) {
    return (uint16_t)(p[0] << 8 | p[1]);
}

static uint8_t *put32(uint8_t *p, uint32_t n) {
    p[0] = n >> 24;
    p[1] = n >> 16;
    p[2] = n >> 8;
    p[3] = n;
    return p + 4;
}

static enum fault read_ack(const uint8_t *rest, size_t length, struct ack *ack) {
    if (length < ACK_BYTES || length < ACK_BYTES + (size_t)rest[17])
        return ACK_SHORT;
    ack->first = get32(rest + 4);
    ack->previous = get32(rest + 8);
    ack->serial = get32(rest + 12);
    ack->reason = rest[16] == 0 || rest[16] > 8 ? 8 : rest[16];
    ack->count = rest[17];
    for (int i = 0; i < ack->count; i++)
        ack->marks[i] = rest[ACK_BYTES + i] == 1;
    size_t tail = ACK_BYTES + (size_t)ack->count;
    ack->has_window = length - tail >= 15;
    ack->window = ack->has_window ? get32(rest + tail + 11) : 0;
    return NONE;
}

static enum fault read_payload(const uint8_t *rest, size_t length, struct body *body) {
    if (length > PAYLOAD_BYTES)
        return TOO_LONG;
    body->payload.bytes = rest;
    body->payload.length = length;
    return NONE;
}

static enum fault read_body(uint8_t flags, const uint8_t *rest, size_t length, struct body *body) {
    switch (body->kind) {
    case DATA:
        return flags & JUMBO ? IS_JUMBO : read_payload(rest, length, body);
    case ACK:
        return read_ack(rest, length, &body->ack);
    case ABORT:
        if (length < 4)
            return ABORT_SHORT;
        body->code = (int32_t)get32(rest);
        return NONE;
    case BUSY:
    case ACKALL:
        return NONE;
    case CHALLENGE:
    case RESPONSE:
        return read_payload(rest, length, body);
    default:
        return KIND;
    }
}

__attribute__((noinline)) enum fault read_msg(const uint8_t *bytes, size_t length, struct head *head, struct body *body) {
    if (length < HEADER_BYTES)
        return SHORT;
    body->kind = bytes[20];
    head->epoch = get32(bytes);
    head->cid = get32(bytes + 4);
    head->number = get32(bytes + 8);
    head->seq = get32(bytes + 12);
    head->serial = get32(bytes + 16);
    head->flags = bytes[21];
    head->status = bytes[22];
    head->index = bytes[23];
    head->spare = get16(bytes + 24);
    head->service = get16(bytes + 26);
    return read_body(bytes[21], bytes + HEADER_BYTES, length - HEADER_BYTES, body);
}

static uint8_t *put_ack(uint8_t *p, const struct ack *ack) {
    p = put32(p, 0);
    p = put32(p, ack->first);
    p = put32(p, ack->previous);
    p = put32(p, ack->serial);
    *p++ = ack->reason;
    *p++ = ack->count;
    for (int i = 0; i < ack->count; i++)
        *p++ = ack->marks[i];
    memset(p, 0, 3);
    p += 3;
    if (ack->has_window) {
        p = put32(p, PAYLOAD_BYTES);
        p = put32(p, PAYLOAD_BYTES);
        p = put32(p, ack->window);
        p = put32(p, 1);
    }
    return p;
}

__attribute__((noinline)) size_t write_msg(const struct head *head, const struct body *body, uint8_t *to) {
    uint8_t *p = put32(to, head->epoch);
    p = put32(p, head->cid);
    p = put32(p, head->number);
    p = put32(p, head->seq);
    p = put32(p, head->serial);
    *p++ = body->kind;
    *p++ = head->flags & 7;
    *p++ = 0;
    *p++ = head->index;
    *p++ = 0;
    *p++ = 0;
    *p++ = head->service >> 8;
    *p++ = (uint8_t)head->service;
    switch (body->kind) {
    case ACK:
        p = put_ack(p, &body->ack);
        break;
    case ABORT:
        p = put32(p, (uint32_t)body->code);
        break;
    case DATA:
    case CHALLENGE:
    case RESPONSE:
        memcpy(p, body->payload.bytes, body->payload.length);
        p += body->payload.length;
        break;
    }
    return (size_t)(p - to);
}

/* ---- the checksum */

static uint64_t fold(uint64_t sum, uint64_t number) {
    return sum * 31 + number;
}

static uint64_t sum_of(const struct body *body) {
    switch (body->kind) {
    case BUSY:
        return 3;
    case ACKALL:
        return 5;
    case ACK: {
        const struct ack *a = &body->ack;
        return fold(fold(a->first ^ a->previous ^ a->serial ^ a->window, a->reason), a->count);
    }
    case ABORT:
        return (uint32_t)body->code;
    default:
        return body->payload.length;
    }
}

static uint64_t fold_datagram(uint64_t sum, const uint8_t *bytes, size_t length, uint8_t *to) {
    struct head head;
    struct body body;
    if (read_msg(bytes, length, &head, &body) != NONE)
        return fold(sum, 1);
    size_t written = write_msg(&head, &body, to);
    sum = fold(sum, head.epoch ^ head.cid ^ head.number ^ head.seq ^ head.serial);
    sum = fold(sum, head.flags ^ head.status ^ head.index);
    sum = fold(sum, head.spare ^ head.service);
    sum = fold(sum, sum_of(&body));
    return fold(fold(sum, written), to[written - 1]);
}

/* ---- the pool */

enum { DATAGRAMS = 2048, UNKNOWN = 9 };

/* PCG32, as rand_pcg's Pcg32::new(1, 1) */
static uint64_t state;

static uint32_t next(void) {
    uint64_t old = state;
    state = old * 6364136223846793005u + 3;
    uint32_t shifted = (uint32_t)((old >> 18 ^ old) >> 27);
    uint32_t rotation = (uint32_t)(old >> 59);
    return shifted >> rotation | shifted << (-rotation & 31);
}

static uint32_t below(uint32_t limit) {
    return next() % limit;
}

struct datagram {
    uint8_t *bytes;
    size_t length;
};

static struct datagram datagram(void) {
    static const uint8_t kinds[16] = {1, 1, 1, 1, 1, 1, 1, 1, 2, 2, 2, 2, 2, 3, 4, 6};
    uint32_t draw = below(64);
    uint8_t kind = draw == 0 ? UNKNOWN : kinds[draw % 16];
    uint32_t marks = below(33);
    size_t length = kind == DATA ? 28 + below(1413) : kind == ACK ? 28 + 18 + marks + 19 : 28 + 8;
    uint8_t *bytes = malloc(length);
    for (size_t place = 0; place < length; place++) {
        if (place == 20)
            bytes[place] = kind;
        else if (place == 21)
            bytes[place] = (uint8_t)below(8);
        else if (place == 45 && kind == ACK)
            bytes[place] = (uint8_t)marks;
        else
            bytes[place] = (uint8_t)below(4);
    }
    return (struct datagram){bytes, length};
}

int main(int argc, char **argv) {
    if (argc != 2)
        return 1;
    unsigned long rounds = strtoul(argv[1], NULL, 10);
    static struct datagram datagrams[DATAGRAMS];
    static uint8_t to[DATAGRAM_BYTES];
    state = 1 + 3;
    next();
    for (int i = 0; i < DATAGRAMS; i++)
        datagrams[i] = datagram();
    uint64_t sum = 0;
    for (unsigned long round = 0; round < rounds; round++)
        for (int i = 0; i < DATAGRAMS; i++)
            sum = fold_datagram(sum, datagrams[i].bytes, datagrams[i].length, to);
    printf("%llu\n", (unsigned long long)sum);
    return 0;
}
