/* A request of `Echo` of peer.xg that never ends: endless PORT BYTES SECONDS
   Sends DATA to that port of 127.0.0.1 within the window that it is told, sends again what was lost, and takes what it
   is told, until so many bytes are acknowledged, so many seconds are over, the server ends the call or is silent for
   12 s; then it cancels the call. Prints how far it came. */
#include "packet.h"
#include <poll.h>
#include <sys/random.h>

enum { RESEND_MS = 300, SILENCE_MS = 12000, CANCELLED = -6 };

/* The request: the first piece that isn't acknowledged, the next, and what was heard when. */
struct request { int socket; struct link link; uint32_t front, next, window; double heard, asked; int is_over, code; };

static double acknowledged(const struct request *r)
{
    return (r->front - 1.0) * PIECE;
}

/* Sends a piece of zero bytes; the first begins with an opcode and the length of an argument of 20 bytes. */
static void send_piece(const struct request *r, uint32_t seq, int flags)
{
    static struct datagram d;
    head(&d, &r->link, 1, seq, DATA, CLIENT_INITIATED | flags, SERVICE);
    memset(d.bytes + HEADER, 0, PIECE);
    if (seq == 1) {
        add(&d, ECHO_CALL);
        add(&d, 20);
    }
    send(r->socket, d.bytes, HEADER + PIECE, 0);
}

/* Sends what the window lets through, and where nothing was heard the first piece again. */
static void say(struct request *r)
{
    for (; r->next - r->front < r->window; r->next++)
        send_piece(r, r->next, r->next % 8 ? 0 : ASKS);
    if (now() < r->heard + RESEND_MS || now() < r->asked + RESEND_MS)
        return;
    send_piece(r, r->front, ASKS);
    r->asked = now();
}

/* Takes an ACK: its first packet, and its window where that is there. */
static void take_ack(struct request *r, const unsigned char *bytes, ssize_t size)
{
    uint32_t first = word_at(bytes + HEADER + 4);
    int marks = bytes[HEADER + 17], window = HEADER + 29 + marks;
    if (first - r->front > r->next - r->front)
        return;
    r->front = first;
    if (size >= window + 4)
        r->window = word_at(bytes + window);
}

/* Takes what the server says, until nothing is there. */
static void hear(struct request *r)
{
    unsigned char bytes[2048];
    ssize_t size;
    while ((size = recv(r->socket, bytes, sizeof bytes, MSG_DONTWAIT)) >= HEADER) {
        if (word_at(bytes) != r->link.epoch || word_at(bytes + 4) != r->link.cid)
            continue;
        r->heard = now();
        if (bytes[20] == ACK && size >= HEADER + 18)
            take_ack(r, bytes, size);
        if (bytes[20] == ABORT && size >= HEADER + 4) {
            r->is_over = 1;
            r->code = (int)word_at(bytes + HEADER);
        }
    }
}

static void cancel(const struct request *r)
{
    static struct datagram d;
    head(&d, &r->link, 1, 0, ABORT, CLIENT_INITIATED, SERVICE);
    add(&d, CANCELLED);
    send(r->socket, d.bytes, d.size, 0);
}

int main(int count, char **words)
{
    double began = now(), bytes, until;
    struct request r = { .front = 1, .next = 1, .window = WINDOW, .heard = began };
    struct pollfd ready = { .events = POLLIN };
    if (count < 4 || getrandom(&r.link.epoch, sizeof r.link.epoch, 0) != sizeof r.link.epoch)
        return 2;
    bytes = atof(words[2]);
    until = began + atof(words[3]) * 1e3;
    ready.fd = r.socket = opened(INADDR_LOOPBACK, atoi(words[1]));
    while (!r.is_over && acknowledged(&r) < bytes && now() < until && now() < r.heard + SILENCE_MS) {
        say(&r);
        poll(&ready, 1, 10);
        hear(&r);
    }
    printf("%.0f bytes acknowledged in %.0f ms", acknowledged(&r), now() - began);
    if (r.is_over)
        printf(", ended by the code %d", r.code);
    else if (now() >= r.heard + SILENCE_MS)
        printf(", ended in silence");
    printf("\n");
    cancel(&r);
    return 0;
}
