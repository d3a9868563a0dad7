/* Datagrams that no good client sends, for a server of peer.xg on 127.0.0.1: flood PORT KIND SEED RATE COUNT
     random     bytes of chance, up to 1,500
     cut        the first bytes of a header
     unserved   DATA of valid form for services that aren't served
     acks       ACKs with odd fields and marks, most of them of calls that were opened
     control    BUSY, ABORT, ACKALL, CHALLENGE, RESPONSE and types that aren't there, most of them of such calls
     jumbo      jumbograms that are cut short
     long       a header with odd fields and up to 60,000 bytes
     nowhere    DATA from where no answer goes: the port 0, a broadcast address, a network without a route
     data       DATA of valid form for the service 60: whole requests, also of downloads, first packets, later ones, and
                uploads
   Sends COUNT of them, RATE a second, as a generator with this seed draws, from many hosts of 127.0.0.0/8, and one of
   64 from the server's own host and port. Wants a raw socket: without one it says so, and sends from 64 sockets, none
   of the kind `nowhere` among them. Prints what it sent. */
#include "packet.h"
#include <netinet/ip.h>
#include <netinet/udp.h>

enum { LINKS = 32, SOCKETS = 64, LONGEST = 60000, LONGEST_PAYLOAD = 1444 };

static uint64_t state;
static uint16_t server_port;
static struct link links[LINKS];

/* A draw below a number of up to 2^32 (xorshift64*). */
static uint32_t draw(uint64_t below)
{
    state ^= state >> 12;
    state ^= state << 25;
    state ^= state >> 27;
    return (uint32_t)(((state * 2685821657736338717u) >> 32) % below);
}

static uint32_t any(void)
{
    return draw((uint64_t)1 << 32);
}

/* One of a list's numbers, or now and then any number. */
static uint32_t one_of(const uint32_t *list, int count)
{
    uint32_t at = draw(count + 1);
    return at < (uint32_t)count ? list[at] : any();
}

/* Adds so many drawn bytes to a datagram. */
static void add_bytes(struct datagram *d, int count)
{
    for (int at = 0; at < count; at += 4)
        put(d->bytes + d->size + at, any());
    d->size += count;
}

static struct link new_link(void)
{
    struct link link = { 0x7f000000 | (1 + draw(0xfffffe)), any(), any() & ~3u, (uint16_t)(1 + draw(65535)) };
    if (draw(64) == 0) {
        link.host = INADDR_LOOPBACK;
        link.port = server_port;
    }
    return link;
}

/* A whole request of `Echo`, of 20 bytes. */
static void whole_call(struct datagram *d, const struct link *link, uint32_t call, int service)
{
    head(d, link, call, 1, DATA, CLIENT_INITIATED | LAST, service);
    add(d, ECHO_CALL);
    add(d, 20);
    add_bytes(d, 20);
}

static void make_random(struct datagram *d)
{
    struct link link = new_link();
    head(d, &link, 0, 0, 0, 0, 0);
    d->size = 0;
    add_bytes(d, draw(1501));
}

static void make_cut(struct datagram *d)
{
    struct link link = new_link();
    whole_call(d, &link, 1, SERVICE);
    d->size = draw(HEADER);
}

static void make_unserved(struct datagram *d)
{
    struct link link = new_link();
    head(d, &link, 1, 1 + draw(WINDOW), DATA, CLIENT_INITIATED | (draw(2) ? LAST : 0), draw(SERVICE));
    add_bytes(d, draw(LONGEST_PAYLOAD + 1));
}

static void make_data(struct datagram *d)
{
    struct link link = new_link();
    uint32_t call = draw(8) ? 1 + draw(4) : any();
    link.cid |= draw(4);
    switch (draw(5)) {
    case 0:
        whole_call(d, &link, call, SERVICE);
        return;
    case 1:
        head(d, &link, call, 1, DATA, CLIENT_INITIATED | LAST, SERVICE);
        add(d, DOWN_CALL);
        add(d, any());
        return;
    case 2:
        head(d, &link, call, 1, DATA, CLIENT_INITIATED | (draw(2) ? ASKS : 0), SERVICE);
        add(d, 1 + draw(7));
        break;
    case 3:
        head(d, &link, call, 2 + draw(WINDOW), DATA, CLIENT_INITIATED, SERVICE);
        break;
    default:
        head(d, &link, call, 1, DATA, CLIENT_INITIATED, SERVICE);
        add(d, UP_CALL);
        add(d, any());
        add(d, draw(2) ? draw(16777217) : any());
    }
    add_bytes(d, draw(HEADER + LONGEST_PAYLOAD + 1 - d->size));
}

/* Draws one of the connections that are kept, and one time in 16 the call that opens it; whether it is that. */
static int opens(struct datagram *d, const struct link **link)
{
    *link = &links[draw(LINKS)];
    if (draw(16))
        return 0;
    whole_call(d, *link, 1, SERVICE);
    return 1;
}

static void make_acks(struct datagram *d)
{
    static const uint32_t odd[] = { 0, 1, 2, 3, 33, 0x7fffffff, 0xfffffffe, 0xffffffff };
    const struct link *link;
    if (opens(d, &link))
        return;
    head(d, link, draw(8) ? 1 : any(), draw(4) ? 0 : any(), ACK, CLIENT_INITIATED | draw(256), SERVICE);
    add(d, any());
    for (int i = 0; i < 3; i++)
        add(d, one_of(odd, 8));
    /* a reason and a count of marks, which may be more than follow */
    put(d->bytes + d->size, draw(2) ? draw(10) << 24 | draw(4) << 16 : any());
    d->size += 2;
    add_bytes(d, draw(300));
}

static void make_control(struct datagram *d)
{
    static const uint32_t calls[] = { 0, 1, 1, 1, 2, 0xffffffff };
    const struct link *link;
    if (opens(d, &link))
        return;
    head(d, link, one_of(calls, 6), draw(4) ? 0 : any(), draw(4) ? BUSY + draw(5) : draw(256),
         draw(4) ? CLIENT_INITIATED : draw(256), SERVICE);
    add_bytes(d, draw(2) ? draw(13) : draw(LONGEST_PAYLOAD + HEADER + 1));
}

static void make_jumbo(struct datagram *d)
{
    const struct link *link;
    int packets = 2 + draw(16);
    if (opens(d, &link))
        return;
    head(d, link, 1 + draw(2), 1 + draw(WINDOW), DATA, CLIENT_INITIATED | JUMBO, SERVICE);
    for (int i = 1; i <= packets; i++) {
        add_bytes(d, PIECE);
        add(d, (CLIENT_INITIATED | (i + 1 < packets ? JUMBO : 0)) << 24);
    }
    d->size = HEADER + draw(d->size - HEADER);
}

static void make_long(struct datagram *d)
{
    struct link link = new_link();
    head(d, &link, draw(3), draw(3), draw(4) ? 1 + draw(7) : draw(256), draw(256), SERVICE);
    add_bytes(d, draw(LONGEST - HEADER + 1));
}

static void make_nowhere(struct datagram *d)
{
    struct link link = new_link();
    if (draw(2))
        whole_call(d, &link, 1, SERVICE + draw(2));
    else
        make_unserved(d);
    switch (draw(4)) {
    case 0:
    case 1:
        d->port = 0;
        break;
    case 2:
        d->host = draw(2) ? 0x7fffffff : INADDR_BROADCAST;
        break;
    default:
        d->host = 0xc0000200 | draw(256);
    }
}

static const struct kind { const char *name; void (*make)(struct datagram *); } kinds[] = {
    { "random", make_random }, { "cut", make_cut }, { "unserved", make_unserved }, { "acks", make_acks },
    { "control", make_control }, { "jumbo", make_jumbo }, { "long", make_long }, { "nowhere", make_nowhere },
    { "data", make_data },
};

/* What sends: a raw socket, or where the system gives none, sockets of several hosts. */
struct sender { int raw, sockets[SOCKETS]; };

static void open_sender(struct sender *s)
{
    s->raw = socket(AF_INET, SOCK_RAW, IPPROTO_RAW);
    for (int i = 0; s->raw < 0 && i < SOCKETS; i++)
        s->sockets[i] = opened(0x7f000001 + (i << 12), server_port);
}

/* Sends a datagram by the raw socket, with headers of IP and UDP that say where it comes from. */
static int send_raw(int raw, const struct datagram *d)
{
    static unsigned char packet[65536];
    struct iphdr ip = { .version = 4, .ihl = 5, .ttl = 64, .protocol = IPPROTO_UDP, .saddr = htonl(d->host),
                        .daddr = htonl(INADDR_LOOPBACK) };
    struct udphdr udp = { .source = htons(d->port), .dest = htons(server_port), .len = htons(sizeof udp + d->size) };
    struct sockaddr_in to = { .sin_family = AF_INET, .sin_addr = { htonl(INADDR_LOOPBACK) } };
    memcpy(packet, &ip, sizeof ip);
    memcpy(packet + sizeof ip, &udp, sizeof udp);
    memcpy(packet + sizeof ip + sizeof udp, d->bytes, d->size);
    return sendto(raw, packet, sizeof ip + sizeof udp + d->size, 0, (struct sockaddr *)&to, sizeof to) >= 0;
}

/* Sends so many datagrams at a rate, in bursts of a millisecond. */
static void flood(const struct kind *kind, double rate, long count)
{
    static struct datagram d;
    struct sender s;
    long sent = 0, refused = 0;
    double began = now();
    open_sender(&s);
    if (s.raw < 0 && kind->make == make_nowhere)
        count = 0;
    while (sent + refused < count) {
        if (sent + refused > (now() - began) * rate / 1e3) {
            usleep(1000);
            continue;
        }
        kind->make(&d);
        if (s.raw < 0 ? send(s.sockets[draw(SOCKETS)], d.bytes, d.size, 0) >= 0 : send_raw(s.raw, &d))
            sent++;
        else
            refused++;
    }
    printf("%ld sent, %ld refused by the system, %.0f ms%s\n", sent, refused, now() - began,
           s.raw < 0 ? ", without a raw socket" : "");
}

int main(int count, char **words)
{
    if (count < 6)
        return 2;
    server_port = atoi(words[1]);
    state = strtoull(words[3], NULL, 10) * 2 + 1;
    for (int i = 0; i < 8; i++)
        draw(2);
    for (int i = 0; i < LINKS; i++)
        links[i] = new_link();
    for (size_t i = 0; i < sizeof kinds / sizeof *kinds; i++)
        if (!strcmp(words[2], kinds[i].name)) {
            flood(&kinds[i], atof(words[4]), atol(words[5]));
            return 0;
        }
    return 2;
}
