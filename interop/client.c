/* A client of peer.xg on OpenAFS's Rx, from 127.0.0.1 to 127.0.0.1: client PORT SERVICE WHAT [NUMBER..]
     echo CALLS CHANNELS BYTES   calls of so many bytes each, side by side on the channels of one connection
     up BYTES, down BYTES, both BYTES   one counted stream to the server, from it, and there and back
     slow SECONDS                a call whose handler takes that long
     fail CODE                   a call that the server answers with a code
     opcode NUMBER               a call without arguments of this opcode
     steady SECONDS BYTES        for so long, echoes of 20 bytes on three channels and such streams, up and down, on the
                                 fourth; it goes on behind a call that fails. Each 100 ms it prints the milliseconds
                                 until then, and how many echoes and streams were done, how many calls failed, and how
                                 many answers were wrong
     bytes BYTES                 no call: prints the bytes of a stream, and their sum on standard error
   Prints `ok` and what came, or `code` and the code with which the call ended; then the milliseconds that passed and
   those of the processor that this end took. With JUMBO in the environment it takes and sends jumbograms. */
#include "common.h"
#include <pthread.h>
#include <stdlib.h>
#include <sys/resource.h>
#include <time.h>

static struct rx_connection *conn;

static double now(void)
{
    struct timespec at;
    clock_gettime(CLOCK_MONOTONIC, &at);
    return at.tv_sec * 1e3 + at.tv_nsec / 1e6;
}

static double processor(void)
{
    struct timespec at;
    clock_gettime(CLOCK_PROCESS_CPUTIME_ID, &at);
    return at.tv_sec * 1e3 + at.tv_nsec / 1e6;
}

/* One channel's share of the echoes. */
struct share { pthread_t thread; int calls, bytes, wrong, code; };

static void *echoes(void *of)
{
    struct share *share = of;
    unsigned char *bytes = malloc(share->bytes + 1);
    for (int i = 0; i < share->calls && !share->code; i++) {
        PeerBody body = { share->bytes, (char *)bytes }, same = { 0, NULL };
        fill(bytes, i, share->bytes);
        share->code = PEER_Echo(conn, &body, &same);
        if (!share->code && (same.PeerBody_len != body.PeerBody_len || memcmp(same.PeerBody_val, bytes, share->bytes)))
            share->wrong++;
        free(same.PeerBody_val);
    }
    free(bytes);
    return NULL;
}

static int echo(int calls, int channels, int bytes)
{
    struct share shares[RX_MAXCALLS] = { { 0 } };
    int code = 0, wrong = 0;
    for (int i = 0; i < channels; i++) {
        shares[i].calls = calls / channels;
        shares[i].bytes = bytes;
        pthread_create(&shares[i].thread, NULL, echoes, &shares[i]);
    }
    for (int i = 0; i < channels; i++) {
        pthread_join(shares[i].thread, NULL);
        code = code ? code : shares[i].code;
        wrong += shares[i].wrong;
    }
    if (!code)
        printf("%s %d echoes, %d wrong", wrong ? "not" : "ok", calls, wrong);
    return code;
}

/* Sends the counted stream of so many bytes. */
static int send_counted(struct rx_call *call, afs_uint32 size, afs_uint32 *sum)
{
    afs_uint32 word = htonl(size);
    unsigned char block[BLOCK];
    *sum = NO_SUM;
    if (rx_Write(call, (char *)&word, 4) != 4)
        return RXGEN_CC_MARSHAL;
    for (afs_uint32 at = 0; at < size; at += BLOCK) {
        int part = size - at < BLOCK ? size - at : BLOCK;
        fill(block, at, part);
        *sum = sum_of(*sum, block, part);
        if (rx_Write(call, (char *)block, part) != part)
            return RXGEN_CC_MARSHAL;
    }
    return 0;
}

/* Takes a counted stream, its size and its sum. */
static int take_counted(struct rx_call *call, afs_uint32 *size, afs_uint32 *sum)
{
    afs_uint32 word;
    unsigned char block[BLOCK];
    *sum = NO_SUM;
    if (rx_Read(call, (char *)&word, 4) != 4)
        return RXGEN_CC_UNMARSHAL;
    *size = ntohl(word);
    for (afs_uint32 at = 0; at < *size; at += BLOCK) {
        int part = *size - at < BLOCK ? *size - at : BLOCK;
        if (rx_Read(call, (char *)block, part) != part)
            return RXGEN_CC_UNMARSHAL;
        *sum = sum_of(*sum, block, part);
    }
    return 0;
}

/* A stream in one direction: how many bytes the server and this end counted or asked for, and the sums of both. */
struct stream { afs_uint32 size, asked, sum, seen; };

static int sent_up(struct stream *s)
{
    struct rx_call *call = rx_NewCall(conn);
    int code = StartPEER_Up(call, 7);
    code = code ? code : send_counted(call, s->asked, &s->seen);
    code = code ? code : EndPEER_Up(call, &s->size, &s->sum);
    return rx_EndCall(call, code);
}

static int taken_down(struct stream *s)
{
    struct rx_call *call = rx_NewCall(conn);
    int code = StartPEER_Down(call, s->asked);
    code = code ? code : take_counted(call, &s->size, &s->seen);
    code = code ? code : EndPEER_Down(call, &s->sum);
    return rx_EndCall(call, code);
}

static int up(afs_uint32 bytes)
{
    struct stream s = { .asked = bytes };
    int code = sent_up(&s);
    if (!code)
        printf("ok up %u, sum %u of %u", s.size, s.sum, s.seen);
    return code;
}

static int down(afs_uint32 bytes)
{
    struct stream s = { .asked = bytes };
    int code = taken_down(&s);
    if (!code)
        printf("ok down %u, sum %u of %u", s.size, s.seen, s.sum);
    return code;
}

static int both(afs_uint32 bytes)
{
    afs_uint32 sent = 0, size = 0, seen = 0, told = 0;
    struct rx_call *call = rx_NewCall(conn);
    int code = StartPEER_Both(call, 7);
    code = code ? code : send_counted(call, bytes, &sent);
    code = code ? code : take_counted(call, &size, &seen);
    code = code ? code : EndPEER_Both(call, &told);
    code = rx_EndCall(call, code);
    if (!code)
        printf("ok both %u of %u, sum %u of %u", size, told, seen, sent);
    return code;
}

static int slow(afs_uint32 seconds)
{
    afs_uint32 twice = 0;
    int code = PEER_Slow(conn, seconds, &twice);
    if (!code)
        printf("ok slow %u", twice);
    return code;
}

static int opcode(afs_uint32 number)
{
    afs_uint32 word = htonl(number), answer;
    struct rx_call *call = rx_NewCall(conn);
    rx_Write(call, (char *)&word, 4);
    rx_Read(call, (char *)&answer, 4);
    return rx_EndCall(call, 0);
}

/* What steady work is asked for, and what it has done. */
static struct { pthread_mutex_t lock; double until; afs_uint32 bytes; long echoes, streams, failed, wrong; } work =
    { .lock = PTHREAD_MUTEX_INITIALIZER };

/* Counts a call that ended with a code; behind one that failed it waits, so that refusals don't come too fast. */
static void count_call(long *done, int code, int is_right)
{
    pthread_mutex_lock(&work.lock);
    if (code)
        work.failed++;
    else
        ++*(is_right ? done : &work.wrong);
    pthread_mutex_unlock(&work.lock);
    if (code)
        usleep(20000);
}

static void *steady_echoes(void *unused)
{
    unsigned char bytes[20];
    for (afs_uint32 i = 0; now() < work.until; i++) {
        PeerBody body = { sizeof bytes, (char *)bytes }, same = { 0, NULL };
        int code;
        fill(bytes, i, sizeof bytes);
        code = PEER_Echo(conn, &body, &same);
        count_call(&work.echoes, code,
                   same.PeerBody_len == sizeof bytes && !memcmp(same.PeerBody_val, bytes, sizeof bytes));
        free(same.PeerBody_val);
    }
    return unused;
}

static void *steady_streams(void *unused)
{
    for (int i = 0; now() < work.until; i++) {
        struct stream s = { .asked = work.bytes };
        int code = i % 2 ? taken_down(&s) : sent_up(&s);
        count_call(&work.streams, code, s.size == s.asked && s.sum == s.seen);
    }
    return unused;
}

static int steady(int seconds, afs_uint32 bytes)
{
    pthread_t threads[RX_MAXCALLS];
    double began = now();
    work.until = began + seconds * 1e3;
    work.bytes = bytes;
    for (int i = 0; i < RX_MAXCALLS; i++)
        pthread_create(&threads[i], NULL, i ? steady_echoes : steady_streams, NULL);
    while (now() < work.until) {
        usleep(100000);
        pthread_mutex_lock(&work.lock);
        printf("%.0f %ld %ld %ld %ld\n", now() - began, work.echoes, work.streams, work.failed, work.wrong);
        pthread_mutex_unlock(&work.lock);
        fflush(stdout);
    }
    for (int i = 0; i < RX_MAXCALLS; i++)
        pthread_join(threads[i], NULL);
    printf("%s steady, %ld wrong", work.wrong ? "not" : "ok", work.wrong);
    return 0;
}

/* The bytes of a stream of that size, for a program that isn't of these peers. */
static int bytes(afs_uint32 size)
{
    afs_uint32 sum = NO_SUM;
    unsigned char block[BLOCK];
    for (afs_uint32 at = 0; at < size; at += BLOCK) {
        int part = size - at < BLOCK ? size - at : BLOCK;
        fill(block, at, part);
        sum = sum_of(sum, block, part);
        fwrite(block, 1, part, stdout);
    }
    fprintf(stderr, "%u\n", sum);
    return 0;
}

int main(int count, char **words)
{
    const char *what = count > 3 ? words[3] : "";
    int numbers[3] = { 0 };
    double began, used;
    int code;
    for (int i = 4; i < count && i < 7; i++)
        numbers[i - 4] = atoi(words[i]);
    if (!strcmp(what, "bytes"))
        return bytes(numbers[0]);
    if (!getenv("JUMBO"))
        rx_SetNoJumbo();
    if (count < 4 || rx_InitHost(htonl(INADDR_LOOPBACK), 0))
        return 2;
    conn = rx_NewConnection(htonl(INADDR_LOOPBACK), htons(atoi(words[1])), atoi(words[2]),
                            rxnull_NewClientSecurityObject(), RX_SECIDX_NULL);
    began = now();
    used = processor();
    if (!strcmp(what, "echo") && numbers[1] >= 1 && numbers[1] <= RX_MAXCALLS)
        code = echo(numbers[0], numbers[1], numbers[2]);
    else if (!strcmp(what, "up"))
        code = up(numbers[0]);
    else if (!strcmp(what, "down"))
        code = down(numbers[0]);
    else if (!strcmp(what, "both"))
        code = both(numbers[0]);
    else if (!strcmp(what, "slow"))
        code = slow(numbers[0]);
    else if (!strcmp(what, "steady"))
        code = steady(numbers[0], numbers[1]);
    else if (!strcmp(what, "fail"))
        code = PEER_Fail(conn, numbers[0]);
    else if (!strcmp(what, "opcode"))
        code = opcode(numbers[0]);
    else
        return 2;
    if (code)
        printf("code %d", code);
    printf("; %.1f ms, %.1f ms of the processor\n", now() - began, processor() - used);
    rx_DestroyConnection(conn);
    rx_Finalize();
    return code != 0;
}
