/* What the peers share: the bytes of a stream and their sum, and two functions that OpenAFS's library wants. */
#include <roken.h>
#include <afs/param.h>
#include <sys/random.h>
#include "peer.h"

enum { PEER_SERVICE = 60, BLOCK = 65536 };

/* The byte at a place of every stream that the peers make. */
static inline unsigned char byte_at(afs_uint32 place)
{
    return (unsigned char)((place * 2654435761u) >> 23);
}

static inline void fill(unsigned char *to, afs_uint32 from, afs_uint32 count)
{
    for (afs_uint32 i = 0; i < count; i++)
        to[i] = byte_at(from + i);
}

/* The sum of bytes behind a sum, FNV-1a by words of four bytes and then by bytes. All but the last share of a stream
   have a multiple of four bytes. */
static inline afs_uint32 sum_of(afs_uint32 sum, const unsigned char *bytes, afs_uint32 count)
{
    afs_uint32 at = 0, word;
    for (; at + 4 <= count; at += 4) {
        memcpy(&word, bytes + at, 4);
        sum = (sum ^ word) * 16777619u;
    }
    for (; at < count; at++)
        sum = (sum ^ bytes[at]) * 16777619u;
    return sum;
}

/* The sum of no bytes. */
enum { NO_SUM = (int)2166136261u };

/* Debian's libafsrpc.a is linked without the library that has these. */
int hc_RAND_bytes(void *to, int count)
{
    return getrandom(to, (size_t)count, 0) == count;
}

int rk_socket(int domain, int type, int protocol)
{
    return socket(domain, type, protocol);
}
