/* A server of peer.xg on OpenAFS's Rx: server PORT [jumbo]
   It listens on 127.0.0.1 alone, and serves until it is ended. */
#include "common.h"
#include <stdlib.h>

enum { NO_SPACE = 28 };

/* Reads a counted stream, and adds its bytes to *to where that is asked. */
static int read_counted(struct rx_call *call, afs_uint32 *size, afs_uint32 *sum, unsigned char **to)
{
    afs_uint32 word, at = 0;
    unsigned char block[BLOCK];
    if (rx_Read(call, (char *)&word, 4) != 4)
        return RXGEN_SS_UNMARSHAL;
    *size = ntohl(word);
    *sum = NO_SUM;
    if (to && !(*to = malloc(*size + 1)))
        return NO_SPACE;
    while (at < *size) {
        int part = *size - at < BLOCK ? *size - at : BLOCK;
        if (rx_Read(call, (char *)block, part) != part)
            return RXGEN_SS_UNMARSHAL;
        *sum = sum_of(*sum, block, part);
        if (to)
            memcpy(*to + at, block, part);
        at += part;
    }
    return 0;
}

/* Writes a counted stream: these bytes, or where there are none those of every stream. */
static int write_counted(struct rx_call *call, afs_uint32 size, afs_uint32 *sum, const unsigned char *from)
{
    afs_uint32 word = htonl(size), at = 0;
    unsigned char block[BLOCK];
    if (rx_Write(call, (char *)&word, 4) != 4)
        return RXGEN_SS_MARSHAL;
    *sum = NO_SUM;
    while (at < size) {
        int part = size - at < BLOCK ? size - at : BLOCK;
        if (from)
            memcpy(block, from + at, part);
        else
            fill(block, at, part);
        *sum = sum_of(*sum, block, part);
        if (rx_Write(call, (char *)block, part) != part)
            return RXGEN_SS_MARSHAL;
        at += part;
    }
    return 0;
}

afs_int32 SPEER_Echo(struct rx_call *call, PeerBody *body, PeerBody *same)
{
    if (!(same->PeerBody_val = malloc(body->PeerBody_len + 1)))
        return NO_SPACE;
    same->PeerBody_len = body->PeerBody_len;
    memcpy(same->PeerBody_val, body->PeerBody_val, body->PeerBody_len);
    return 0;
}

afs_int32 SPEER_Up(struct rx_call *call, afs_uint32 mark, afs_uint32 *size, afs_uint32 *sum)
{
    return read_counted(call, size, sum, NULL);
}

afs_int32 SPEER_Down(struct rx_call *call, afs_uint32 size, afs_uint32 *sum)
{
    return write_counted(call, size, sum, NULL);
}

afs_int32 SPEER_Both(struct rx_call *call, afs_uint32 mark, afs_uint32 *size)
{
    unsigned char *bytes = NULL;
    afs_uint32 sum;
    int code = read_counted(call, size, &sum, &bytes);
    if (!code)
        code = write_counted(call, *size, &sum, bytes);
    free(bytes);
    return code;
}

afs_int32 SPEER_Slow(struct rx_call *call, afs_uint32 seconds, afs_uint32 *twice)
{
    sleep(seconds);
    *twice = 2 * seconds;
    return 0;
}

afs_int32 SPEER_Fail(struct rx_call *call, afs_int32 code)
{
    return code;
}

int main(int count, char **words)
{
    struct rx_securityClass *none = rxnull_NewServerSecurityObject();
    struct rx_service *service;
    if (count < 2)
        return 2;
    if (count < 3)
        rx_SetNoJumbo();
    if (rx_InitHost(htonl(INADDR_LOOPBACK), htons(atoi(words[1]))))
        return 1;
    service = rx_NewService(0, PEER_SERVICE, "peer", &none, 1, PEER_ExecuteRequest);
    if (!service)
        return 1;
    rx_SetMinProcs(service, 2);
    rx_SetMaxProcs(service, 8);
    printf("ready\n");
    fflush(stdout);
    rx_StartServer(1);
    return 0;
}
