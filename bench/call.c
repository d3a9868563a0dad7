/* What rx_call_bench does to the bytes, in plain C: copies each piece of a stream three times, from the writer into a
   slot, from there into a slot of the other end, and from there to the reader. Prints the same checksum. */
#include <stdint.h>
#include <stdio.h>
#include <stdlib.h>
#include <string.h>

enum { PIECE_BYTES = 1412, SLOT_BYTES = 1444, OFFER = 4096, CYCLE = 251, PERIOD = 256 * CYCLE };

static uint8_t block[PERIOD + OFFER], to[OFFER];

__attribute__((noinline)) static void copy(uint8_t *to, const uint8_t *from, size_t count) {
    memcpy(to, from, count);
}

__attribute__((noinline)) static uint64_t fold(uint64_t sum, const uint8_t *bytes, size_t count) {
    for (size_t place = 0; place < count; place++)
        sum = sum * 31 + bytes[place];
    return sum;
}

int main(int argc, char **argv) {
    if (argc != 3)
        return 1;
    uint64_t bytes = strtoull(argv[1], NULL, 10);
    size_t window = strtoul(argv[2], NULL, 10);
    uint8_t *said = malloc((window + 1) * SLOT_BYTES), *heard = malloc((window + 1) * SLOT_BYTES);
    if (!said || !heard)
        return 1;
    for (size_t place = 0; place < sizeof block; place++)
        block[place] = place % CYCLE;
    uint64_t sum = 0;
    for (uint64_t done = 0, piece = 0; done < bytes; piece++) {
        size_t count = bytes - done < PIECE_BYTES ? bytes - done : PIECE_BYTES;
        size_t slot = piece % (window + 1) * SLOT_BYTES;
        copy(said + slot, block + done % PERIOD, count);
        copy(heard + slot, said + slot, count);
        copy(to, heard + slot, count);
        sum = fold(sum, to, count);
        done += count;
    }
    printf("%llu\n", (unsigned long long)sum);
    return 0;
}
