/* The same work as the program xdr_code_bench, by the code that rpcgen makes.
 * Arguments: decode|encode status|opaque|ints SIZE ROUNDS. Prints the same checksum. */
#include <stdint.h>
#include <stdio.h>
#include <stdlib.h>
#include <string.h>
#include <rpc/rpc.h>
#include "types.h"

static xdrproc_t proc_of(const char *name) {
  if (strcmp(name, "status") == 0) return (xdrproc_t)xdr_statuses;
  if (strcmp(name, "opaque") == 0) return (xdrproc_t)xdr_blob;
  if (strcmp(name, "ints") == 0) return (xdrproc_t)xdr_ints;
  return NULL;
}

static size_t words_of(const char *name, size_t size) {
  if (strcmp(name, "opaque") == 0) return (size + 3) / 4;
  if (strcmp(name, "status") == 0) return size * 21;
  return size;
}

static void put(unsigned char *at, uint32_t n) {
  at[0] = n >> 24; at[1] = n >> 16; at[2] = n >> 8; at[3] = n;
}

static uint64_t sum(const unsigned char *bytes, size_t n) {
  uint64_t total = 0;
  for (size_t i = 0; i < n; i++) total = total * 31 + bytes[i];
  return total;
}

union any { statuses s; blob b; ints i; };

int main(int argc, char **argv) {
  if (argc != 5) return 1;
  const char *name = argv[2];
  size_t size = strtoul(argv[3], NULL, 10);
  size_t rounds = strtoul(argv[4], NULL, 10);
  xdrproc_t proc = proc_of(name);
  if (!proc) return 1;
  size_t words = words_of(name, size), len = 4 + 4 * words;
  unsigned char *bytes = calloc(len, 1), *out = malloc(len);
  put(bytes, size);
  uint32_t word = 1;
  for (size_t i = 0; i < words; i++) put(bytes + 4 + 4 * i, word *= 2654435761u);
  if (strcmp(name, "opaque") == 0) memset(bytes + 4 + size, 0, len - 4 - size);
  uint64_t check = 0;
  XDR x;
  union any value;
  if (strcmp(argv[1], "decode") == 0) {
    for (size_t r = 0; r < rounds; r++) {
      memset(&value, 0, sizeof value);
      xdrmem_create(&x, (char *)bytes, len, XDR_DECODE);
      if (!proc(&x, &value, 0)) return 1;
      check += xdr_getpos(&x);
      xdr_free(proc, (char *)&value);
    }
  } else {
    memset(&value, 0, sizeof value);
    xdrmem_create(&x, (char *)bytes, len, XDR_DECODE);
    if (!proc(&x, &value, 0)) return 1;
    for (size_t r = 0; r < rounds; r++) {
      xdrmem_create(&x, (char *)out, len, XDR_ENCODE);
      if (!proc(&x, &value, 0)) return 1;
      check += xdr_getpos(&x);
    }
    check += sum(out, len);
  }
  printf("%llu\n", (unsigned long long)check);
  return 0;
}
