#!/bin/sh
# Builds the peers into a folder: build.sh FOLDER. Wants cc and OpenAFS's rxgen, headers and libafsrpc.a.
set -e
from=$(cd "$(dirname "$0")" && pwd)
mkdir -p "$1" && cd "$1"
# Two headers that rxgen's output includes and that Debian's package is without.
: >afsconfig.h
for header in arpa/inet.h netinet/in.h stdio.h string.h sys/socket.h sys/types.h unistd.h; do
    echo "#include <$header>"
done >roken.h
cp "$from/peer.xg" .
rxgen peer.xg
for peer in client.cs server.ss; do
    cc -O3 -w -DAFS_PTHREAD_ENV -I. -I"$from" "$from/${peer%.*}.c" "peer.${peer#*.}.c" peer.xdr.c -o "${peer%.*}" \
        -lafsrpc -lpthread -lresolv
done
for tool in proxy flood endless; do
    cc -O2 -Wall -Wextra "$from/$tool.c" -o "$tool"
done
