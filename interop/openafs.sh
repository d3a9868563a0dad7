#!/usr/bin/env bash
# Calls between the program and OpenAFS, on loopback: interop/openafs.sh [PROGRAM]
# 1. A C client and a C server on OpenAFS's own Rx library, with the interface peer.xg, straight and over a bad network.
# 2. OpenAFS's servers, called by `rx call` with the interface files of examples/afs.
# 3. OpenAFS's programs bos, pts, vos and cmdebug, answered by `rx serve` with the scripts of examples/afs.
# Prints a line for each check, and how many passed and failed. Wants root, and Debian's packages libopenafs-dev,
# openafs-client, openafs-dbserver and openafs-fileserver; where one of these is missing it says so in one line and ends
# well. Everything runs in a network and a mount namespace of its own, so nothing but this machine is spoken to; what is
# started is ended by its process id.
set -u
here=$(cd "$(dirname "$0")" && pwd)
top=$(dirname "$here")
# shellcheck source=started.sh
. "$here/started.sh"
PACKAGES='libopenafs-dev openafs-client openafs-dbserver openafs-fileserver'
CELL=127.1.0.1

skip() {
    echo "skipped, as $1: calls between the program and OpenAFS"
    exit 0
}

if [ "${1:-}" != --inside ]; then
    for package in $PACKAGES; do
        [ "$(dpkg-query -W -f '${db:Status-Status}' "$package" 2>/dev/null)" = installed ] ||
            skip "the package $package is not installed"
    done
    for tool in cc ip unshare; do
        command -v "$tool" >/dev/null || skip "$tool is not there"
    done
    [ "$(id -u)" = 0 ] || skip 'it does not run as root'
    unshare -n -m true 2>/dev/null || skip 'no namespaces can be made'
    exec unshare -n -m "$BASH" "$0" --inside "$(program "$@")"
fi

RX=$2
work=$(mktemp -d)
passed=0 failed=0 made_vicepa=no

finish() {
    end_all
    umount /etc/openafs /var/lib/openafs /var/log/openafs /etc/hosts /vicepa 2>/dev/null
    [ "$made_vicepa" = no ] || rmdir /vicepa
    rm -rf "$work"
}
trap finish EXIT
trap 'exit 1' INT TERM

# check WHAT WANTED COMMAND..: WANTED is a pattern of the shell for all that the command prints.
check() {
    local what=$1 wanted=$2 got
    shift 2
    got=$("$@" 2>&1 </dev/null)
    # shellcheck disable=SC2053
    if [[ $got == $wanted ]]; then
        passed=$((passed + 1))
        echo "passed: $what"
    else
        failed=$((failed + 1))
        echo "failed: $what: ${got:0:300}, and not ${wanted:0:300}"
    fi
}

# call XG PROC ARGS PORT SERVICE [OPTION..]: `rx call` to a server on 127.0.0.1.
call() {
    local xg=$1 proc=$2 args=$3 port=$4 service=$5
    shift 5
    timeout 120 "$RX" call "$xg" "$proc" "$args" --to "127.0.0.1:$port" --service "$service" --epoch "$(epoch)" "$@"
}

# client PORT SERVICE WHAT [NUMBER..]: the C client.
client() {
    timeout 120 "$work/peers/client" "$@"
}

# A text of so many bytes 5a in hex.
hex_of_bytes() {
    head -c "$1" /dev/zero | tr '\0' Z | sed 's/Z/5a/g'
}

# The program's client and a server on OpenAFS's Rx, by port.
calls_to_peer() {
    local port=$1 how=$2 xg=$here/peer.xg
    check "call: echo$how" 'ok \["00017f80ff"\]' call "$xg" Echo '["00017f80ff"]' "$port" 60
    check "call: 50,000 bytes as an argument and back$how" "ok \[\"$(hex_of_bytes 50000)\"\]" \
        call "$xg" Echo "[\"$(hex_of_bytes 50000)\"]" "$port" 60
    check "call: 300,000 bytes up$how" 'ok \[300000,1424210764\]' call "$xg" Up '[7]' "$port" 60 --up "$work/bytes"
    check "call: 300,000 bytes down$how" "ok \[1424210764\] down $(od -An -v -tx1 "$work/bytes" | tr -d ' \n')" \
        call "$xg" Down '[300000]' "$port" 60 --down yes
}

# What an OpenAFS server refuses, and a handler that takes longer than the 12 s after which a silent call is dead.
refusals_by_peer() {
    local xg=$here/peer.xg
    printf 'package ODD_ Missing() = 99; Cut() = 1;' >"$work/odd.xg"
    check 'call: a code of the handler' 'rx: aborted 77' call "$xg" Fail '[77]' 7900 60
    check 'call: an opcode that the server lacks' 'rx: aborted -455' call "$work/odd.xg" Missing '[]' 7900 60
    check 'call: arguments that are missing' 'rx: aborted -453' call "$work/odd.xg" Cut '[]' 7900 60
    check 'call: a service that the server lacks' 'rx: aborted -2' call "$xg" Echo '[""]' 7900 61
    check 'call: a handler that takes 15 s' 'ok \[30\]' call "$xg" Slow '[15]' 7900 60
}

# A client on OpenAFS's Rx and the program's server, by port.
calls_to_us() {
    local port=$1 how=$2 echoes=$3
    check "serve: $echoes echoes on four channels$how" "ok $echoes echoes, 0 wrong;*" \
        client "$port" 60 echo "$echoes" 4 20
    check "serve: an echo of 50,000 bytes$how" 'ok 1 echoes, 0 wrong;*' client "$port" 60 echo 1 1 50000
    check "serve: 1,000,000 bytes up$how" 'ok up 1000000, sum 3833402159 of 3833402159;*' \
        client "$port" 60 up 1000000
    check "serve: 1,000,000 bytes down$how" 'ok down 1000000, sum 2488930629 of 2488930629;*' \
        client "$port" 60 down 1000000
    check "serve: 1,000,000 bytes up and down again$how" \
        'ok both 1000000 of 1000000, sum 3833402159 of 3833402159;*' client "$port" 60 both 1000000
}

refusals_by_us() {
    check 'serve: a code of the script' 'code 77;*' client 7910 60 fail 77
    check 'serve: an opcode that the interface lacks' 'code -455;*' client 7910 60 opcode 99
    check 'serve: arguments that are missing' 'code -453;*' client 7910 60 opcode 1
    check 'serve: another service' 'code -2;*' client 7910 61 echo 1 1 1
    check 'serve: a handler that waits' 'ok slow 30;*' client 7910 60 slow 15
}

# Calls whose datagrams are jumbograms where the peer takes them: the program's join up to four packets, OpenAFS's own
# size is what the peer's acknowledgements allow.
jumbograms() {
    start_ready jumbo_peer "$work/peers/server" 7903 jumbo
    serve jumbo_ours "$here/peer.xg" "$here/peer.script" 127.0.0.1:7913 60 --jumbo 4
    check 'call: 300,000 bytes up in jumbograms' 'ok \[300000,1424210764\]' \
        call "$here/peer.xg" Up '[7]' 7903 60 --up "$work/bytes" --jumbo 4
    check 'call: 300,000 bytes down, jumbograms allowed' 'ok \[1424210764\] down *' \
        call "$here/peer.xg" Down '[300000]' 7903 60 --down yes --jumbo 4
    export JUMBO=yes
    check 'serve: 1,000,000 bytes up and down again in jumbograms' \
        'ok both 1000000 of 1000000, sum 3833402159 of 3833402159;*' client 7913 60 both 1000000
    unset JUMBO
    end jumbo_peer
    end jumbo_ours
}

# Clients that make one call each and are gone. The last words of a call from OpenAFS's client leave it unfinished here
# for 12 s, so a server of many such clients has to have room for more live calls than the 64 of its default.
clients_of_one_call() {
    local all=0
    for _ in {1..80}; do
        all=$((all + $(client 7912 60 echo 1 1 20 | grep -c '^ok 1 echoes, 0 wrong')))
    done
    echo "$all of 80"
}

peers() {
    local name
    "$here/build.sh" "$work/peers" >"$work/build" 2>&1 || { cat "$work/build"; failed=$((failed + 1)); return; }
    "$work/peers/client" 0 0 bytes 300000 >"$work/bytes" 2>/dev/null
    start_ready peer "$work/peers/server" 7900
    start_ready to_peer "$work/peers/proxy" 7901 7900 1
    serve ours "$here/peer.xg" "$here/peer.script" 127.0.0.1:7910 60
    start_ready to_us "$work/peers/proxy" 7911 7910 2
    calls_to_peer 7900 ''
    refusals_by_peer
    check 'serve: a call behind more than 12 s without one' 'ok 1 echoes, 0 wrong;*' client 7910 60 echo 1 1 20
    calls_to_us 7910 '' 2000
    refusals_by_us
    serve many "$here/peer.xg" "$here/peer.script" 127.0.0.1:7912 60 --calls 256
    check 'serve: 80 clients of one call each' '80 of 80' clients_of_one_call
    end many
    jumbograms
    calls_to_peer 7901 ', over a bad network'
    calls_to_us 7911 ', over a bad network' 40
    for name in to_peer to_us; do
        end "$name"
        echo "the bad network: $(tail -n 1 "$work/$name.out")"
    done
    end peer
    end ours
}

# A cell of one machine. Ubik takes no address of a loopback interface for its own, but it takes one of a veth pair.
set_up_cell() {
    local folder
    ip link set lo up && ip link add cell0 type veth peer name cell1 && ip link set cell0 up && ip link set cell1 up &&
        ip addr add "$CELL/32" dev cell0 || return
    mkdir -p "$work"/cell/{etc/server,var/db,var/local,log,vicepa}
    chmod 700 "$work"/cell/var/{db,local}
    for folder in "$work"/cell/etc "$work"/cell/etc/server; do
        echo test.local >"$folder/ThisCell"
        printf '>test.local\n%s #db.test.local\n' "$CELL" >"$folder/CellServDB"
    done
    : >"$work/cell/etc/server/UserList"
    : >"$work/cell/var/local/NoAuth"
    : >"$work/cell/vicepa/AlwaysAttach"
    printf '127.0.0.1 localhost\n%s db.test.local %s\n' "$CELL" "$(hostname)" >"$work/cell/hosts"
    mkdir /vicepa 2>/dev/null && made_vicepa=yes
    mount --bind "$work/cell/hosts" /etc/hosts && mount --bind "$work/cell/etc" /etc/openafs &&
        mount --bind "$work/cell/var" /var/lib/openafs && mount --bind "$work/cell/log" /var/log/openafs &&
        mount --bind "$work/cell/vicepa" /vicepa
}

# Tries a command until it succeeds, for half a minute.
until_done() {
    for _ in {1..60}; do
        timeout 20 "$@" >"$work/last" 2>&1 && return
        sleep 0.5
    done
    cat "$work/last"
    return 1
}

# The servers with a process to watch, a user, a group and a volume. A server of a database takes writes only once it
# has elected itself; a file server that is started before wants some minutes.
start_cell() {
    start bosserver /usr/sbin/bosserver -noauth -nofork
    start ptserver /usr/lib/openafs/ptserver
    start vlserver /usr/lib/openafs/vlserver -noauth
    until_done bos create "$CELL" nightly cron /bin/true 'sun 4:00' -noauth &&
        until_done pts createuser alice -id 1001 -noauth &&
        until_done pts creategroup alice:friends -owner alice -noauth &&
        until_done pts adduser alice alice:friends -noauth &&
        until_done vos listvldb -noauth || return
    start fileserver /usr/lib/openafs/fileserver -L
    start volserver /usr/lib/openafs/volserver
    until_done vos create "$CELL" a root.cell -noauth
}

# A text as the JSON of so many chars.
chars() {
    local text=$1 size=$2 at out=
    for ((at = 0; at < size; at++)); do
        if [ "$at" -lt "${#text}" ]; then
            out+=,$(printf %d "'${text:at:1}")
        else
            out+=,0
        fi
    done
    echo "[${out:1}]"
}

calls_to_bosserver() {
    local xg=$top/examples/afs/bos.xg
    check 'bosserver: GetCellName' 'ok \["test.local"\]' call "$xg" GetCellName '[]' 7007 1
    check 'bosserver: GetCellHost' 'ok \["db.test.local"\]' call "$xg" GetCellHost '[0]' 7007 1
    check 'bosserver: GetCellHost of a host that is not there' 'rx: aborted 39429' call "$xg" GetCellHost '[9]' 7007 1
    check 'bosserver: EnumerateInstance' 'ok \["nightly"\]' call "$xg" EnumerateInstance '[0]' 7007 1
    check 'bosserver: GetInstanceInfo' 'ok \["cron",{"errorCode":0,"errorSignal":0,"fileGoal":1,"flags":0,"goal":1,*' \
        call "$xg" GetInstanceInfo '["nightly"]' 7007 1
    check 'bosserver: GetStatus' 'ok \[1,"run next at Sun *"\]' call "$xg" GetStatus '["nightly"]' 7007 1
    check 'bosserver: GetRestartTime' 'ok \[{"day":0,"hour":*,"mask":*,"min":*,"sec":*}\]' \
        call "$xg" GetRestartTime '[1]' 7007 1
}

calls_to_ptserver() {
    local xg=$top/examples/afs/pt.xg
    check 'ptserver: ListMax' 'ok \[1001,-206\]' call "$xg" ListMax '[]' 7002 73
    check 'ptserver: NameToID' 'ok \[\[1001,-206,32766\]\]' \
        call "$xg" NameToID "[[$(chars alice 64),$(chars alice:friends 64),$(chars nobody 64)]]" 7002 73
    check 'ptserver: IDToName' "ok \[\[${alice},*,0\]\]\]" call "$xg" IDToName '[[1001,-206]]' 7002 73
    check 'ptserver: ListElements' 'ok \[\[1001\],0\]' call "$xg" ListElements '[-206]' 7002 73
    check 'ptserver: ListEntry' "ok \[{*\"id\":1001,\"name\":${alice},*}\]" call "$xg" ListEntry '[1001]' 7002 73
    check 'ptserver: ListEntry of a user that is not there' 'rx: aborted 267268' call "$xg" ListEntry '[1999]' 7002 73
}

calls_to_vlserver() {
    local xg=$top/examples/afs/vl.xg volume=536870912
    check 'vlserver: ProbeServer' 'ok \[\]' call "$xg" ProbeServer '[]' 7003 52
    check 'vlserver: GetEntryByNameN' "ok \[{*\"name\":$root_cell,*\"volumeId\":\[$volume,*\]}\]" \
        call "$xg" GetEntryByNameN '["root.cell"]' 7003 52
    check 'vlserver: GetEntryByNameN of a volume that is not there' 'rx: aborted 363524' \
        call "$xg" GetEntryByNameN '["none"]' 7003 52
    check 'vlserver: ListAttributesN2' "ok \[1,\[{*\"name\":$root_cell,*\"volumeId\":\[$volume,*\]}\],-1\]" \
        call "$xg" ListAttributesN2 \
        '[{"Mask":0,"server":0,"partition":0,"spares3":0,"volumeid":0,"flag":0},".*",0]' 7003 52
    check 'vlserver: GetAddrs' 'ok \[{*},1,\[*\]\]' call "$xg" GetAddrs '[0,0]' 7003 52
    check 'vlserver: DISK_Probe' 'ok \[\]' call "$top/examples/afs/disk.xg" Probe '[]' 7003 51
    check 'vlserver: DISK_GetFile, a download' "ok \[{\"counter\":*,\"epoch\":*}\] down $(od -An -v -tx1 \
        -j64 "$work/cell/var/db/vldb.DB0" | tr -d ' \n')" \
        call "$top/examples/afs/disk.xg" GetFile '[0]' 7003 51 --down yes
    check 'vlserver: RXSTATS_QueryRPCStatsVersion' 'ok \[1\]' \
        call "$top/examples/afs/stats.xg" QueryRPCStatsVersion '[]' 7003 409
}

calls_to_volserver() {
    local xg=$top/examples/afs/vol.xg name
    name=$(chars root.cell 32)
    check 'volserver: XListPartitions' 'ok \[\[0\]\]' call "$xg" XListPartitions '[]' 7005 4
    check 'volserver: ListOneVolume' "ok \[\[{*\"name\":${name//[/\\[},*\"volid\":536870912}\]\]" \
        call "$xg" ListOneVolume '[0,536870912]' 7005 4
    check 'volserver: Monitor' 'ok \[\[\]\]' call "$xg" Monitor '[]' 7005 4
    check 'volserver: PartitionInfo64' 'ok \[{"devName":\[47,118,105,99,101,112,97,47,*\],"free":*,"lock_fd":-1,*}\]' \
        call "$xg" PartitionInfo64 '["/vicepa"]' 7005 4
}

# A bos that prints times in one zone.
bos_status() {
    TZ=UTC timeout 120 bos status "$CELL" -long -noauth
}

programs() {
    serve bos "$top/examples/afs/bos.xg" "$top/examples/afs/bos.script" "$CELL:7007" 1
    serve pt "$top/examples/afs/pt.xg" "$top/examples/afs/pt.script" "$CELL:7002" 73
    serve vol "$top/examples/afs/vol.xg" "$top/examples/afs/vol.script" "$CELL:7005" 4
    serve cb "$top/examples/afs/cb.xg" "$top/examples/afs/cb.script" "$CELL:7001" 1
    check 'bos status' "Instance nightly, (type is cron) currently running normally.
    Auxiliary status is: run next at Sun Nov 29 04:00:00 2026.
    Command 1 is '/bin/true'" bos_status
    check 'pts listmax' 'Max user id is 1002 and max group id is -207.' timeout 120 pts listmax -noauth
    check 'pts listentries' 'Name *ID *Owner *Creator*
alice *1001 *-204 *32766 *
bob *1002 *-204 *32766*' timeout 120 pts listentries -users -noauth
    check 'vos status' '*Total transactions: 1
*transaction: 7 *
*volume: 536870912 *partition: /vicepa *procedure: Dump
*' timeout 120 vos status "$CELL" -noauth
    check 'vos listpart' 'The partitions on the server are:
*/vicepa*/vicepb*
Total: 2' timeout 120 vos listpart "$CELL" -noauth
    check 'vos partinfo' 'Free space on partition /vicepa: 5000000000 K blocks out of total 6000000000' \
        timeout 120 vos partinfo "$CELL" a -noauth
    check 'cmdebug -addrs' 'UUID: 6553f100-1a2b-1abc-80-01-020000000001
Host interfaces:
127.1.0.1, netmask 255.255.255.255, MTU 1500
Capabilities:
Error Translation' timeout 120 cmdebug "$CELL" -addrs
    check 'cmdebug -cache' 'Chunk files: *0
Stat caches: *0
*
Cache type: *memory' timeout 120 cmdebug "$CELL" -cache
    check 'cmdebug -cellservdb' '>test.local *#test.local
127.1.0.1 *#db.test.local' timeout 120 cmdebug "$CELL" -cellservdb
    end bos
    end pt
    end vol
    end cb
}

servers() {
    local alice root_cell name
    alice=$(chars alice 64)
    root_cell=$(chars root.cell 65)
    alice=${alice//[/\\[} root_cell=${root_cell//[/\\[}
    if ! start_cell; then
        failed=$((failed + 1))
        echo 'failed: the servers of OpenAFS do not start'
        return
    fi
    calls_to_bosserver
    calls_to_ptserver
    calls_to_vlserver
    calls_to_volserver
    for name in volserver fileserver vlserver ptserver bosserver; do
        end "$name"
    done
}

# The opcodes of the interface files are those of OpenAFS's headers.
opcodes() {
    local pair header xg
    for pair in bos:afs/bosint pt:afs/ptint vl:afs/vldbint vol:afs/volint cb:afs/afscbint disk:ubik_int \
        stats:rx/rxstat; do
        xg=$top/examples/afs/${pair%%:*}.xg header=/usr/include/${pair#*:}.h
        "$RX" compile "$xg" | awk '$1 == "interface" { of = $2 } $1 == "proc" { print of $3, $2 }' | sort >"$work/ours"
        sed -nE 's/^#define opcode_(\w+) .*OpCodeIndex\(([0-9]+)\).*/\1 \2/p' "$header" | sort >"$work/theirs"
        check "opcodes of ${xg##*/}, by ${header##*/}" '[1-9]* opcodes, 0 others' counted_opcodes
    done
}

counted_opcodes() {
    echo "$(wc -l <"$work/ours") opcodes, $(comm -23 "$work/ours" "$work/theirs" | wc -l) others"
}

if ! set_up_cell 2>"$work/cell.err"; then
    echo "skipped, as no network of its own can be made ($(tail -n 1 "$work/cell.err"))"
    exit 0
fi
opcodes
peers
servers
programs
echo "$passed passed, $failed failed"
[ "$failed" = 0 ]
