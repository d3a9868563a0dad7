# Prints a plan of so many calls of four clients in turn: awk -v kind=lines -v calls=1111 -f bench/plan.awk
# Of kind lines: each call is made line by line, with a poll and a deliver line for each of its datagrams, 9 of each for
# two calls; every second request has two pieces. Of kind invokes: each call is an invoke line with its rounds behind it.
BEGIN {
  print "server 10.0.0.1:7000"
  for (n = 1; n <= 4; n++) printf "client 10.0.0.%d:7001 epoch=%d\n", n + 1, n
  for (n = 1; n <= 4; n++) print "connect c" n
  for (k = 1; k <= calls; k++) {
    client = "c" (k % 4 + 1)
    if (kind == "lines") by_lines(k, client, k % 2 + 1)
    else invoke(client)
  }
  print "ask #" calls
}
function invoke(client) {
  printf "invoke %s 4 FetchStatus [{\"Volume\":1,\"Vnode\":2,\"Unique\":3},\"a\",420]\nrounds 20\n", client
}
function by_lines(k, client, pieces) {
  print "call " client " 4"
  if (pieces == 2) print "write #" k " 1413*5a"
  print "shut #" k
  polls(client, pieces)
  deliveries(pieces)
  print "accept\nread @" k " 2000"
  if (pieces == 2) print "read @" k " 2000"
  print "finish @" k " 0"
  # the reply, and the ACK of the request
  polls("s", 2)
  deliveries(1)
  print "read #" k " 16"
  deliveries(1)
  # the ACKALL
  polls(client, 1)
  deliveries(1)
}
function polls(node, count) {
  for (; count > 0; count--) print "poll " node
}
function deliveries(count) {
  for (; count > 0; count--) print "deliver %" ++given
}
