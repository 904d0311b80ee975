What a relay, its sender and its receiver say on standard error while they work, and what of it is left out.

`peer PORT HEX` sends bytes to a port of the relay and waits until it is dropped. The ports are named LOW and HIGH here. `log` prints
what the relay said, with MOMENT for the moments, and `stop` only whom it dropped and what went wrong.

  $ ports=($(python3 -c '
  > import socket
  > ends = [socket.create_server(("127.0.0.1", 0)) for _ in range(2)]
  > print(*[end.getsockname()[1] for end in ends])'))
  $ cat >t.toml <<.
  > [[session]]
  > id = 1
  > low = "weather"
  > high = "watch"
  > capacity = 8
  > message = 8
  > window = 2
  > start = 200
  > longest = 1000
  > resend = 500000
  > low_port = ${ports[0]}
  > high_port = ${ports[1]}
  > .
  $ peer() {
  >   python3 -c '
  > import socket, sys
  > with socket.create_connection(("127.0.0.1", int(sys.argv[1])), timeout=10) as link:
  >     link.sendall(bytes.fromhex(sys.argv[2]))
  >     while link.recv(100):
  >         pass' "$@"
  > }
  $ serve() { netpump serve t.toml 1 4294967295 2>said & relay=$!; sleep 0.5; }
  $ log() { sed -E "s/^[-0-9]{10}T[:0-9]{8}Z/MOMENT/; s/port ${ports[0]}/port LOW/; s/port ${ports[1]}/port HIGH/" said; }
  $ end() { kill $relay; wait $relay 2>/dev/null; }
  $ stop() { end; log | grep -e ' dropped: ' -e ' ended: ' | cut -d' ' -f2-; }
  $ all=4294967295
  $ netpump format t.toml 1
  formatted 1

`send` says how many lines it passed over.

  $ serve >record
  $ printf '6869\n-\n' | netpump send t.toml 1 $all
  ack 0
  ack 1
  $ printf '6e6577\n' | netpump send t.toml 1 $all
  netpump: nothing was sent: all lines were passed over, 1 in number, since the relay has accepted as many messages before. Lines go by their numbers, whatever they say, so send one list from its first line on, and put what is new behind it
  $ netpump send t.toml 1 $all </dev/null
  $ timeout 5 netpump receive t.toml 1 200
  took 1 0
  took 1 1
  $ printf '6869\n-\n6e6577\n' | netpump send t.toml 1 $all
  ack 2
  netpump: passed over the lines that the relay had accepted before, 2 in number, and sent those behind them

Its state is told while it runs, and the receiver's messages are printed.

  $ netpump status t.toml 1
  status 1 3 2 2 1 8
  $ netpump messages t.toml 1 0
  message 1 0 6869
  message 1 1 -

Its looks may be used up, since each byte of an answer takes one. Then the sentence says so.

  $ printf '6869\n-\n6e6577\n66\n' | netpump send t.toml 1 5
  fault unfinished 0
  netpump: message 0 and those after it are not acknowledged: the 5 looks are used up, of which each byte that comes takes one, and each wait for a byte; send all lines again with 4294967295 looks: those that are stored are passed over
  [12]

A receiver whose disk is too old is told, and so is who looks after the relay.

  $ cp 1.recv older; timeout 5 netpump receive t.toml 1 200 >took; cut -d' ' -f1,2 took | sort -u
  took 1
  $ cp 1.recv newest; cp older 1.recv; netpump receive t.toml 1 $all
  netpump: the relay ended the connection before a message came. If it still runs, it has removed more messages than the file 1.recv has, or has accepted fewer: put back the newest 1.recv, and see that no other receiver has this session
  $ cp newest 1.recv
  $ stop >printed; sed 's/and [0-9]* are removed/and N are removed/' printed
  netpump: the peer at the high port HIGH was dropped: it has 2 messages, and N are removed from the relay; put back the newest file of the receiver

A relay says whom it drops and why.

  $ serve >record
  $ peer ${ports[0]} 00; peer ${ports[1]} 00
  $ peer ${ports[1]} 4e5001070000000100000000000000000000 2>&1 | tail -1
  $ peer ${ports[1]} 4e5001060000000100000000000000ff0000
  $ stop
  netpump: the peer at the low port LOW was dropped: it sent bytes that are no frame; see that Low's sender keeps to the protocol
  netpump: the peer at the high port HIGH was dropped: it sent bytes that are no frame; see that the receiver keeps to the protocol
  netpump: the peer at the high port HIGH was dropped: its first frame was no ATTACH; see that it is a receiver
  netpump: the peer at the high port HIGH was dropped: it says that it has message 254, and message 3 is the next to be sent; see that its file is of this session

Its log says when its sides begin, who comes and who goes, each line with its moment.

  $ serve >record
  $ peer ${ports[1]} 00
  $ netpump send t.toml 1 $all </dev/null
  $ sleep 0.2; end; log | sort | sed 's/was dropped: .*/was dropped: .../'
  MOMENT netpump: the high side of session 1 is ready at port HIGH
  MOMENT netpump: the low side of session 1 is ready at port LOW
  MOMENT netpump: the peer at the high port HIGH came
  MOMENT netpump: the peer at the high port HIGH was dropped: ...
  MOMENT netpump: the peer at the low port LOW came
  MOMENT netpump: the peer at the low port LOW left

Of many that come in one second it leaves some out, and says how many. All nine come and are dropped.

  $ serve >record
  $ for n in 1 2 3 4 5 6 7 8; do peer ${ports[1]} 00; done; sleep 1.1; peer ${ports[1]} 00
  $ end; log | awk '/ left out$/ { lines += $3 } / the high port HIGH (came|was dropped)/ { lines++ } END { print lines }'
  18

A side that ends early says so at once and closes its port. The other side goes on.

  $ serve >/dev/full
  $ printf '6869\n' | netpump send t.toml 1 $all 2>/dev/null
  fault link
  [9]
  $ timeout 5 netpump receive t.toml 1 100
  $ stop
  netpump: the low side of session 1 has ended: the record could not be written; see that its disk has room, or that its reader is there. Its port LOW is closed, and the high side goes on to its own end; stop this relay and start it again

So does the high side, here where no file may be written.

  $ serve >record
  $ printf '6869\n-\n6e6577\n66\n' | netpump send t.toml 1 $all 2>/dev/null
  ack 3
  $ stop
  $ mkfifo out err; cat out >record & cat err >said &
  $ (trap '' XFSZ; ulimit -f 0; exec netpump serve t.toml 1 $all >out 2>err) & relay=$!; sleep 0.5
  $ timeout 5 netpump receive t.toml 1 200
  took 1 3
  $ netpump receive t.toml 1 $all 2>/dev/null
  fault link
  [9]
  $ stop
  netpump: the high side of session 1 has ended: a call of its file 1.high failed; see that the file's disk has room and works. Its port HIGH is closed, and the low side goes on to its own end; stop this relay and start it again

When the buffer is full for more than a second it says so, and when it has room again.

  $ serve >record
  $ printf '6869\n-\n6e6577\n66\n67\n68\n69\n6a\n6b\n6c\n6d\n6e\n6f\n' | netpump send t.toml 1 $all >acks 2>&1 & sleep 1.5
  $ timeout 5 netpump receive t.toml 1 200 >took; wait $!; end; log | grep buffer | sed 's/for [0-9]* seconds/for SECONDS seconds/'
  MOMENT netpump: the buffer of session 1 has been full for a second, and Low waits; see that the receiver runs and keeps up
  MOMENT netpump: the buffer of session 1 has room again; it was full for SECONDS seconds
