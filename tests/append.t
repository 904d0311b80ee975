A sender of a stream: how it goes on over relays that come and go, and what it says at each end.

`relay FRAMES..` plays a relay at the low port, for one connection after the other. Each word is a connection: what it answers to the
HELLO and to each DATA, in turn, as w0 for WELCOME 0, a0 for ACK 0 and r3 for REFUSE with code 3. Then it ends the connection. It prints
the frames that came.

  $ ports=($(python3 -c '
  > import socket
  > ends = [socket.create_server(("127.0.0.1", 0)) for _ in range(2)]
  > print(*[end.getsockname()[1] for end in ends])'))
  $ cat >t.toml <<.
  > [[session]]
  > id = 1
  > low = "weather"
  > high = "watch"
  > capacity = 8
  > message = 8
  > window = 2
  > start = 200
  > longest = 1000
  > resend = 500000
  > low_port = ${ports[0]}
  > high_port = ${ports[1]}
  > .
  $ cat >relay.py <<'.'
  > import socket, struct, sys
  > KINDS = {"w": 2, "a": 4, "r": 5}
  > def take(link, size):
  >     got = b""
  >     while len(got) < size and (more := link.recv(size - len(got))):
  >         got += more
  >     return got
  > door = socket.create_server(("127.0.0.1", int(sys.argv[1])))
  > for connection in sys.argv[2:]:
  >     link, came = door.accept()[0], []
  >     for answer in [*connection.split(","), ""]:
  >         head = take(link, 18)
  >         if len(head) < 18:
  >             break
  >         _, _, kind, session, number, length = struct.unpack(">2sBBIQH", head)
  >         payload = take(link, length).hex()
  >         came.append(f"data {number} {payload}" if kind == 3 else "hello")
  >         if answer:
  >             kind, number = KINDS[answer[0]], int(answer[1:])
  >             refusal = kind == 5
  >             link.sendall(struct.pack(">2sBBIQH", b"NP", 1, kind, session, 0 if refusal else number, int(refusal)) + bytes([number] * refusal))
  >         else:
  >             break
  >     link.close()
  >     print("came:", "; ".join(came), flush=True)
  > .
  $ relay() { python3 relay.py ${ports[0]} "$@" & sleep 0.2; }
  $ all=4294967295

Two lines over one connection.

  $ relay w5,a5,a6 >came; printf '6869\n-\n' | netpump append t.toml 1 $all; wait; cat came
  ack 5
  ack 6
  appended 1 2 7
  came: hello; data 5 6869; data 6 

No line: it asks for the next number, and sends nothing.

  $ relay w5 >came; netpump append t.toml 1 $all </dev/null; wait; cat came
  appended 1 0 5
  came: hello

The connection breaks before a line is accepted, and then behind it. No line goes twice and none is left out, where all are equal.

  $ relay w5 w5,a5 w7,a7 >came; printf '61\n61\n61\n' | netpump append t.toml 1 $all; wait; cat came
  ack 5
  ack 6
  ack 7
  appended 1 3 8
  came: hello; data 5 61
  came: hello; data 5 61; data 6 61
  came: hello; data 7 61

The relay comes later than the sender.

  $ (sleep 1; exec python3 relay.py ${ports[0]} w0,a0 >came) & printf '61\n' | netpump append t.toml 1 $all; wait; cat came
  ack 0
  appended 1 1 1
  came: hello; data 0 61

Nobody is there: the looks are used up.

  $ printf '61\n' | netpump append t.toml 1 20
  appended 1 0 0
  fault unfinished 0
  netpump: message 0 and those after it are not acknowledged: the 20 looks are used up, of which each attempt to connect takes one, each byte that comes, and each wait for a byte; see that the relay of session 1 runs. It may have message 0: append with no input tells which message is next. Append the lines from that one on, with 4294967295 looks
  [12]

Ten milliseconds lie between two attempts, so that many keep no processor busy.

  $ begin=$(date +%s%3N); netpump append t.toml 1 100 </dev/null 2>/dev/null; took=$(( $(date +%s%3N) - begin ))
  appended 1 0 0
  fault unfinished 0
  $ [ $took -ge 900 ] || echo "100 attempts took $took milliseconds"

So do they where each connection is ended at once, as by a forwarder without a relay behind it.

  $ ended=(); for _ in {1..50}; do ended+=(""); done
  $ relay "${ended[@]}" w0 >came; begin=$(date +%s%3N); netpump append t.toml 1 $all </dev/null; took=$(( $(date +%s%3N) - begin )); wait
  appended 1 0 0
  $ sort came | uniq -c | sed 's/^ *//'
  51 came: hello
  $ [ $took -ge 450 ] || echo "50 connections took $took milliseconds"

Looks run out behind the first line.

  $ relay w5,a5 >came; sleep 1; printf '61\n62\n' | netpump append t.toml 1 60; wait; cat came
  ack 5
  appended 1 1 6
  fault unfinished 6
  netpump: message 6 and those after it are not acknowledged: the 60 looks are used up, of which each attempt to connect takes one, each byte that comes, and each wait for a byte; see that the relay of session 1 runs. It may have message 6: append with no input tells which message is next. Append the lines from that one on, with 4294967295 looks
  came: hello; data 5 61; data 6 62

A line is no message.

  $ relay w5,a5 >came; printf '61\n6\n' | netpump append t.toml 1 $all; wait; cat came
  ack 5
  appended 1 1 6
  fault script 2
  netpump: line 2 of standard input is no message; write a message as two hexadecimal digits for each of its 1024 bytes at most, or - for no bytes, in a line of its own that ends with a newline and has no carriage return. Mend it, and append it and the lines behind it: those before it are stored
  came: hello; data 5 61

Somebody else has sent meanwhile.

  $ relay w5 w9 >came; printf '61\n' | netpump append t.toml 1 $all; wait; cat came
  appended 1 0 5
  fault ahead 1 5 9
  netpump: message 5 was under way when the connection broke, and now the relay of session 1 takes message 9 next; see that nobody else sends to this session, and that the relay has its newest disks. netpump messages shows which lines its receiver has; append those that it lacks
  came: hello; data 5 61
  came: hello

The relay refuses.

  $ relay r1 >came; printf '61\n' | netpump append t.toml 1 $all; wait; cat came
  appended 1 0 0
  fault refused 1 0
  netpump: the relay knows session 1 by other names than t.toml has; use the relay's table
  came: hello
  $ relay w5,a5,r3 >came; printf '61\n626262626262626262\n' | netpump append t.toml 1 $all; wait; cat came
  ack 5
  appended 1 1 6
  fault refused 3 0
  netpump: the message after the last one acknowledged above is longer than the relay takes in session 1; append a shorter one in its place and then the lines behind it, or give the session a greater message in the table of both and new disks
  came: hello; data 5 61; data 6 626262626262626262

The output can't be written, or the input be read.

  $ relay w5,a5 >came; printf '61\n' | netpump append t.toml 1 $all >/dev/full; wait
  netpump: standard output could not be written; see that its reader is there, or that its disk has room, and append with no input, to be told which message is next, and then the lines from that one on
  $ relay w5 >came; netpump append t.toml 1 $all <.; wait
  appended 1 0 5
  fault read
  netpump: standard input could not be read to its end; see that it is a file or a pipe, and not a folder. What it said until then is answered above
  $ printf '61\n' | netpump append t.toml 2 $all 2>/dev/null
  fault table 11 2
  [6]

A relay of its own kind, which is killed and started again beside the sender.

  $ netpump format t.toml 1
  formatted 1
  $ serve() { netpump serve t.toml 1 $all >record$1 2>/dev/null & relay=$!; sleep 0.5; }
  $ serve 1; (printf '61\n'; sleep 1; printf '62\n'; sleep 1; printf '63\n') | netpump append t.toml 1 $all & sender=$!
  $ sleep 0.5; kill -9 $relay; wait $relay 2>/dev/null; serve 2; wait $sender
  ack 0
  ack 1
  ack 2
  appended 1 3 3
  $ timeout 5 netpump receive t.toml 1 500 >/dev/null; netpump messages t.toml 1 0; kill $relay
  message 1 0 61
  message 1 1 62
  message 1 2 63
