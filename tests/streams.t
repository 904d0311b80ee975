Streams and files that fail: what a shell can bring about.

What the program says on standard error is left out; sentences.t has it.

  $ netpump() { command netpump "$@" 2>/dev/null; }

A script in which message 0 is stored and acknowledged, and `limited`, which lets no file grow beyond 1,024 bytes.

  $ cat >script <<.
  > session 1 3 8 2 20000 100000 500000 weather watch
  > look 1 10 00000000 hello weather watch
  > look 1 100 00000000 data 0 61
  > look 1 100 00000000
  > look 1 177 00000000
  > look 1 178 00000000
  > .
  $ anew() { rm -rf *.low *.high *.recv; }
  $ limited() { (trap '' XFSZ; ulimit -f 1; "$@"); }

The disk of the output is full: nothing is printed, and what was done is on the disks, so the script goes on from there.

  $ netpump replay <script >/dev/full
  [4]
  $ netpump replay <script
  low 1 10 welcome 1
  repeat 1 100 0 20000
  low 1 178 ack 0
  end 1 1 0 0

So it is of an exercise and of a race.

  $ anew; netpump exercise 0 1 >/dev/full
  [4]
  $ netpump race 0 3 50 >/dev/full
  [4]

The reader of the output goes away after a line.

  $ anew; { head -n 4 script; echo look 1 200 00000000 data 1 62; yes 'look 1 200 00000000' | head -n 100000; } >long
  > netpump replay <long | head -n 1; echo ${PIPESTATUS[0]}
  low 1 10 welcome 0
  4
  $ netpump race 0 5000 50 | head -n 1; echo ${PIPESTATUS[0]}
  low-session 1 8 64 4 20000 100000 500000 weather watch 0 0
  4

The file of the output may have 1,024 bytes, so a prefix of the transcript is written.

  $ anew; netpump replay <long >whole; anew; limited netpump replay <long >prefix
  [4]
  $ head -c 1024 whole | cmp - prefix

A folder stands in the place of standard input, so it can't be read.

  $ anew; netpump replay <.
  fault read
  [3]
  $ netpump chain <.
  fault read
  [3]
  $ netpump audit <.
  fault read
  [3]
  $ netpump compare <.
  fault read
  [3]

The low disk is full: the first message fits, and the second one is refused (code 5). With room again it is stored.

  $ anew
  > greet() { echo session 1 3 1024 2 20000 100000 500000 weather watch; echo look 1 10 00000000 hello weather watch; cat; }
  > greet </dev/null | netpump replay
  low 1 10 welcome 0
  end 1 0 0 0

  $ greet <<. | limited netpump replay
  > look 1 20 00000000 data 0 61
  > look 1 20 00000000
  > look 1 98 00000000
  > look 1 100 00000000 data 1 62
  > .
  low 1 10 welcome 0
  stored 1 20 0
  passed 1 20 0 20000
  low 1 98 ack 0
  low 1 100 refuse 5 0
  fault device 1 low
  [7]
  $ greet <<. | netpump replay
  > look 1 20 00000000 data 1 62
  > .
  low 1 10 welcome 1
  stored 1 20 1
  end 1 2 0 0

The receiver's disk is full while a file is sent: what it took is kept, and with room again the file is sent on.

  $ cat >t.toml <<.
  > [[session]]
  > id = 1
  > low = "weather"
  > high = "watch"
  > capacity = 3
  > message = 8
  > window = 2
  > start = 20000
  > longest = 100000
  > resend = 500000
  > low_port = 7001
  > high_port = 7002
  > .
  $ sed -i 's/^message = 8/message = 12/' t.toml
  > anew; seq 1 250 >file; wc -c <file
  > limited netpump wrap t.toml 1 <file
  892
  fault device 1 recv
  [7]
  $ netpump show t.toml 1 | head -n 1
  show 1 68 67 67
  $ netpump unwrap t.toml 1 >got; echo $?; head -c 737 file | cmp - got
  14
  $ netpump wrap t.toml 1 <file; netpump unwrap t.toml 1 | cmp - file
  wrapped 1 892 83

A disk that another program has locked is not opened.

  $ anew; netpump format t.toml 1; flock 1.high netpump show t.toml 1 2>/dev/null
  formatted 1
  fault device 1 high
  [7]

A replay answers each line before it asks for the next, so a person at a terminal sees what it did.

  $ mkfifo in; touch out; netpump replay <in >out & exec 3>in
  $ answers() { for _ in {1..100}; do [ "$(wc -l <out)" = "$1" ] && break; sleep 0.05; done; cat out; }
  $ printf '%s\n' 'low-session 1 3 8 2 20000 100000 500000 weather watch 0 0' 'told 1 10 00000000 fine - hello weather watch' >&3; answers 1
  low 1 10 welcome 0
  $ printf '%s\n' 'told 1 20 00000000 fine - data 7 61' >&3; answers 2
  low 1 10 welcome 0
  low 1 20 refuse 4 0
  $ exec 3>&-; wait; tail -1 out
  end 1 0 - -
