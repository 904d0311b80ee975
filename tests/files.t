Files that are sent over a session, and written again from its receiver's disk.

What the program says on standard error is left out; sentences.t has it.

  $ netpump() { command netpump "$@" 2>/dev/null; }

The messages of session 1 have up to 8 bytes by the first table, which is too few for a file, and up to 12 by the second. `wrap`
sends its first word as a file.

  $ cat >t.toml <<.
  > [[session]]
  > id = 1
  > low = "weather"
  > high = "watch"
  > capacity = 3
  > message = 8
  > window = 2
  > start = 20000
  > longest = 100000
  > resend = 500000
  > low_port = 7001
  > high_port = 7002
  > .
  $ sed 's/^message = 8/message = 12/' t.toml >w.toml
  $ wrap() { printf %s "$1" | netpump wrap $2 1; }
  $ anew() { rm -rf *.low *.high *.recv; }

A file of 12 bytes is three messages. Sent again, nothing of it is sent, since the receiver has it. Another file is refused, at the
first message that differs.

  $ netpump format w.toml 1
  formatted 1
  $ wrap 'hello, world' w.toml
  wrapped 1 12 3
  $ netpump show w.toml 1
  show 1 3 3 3
  $ netpump unwrap w.toml 1
  hello, world (no-eol)
  $ wrap 'hello, world' w.toml
  wrapped 1 12 3
  $ netpump show w.toml 1
  show 1 3 3 3
  $ wrap 'hello, there' w.toml
  fault wrapped 1 0
  [13]
  $ netpump show w.toml 1
  show 1 3 3 3

The same over disks that the first `wrap` formats; the receiver's disk ends behind its records each time.

  $ anew
  $ wrap 'hello, world' w.toml
  wrapped 1 12 3
  $ wc -c <1.recv; netpump unwrap w.toml 1
  109
  hello, world (no-eol)
  $ wrap 'hello, world' w.toml
  wrapped 1 12 3
  $ wc -c <1.recv; netpump unwrap w.toml 1
  109
  hello, world (no-eol)
  $ wrap 'hello, there' w.toml
  fault wrapped 1 0
  [13]
  $ wc -c <1.recv; netpump unwrap w.toml 1
  109
  hello, world (no-eol)

A file without bytes is one message.

  $ anew
  $ wrap '' w.toml
  wrapped 1 0 1
  $ wc -c <1.recv; netpump unwrap w.toml 1
  91

A file without bytes is sent over new disks once more; no file is where the messages of the row are too short, the table can't be
read, or a folder has the name of a disk.

  $ anew
  $ wrap '' w.toml
  wrapped 1 0 1

  $ anew
  $ wrap '' t.toml
  fault table 12 1
  [6]

  $ anew; mkdir no.toml
  $ wrap 'a' no.toml
  fault read
  [3]

  $ anew; mkdir 1.recv
  $ wrap 'a' w.toml
  fault device 1 recv
  [7]

`unwrap` writes no fault line where there is no file: the table can't be read, a folder has the name of the disk, the disk is
empty, no row has the session, and its messages are too short.

  $ anew
  $ netpump unwrap no.toml 1
  [3]
  $ mkdir 1.recv
  $ netpump unwrap w.toml 1
  [7]
  $ rmdir 1.recv
  $ netpump unwrap w.toml 1
  [8]
  $ netpump unwrap w.toml 9
  [6]
  $ netpump unwrap t.toml 1
  [6]

What a receiver has of a file is written while it comes: nothing, a first piece, all of it, and all of it with a message too many
behind it.

  $ anew
  $ replayed() {
  >   { echo session 1 3 12 2 20000 100000 500000 weather watch
  >     echo look 1 0 00000000 hello weather watch
  >     cat; } | netpump replay | tail -n 1
  > }
  $ netpump format w.toml 1
  formatted 1

  $ replayed </dev/null
  end 1 0 0 0
  $ netpump unwrap w.toml 1
  [14]

  $ replayed <<.
  > look 1 0 00000000 data 0 0068656c6c6f2c20776f726c
  > look 1 0 00000000
  > done 1 0 1
  > look 1 200000 00000000
  > .
  end 1 1 1 1
  $ netpump unwrap w.toml 1
  hello, worl (no-eol)
  [14]

  $ replayed <<.
  > look 1 0 00000000 data 1 0064
  > look 1 0 00000000
  > done 1 0 1
  > look 1 200000 00000000
  > look 1 200000 00000000 data 2 01000000000000000c
  > look 1 200000 00000000
  > done 1 200000 1
  > look 1 400000 00000000
  > .
  end 1 3 3 3
  $ netpump unwrap w.toml 1
  hello, world (no-eol)

  $ replayed <<.
  > look 1 0 00000000 data 3 0064
  > look 1 0 00000000
  > done 1 0 1
  > look 1 200000 00000000
  > .
  end 1 4 4 4
  $ netpump unwrap w.toml 1
  hello, world (no-eol)
  [13]
