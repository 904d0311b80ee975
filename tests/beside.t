What a receiver has is printed, and the state of a session is told, from the files of its disks.

What the program says on standard error is left out; sentences.t has it.

  $ netpump() { command netpump "$@" 2>/dev/null; }
  $ put() { printf "$3" | dd of=$1 bs=1 seek=$2 conv=notrunc status=none; }
  $ cat >t.toml <<.
  > [[session]]
  > id = 1
  > low = "weather"
  > high = "watch"
  > capacity = 3
  > message = 8
  > window = 2
  > start = 20000
  > longest = 100000
  > resend = 500000
  > low_port = 7001
  > high_port = 7002
  > .

New disks have no message.

  $ netpump format t.toml 1
  formatted 1
  $ netpump messages t.toml 1 0
  $ netpump status t.toml 1
  status 1 0 0 0 0 3
  $ cp 1.low new.low

Four messages are accepted, of which the receiver takes three.

  $ netpump replay <<. | tail -n 1
  > session 1 3 8 2 20000 100000 500000 weather watch
  > look 1 10 00000000 hello weather watch
  > look 1 10 00000000 data 0 61ff
  > look 1 10 00000000
  > look 1 88 00000000
  > done 1 100 100
  > look 1 300 00000000 data 1 -
  > look 1 300 00000000
  > look 1 300 00000000
  > done 1 400 300
  > look 1 800 00000000 data 2 0001020304050607
  > look 1 800 00000000
  > look 1 800 00000000
  > done 1 900 500
  > look 1 1500 00000000 data 3 64
  > look 1 1500 00000000
  > look 1 1500 00000000
  > look 1 1501 00000000
  > .
  end 1 4 3 3
  $ netpump messages t.toml 1 0
  message 1 0 61ff
  message 1 1 -
  message 1 2 0001020304050607
  $ netpump messages t.toml 1 1
  message 1 1 -
  message 1 2 0001020304050607
  $ netpump status t.toml 1
  status 1 4 3 3 1 3

Behind the last message nothing is printed, and that is no fault.

  $ netpump messages t.toml 1 2
  message 1 2 0001020304050607
  $ netpump messages t.toml 1 3
  $ netpump messages t.toml 1 4294967295

The disks may be in use, and nothing is made or changed.

  $ sum() { cat 1.low 1.high 1.recv | cksum; ls; }
  $ before=$(sum)
  $ flock 1.recv netpump messages t.toml 1 2
  message 1 2 0001020304050607
  $ flock 1.low flock 1.high netpump status t.toml 1
  status 1 4 3 3 1 3
  $ [ "$before" = "$(sum)" ] && echo as before
  as before

A record behind the end that the register names is no message, whole or not.

  $ cp 1.recv whole.recv
  $ printf '\0\1z' >>1.recv; netpump messages t.toml 1 2
  message 1 2 0001020304050607
  $ printf '\0\5zz' >>1.recv; netpump messages t.toml 1 2
  message 1 2 0001020304050607
  $ netpump status t.toml 1
  status 1 4 3 3 1 3

Each disk is checked by itself: a low disk of an older moment is none that is refused.

  $ cp 1.low whole.low; cp new.low 1.low; netpump status t.toml 1
  status 1 0 3 3 0 3
  $ cp whole.low 1.low

The receiver's disk may be elsewhere, but then its messages are not printed. The other two have to be there, the high one first.

  $ mv 1.recv elsewhere; netpump status t.toml 1
  status 1 4 3 - 1 3
  $ netpump messages t.toml 1 0
  fault device 1 recv
  [7]
  $ mv 1.low low; netpump status t.toml 1
  fault device 1 low
  [7]
  $ mv 1.high high; netpump status t.toml 1
  fault device 1 high
  [7]
  $ ls *.low *.recv
  new.low
  whole.low
  whole.recv
  $ mv low 1.low; mv high 1.high; cp whole.recv 1.recv

Disks that are refused: the receiver's is empty, has an end that is none of its records, or is another session's; then low's too,
which comes first.

  $ : >1.recv; netpump messages t.toml 1 0
  fault disk 1 recv 2 0 0
  [8]
  $ netpump status t.toml 1
  fault disk 1 recv 2 0 0
  [8]
  $ cp whole.recv 1.recv; printf z >>1.recv; put 1.recv 79 '\141'; netpump messages t.toml 1 0
  fault disk 1 recv 4 3 97
  [8]
  $ cp whole.recv 1.recv; put 1.recv 11 '\2'; netpump messages t.toml 1 0
  fault disk 1 recv 3 2 1
  [8]
  $ netpump status t.toml 1
  fault disk 1 recv 3 2 1
  [8]
  $ put 1.high 15 '\4'; netpump status t.toml 1
  fault disk 1 high 3 4 3
  [8]
  $ put 1.low 15 '\4'; netpump status t.toml 1
  fault disk 1 low 3 4 3
  [8]

The table's file is not there, or has no such row; and the output can't be written.

  $ netpump messages none.toml 1 0
  fault read
  [3]
  $ netpump status t.toml 9
  fault table 11 9
  [6]
  $ cp whole.recv 1.recv; netpump messages t.toml 1 0 >/dev/full
  [4]
  $ put 1.low 15 '\3'; put 1.high 15 '\3'; netpump status t.toml 1 >/dev/full
  [4]
