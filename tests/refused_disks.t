Disks that are refused when they are opened, by the numbers of docs/formats.md, and files that are no disks.

  $ netpump() { command netpump "$@" 2>/dev/null; }

The disks are old ones, of version 1: a low disk on which message 0, `a`, was accepted, and a high disk on which so many messages
are removed, as the first word says. Of the low disk one byte is changed then. There is no receiver's disk yet, so an empty one is
made.

  $ disk() {
  >   rm -f 1.$1
  >   { printf "NPD1$2"; printf '\1\0\0\0\0\0\1\0\0\0\3\0\0\0\10'; head -c 60 /dev/zero; } >1.$1
  >   put 1.$1 32 '\1'
  >   put 1.$1 71 "\\$3"
  > }
  > put() { printf "$3" | dd of=$1 bs=1 seek=$2 conv=notrunc status=none; }
  > opened() {
  >   rm -rf 1.*
  >   disk low L 1
  >   head -c 30 /dev/zero >>1.low
  >   put 1.low 81 '\1a'
  >   put 1.low $2 "\\$3"
  >   disk high H $1
  >   netpump replay <<.
  > session 1 3 8 2 20000 100000 500000 weather watch
  > look 1 10 00000000 hello weather watch
  > .
  > }

With no byte changed (byte 0 is an N already, octal 116) these disks are opened.

  $ opened 0 0 116
  low 1 10 welcome 1
  end 1 1 0 0

The mark is another one: the file is no disk (2).

  $ opened 0 3 0
  fault disk 1 low 2 110 1313883136
  [8]

The role is H, where L is wanted (3).

  $ opened 0 4 110
  fault disk 1 low 3 72 76
  [8]

The second number of the register is not 0 (4).

  $ opened 0 79 1
  fault disk 1 low 4 1 1
  [8]

More messages are removed than accepted (5).

  $ opened 3 0 116
  fault disk 1 high 5 3 1
  [8]

The live message 0 is longer than the row's (6).

  $ opened 0 81 11
  fault disk 1 low 6 0 9
  [8]

The receiver has fewer messages than are removed (7).

  $ opened 1 0 116
  fault disk 1 recv 7 0 1
  [8]

A folder stands where the file of a disk should be, so the disk can't be opened; with the folder away the
script goes on.

  $ greeting() {
  >   netpump replay <<.
  > session 1 3 8 2 20000 100000 500000 weather watch
  > look 1 10 00000000 hello weather watch
  > .
  > }

  $ rm -rf 1.*; mkdir 1.low; greeting
  fault device 1 low
  [7]
  $ rmdir 1.low; greeting
  low 1 10 welcome 0
  end 1 0 0 0

  $ rm -rf 1.*; mkdir 1.high; greeting
  fault device 1 high
  [7]
  $ rmdir 1.high; greeting
  low 1 10 welcome 0
  end 1 0 0 0

  $ rm -rf 1.*; mkdir 1.recv; greeting
  fault device 1 recv
  [7]
  $ rmdir 1.recv; greeting
  low 1 10 welcome 0
  end 1 0 0 0
