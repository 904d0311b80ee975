Frames that the low process does not take, and bytes that are no frames.

Each script is replayed over new disks. What the program says on standard error is left out; sentences.t has it.

  $ netpump() { command netpump "$@" 2>/dev/null; }
  $ anew() { rm -f *.low *.high *.recv; netpump "$@"; }

A message that is longer than those of the session is refused (code 3), and one without bytes is stored.

  $ anew replay <<.
  > session 1 3 8 2 20000 100000 500000 weather watch
  > look 1 10 00000000 hello weather watch
  > look 1 20 00000000 data 0 616161616161616161
  > look 1 30 00000000 data 0 -
  > .
  low 1 10 welcome 0
  low 1 20 refuse 3 0
  stored 1 30 0
  end 1 1 0 0

Other names are refused (code 1), so is a message before the greeting (code 2), and then the right greeting is welcomed.

  $ anew replay <<.
  > session 1 3 8 2 20000 100000 500000 weather watch
  > look 1 5 00000000 hello weather other
  > look 1 6 00000000 data 0 61
  > look 1 7 00000000 hello weather watch
  > .
  low 1 5 refuse 1 0
  low 1 6 refuse 2 0
  low 1 7 welcome 0
  end 1 0 0 0

Behind bad bytes nothing is offered, no whole frame either, until the connection is lost.

  $ anew replay <<.
  > session 1 3 8 2 20000 100000 500000 weather watch
  > look 1 5 00000000 raw 4e51
  > look 1 6 00000000 hello weather watch
  > look 1 6 00000000 raw 4e5001030000000100000000000000000000
  > gone 1 7
  > look 1 8 00000000 hello weather watch
  > .
  low 1 5 refuse 2 0
  low 1 8 welcome 0
  end 1 0 0 0

The first bytes of a frame are dropped with their connection, and wait for the rest on another.

  $ anew replay <<.
  > session 1 3 8 2 20000 100000 500000 weather watch
  > look 1 5 00000000 raw 4e500103000000
  > gone 1 6
  > look 1 7 00000000 hello weather watch
  > look 1 8 00000000 raw 4e500103000000
  > look 1 9 00000000 raw 0100000000000000000000
  > .
  low 1 7 welcome 0
  stored 1 9 0
  end 1 1 0 0

At the first look 57 frames come and one is refused, at the second 8 more come, so that 64 wait; two more would make 65, which
is one too many.

  $ frame=4e5001030000000100000000000000000000
  > frames() { printf "$frame%.0s" $(seq $1); }

  $ anew replay <<.
  > session 1 3 8 2 20000 100000 500000 weather watch
  > look 1 10 00000000 raw $(frames 57)
  > look 1 20 00000000 raw $(frames 8)
  > look 1 30 00000000 raw $(frames 2)
  > .
  low 1 10 refuse 2 0
  low 1 20 refuse 2 0
  fault script 4
  [5]

The longest message that any session may have, 1,024 bytes, is stored.

  $ bytes=00112233445566778899aabbccddeeff
  > anew replay <<.
  > session 1 3 1024 2 20000 100000 500000 weather watch
  > look 1 10 00000000 hello weather watch
  > look 1 20 00000000 raw 4e5001030000000100000000000000000400$(printf "$bytes%.0s" $(seq 64))
  > .
  low 1 10 welcome 0
  stored 1 20 0
  end 1 1 0 0
