A second message comes while the first one still fills the buffer of a session with room for one between the two hands.

Each script is replayed over new disks. What the program says on standard error is left out; sentences.t has it.

  $ netpump() { command netpump "$@" 2>/dev/null; }
  $ anew() { rm -f *.low *.high *.recv; netpump "$@"; }

Two looks find the buffer full; once the high side has taken the first message in hand, the second one passes on.

  $ anew replay <<.
  > session 1 3 8 2 20000 100000 500000 weather watch
  > look 1 10 00000000 hello weather watch
  > look 1 100 00000000 data 0 61
  > look 1 100 00000000
  > look 1 177 00000000
  > look 1 178 00000000
  > look 1 200 00000000 data 1 62
  > look 1 210 00000000
  > look 1 220 00000000
  > high 1 230
  > look 1 240 00000000
  > look 1 298 00000000
  > look 1 318 00000000
  > .
  low 1 10 welcome 0
  stored 1 100 0
  passed 1 100 0 20000
  low 1 178 ack 0
  stored 1 200 1
  full 1 210
  full 1 220
  sent 1 230 0
  passed 1 240 0 20000
  low 1 318 ack 1
  end 1 2 0 0

The high side is quicker: one look fewer finds the buffer full, and the acknowledgement is earlier.

  $ anew replay <<.
  > session 1 3 8 2 20000 100000 500000 weather watch
  > look 1 10 00000000 hello weather watch
  > look 1 100 00000000 data 0 61
  > look 1 100 00000000
  > look 1 177 00000000
  > look 1 178 00000000
  > look 1 200 00000000 data 1 62
  > look 1 210 00000000
  > high 1 215
  > look 1 220 00000000
  > look 1 240 00000000
  > look 1 298 00000000
  > look 1 318 00000000
  > .
  low 1 10 welcome 0
  stored 1 100 0
  passed 1 100 0 20000
  low 1 178 ack 0
  stored 1 200 1
  full 1 210
  sent 1 215 0
  passed 1 220 0 20000
  low 1 298 ack 1
  end 1 2 0 0
