Packets between the high process and the receiver: they come twice, late, or not at all.

Each script is replayed over new disks. What the program says on standard error is left out; sentences.t has it.

  $ netpump() { command netpump "$@" 2>/dev/null; }
  $ anew() { rm -f *.low *.high *.recv; netpump "$@"; }

The receiver is given a message twice and takes it once; the message is removed at the first TAKEN that comes back, here the
older one, and the later one does nothing.

  $ anew replay <<.
  > session 1 3 8 2 20000 100000 500000 weather watch
  > look 1 10 00000000 hello weather watch
  > look 1 100 00000000 data 0 61
  > look 1 100 00000000
  > high 1 110
  > carry 1 0
  > carry 1 0
  > return 1 160 1
  > return 1 170 0
  > look 1 178 00000000
  > .
  low 1 10 welcome 0
  stored 1 100 0
  passed 1 100 0 20000
  sent 1 110 0
  took 1 0
  again 1 0
  removed 1 160 0 50
  low 1 178 ack 0
  end 1 1 1 1

Two TAKEN were sent, so the third last can't come back.

  $ anew replay <<.
  > session 1 3 8 2 20000 100000 500000 weather watch
  > look 1 10 00000000 hello weather watch
  > look 1 100 00000000 data 0 61
  > look 1 100 00000000
  > high 1 110
  > carry 1 0
  > carry 1 0
  > return 1 160 2
  > .
  low 1 10 welcome 0
  stored 1 100 0
  passed 1 100 0 20000
  sent 1 110 0
  took 1 0
  again 1 0
  fault script 8
  [5]

One DATA was sent, so the second last can't be carried.

  $ anew replay <<.
  > session 1 3 8 2 20000 100000 500000 weather watch
  > look 1 10 00000000 hello weather watch
  > look 1 100 00000000 data 0 61
  > look 1 100 00000000
  > high 1 110
  > carry 1 0
  > carry 1 0
  > carry 1 1
  > .
  low 1 10 welcome 0
  stored 1 100 0
  passed 1 100 0 20000
  sent 1 110 0
  took 1 0
  again 1 0
  fault script 8
  [5]
