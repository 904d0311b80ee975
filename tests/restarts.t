Either side is dropped and opened again from its disks, within a script and from one script to the next.

Each script is replayed over new disks. What the program says on standard error is left out; sentences.t has it.

  $ netpump() { command netpump "$@" 2>/dev/null; }
  $ anew() { rm -f *.low *.high *.recv; netpump "$@"; }

The low process numbers on from what its disk counts, and the message in its hand outlives.

  $ anew replay <<.
  > session 1 3 8 2 20000 100000 500000 weather watch
  > look 1 10 00000000 hello weather watch
  > look 1 100 00000000 data 0 61
  > restart 1 150
  > look 1 160 00000000 hello weather watch
  > look 1 200 00000000 data 0 61
  > look 1 278 00000000
  > done 1 300 50
  > .
  low 1 10 welcome 0
  stored 1 100 0
  restart 1 150 1 0 0
  low 1 160 welcome 1
  repeat 1 200 0 20000
  low 1 278 ack 0
  sent 1 300 0
  took 1 0
  removed 1 350 0 50
  end 1 1 1 1

A receiver that is opened again attaches with its count, and is sent what it has not taken.

  $ anew replay <<.
  > session 1 3 8 2 20000 100000 500000 weather watch
  > look 1 10 00000000 hello weather watch
  > look 1 100 00000000 data 0 61
  > look 1 100 00000000
  > high 1 110
  > receiver-restart 1 120
  > carry 1 0
  > return 1 160 0
  > look 1 178 00000000
  > .
  low 1 10 welcome 0
  stored 1 100 0
  passed 1 100 0 20000
  sent 1 110 0
  attach 1 120 0
  sent 1 120 0
  took 1 0
  removed 1 160 0 50
  low 1 178 ack 0
  end 1 1 1 1

With its count it says that it took a message whose TAKEN was lost.

  $ anew replay <<.
  > session 1 3 8 2 20000 100000 500000 weather watch
  > look 1 10 00000000 hello weather watch
  > look 1 100 00000000 data 0 61
  > look 1 100 00000000
  > high 1 110
  > carry 1 0
  > receiver-restart 1 200
  > .
  low 1 10 welcome 0
  stored 1 100 0
  passed 1 100 0 20000
  sent 1 110 0
  took 1 0
  attach 1 200 1
  removed 1 200 0 90
  end 1 1 1 1

A script stops while a message that the receiver took is still in the relay,

  $ anew replay <<.
  > session 1 3 8 2 20000 100000 500000 weather watch
  > look 1 10 00000000 hello weather watch
  > look 1 100 00000000 data 0 61
  > look 1 100 00000000
  > high 1 110
  > carry 1 0
  > high 1 5
  > .
  low 1 10 welcome 0
  stored 1 100 0
  passed 1 100 0 20000
  sent 1 110 0
  took 1 0
  fault script 7
  [5]

and a second one goes on over the disks that it left.

  $ netpump replay <<.
  > session 1 3 8 2 20000 100000 500000 weather watch
  > look 1 1 00000000 hello weather watch
  > receiver-restart 1 9
  > .
  low 1 1 welcome 1
  attach 1 9 1
  removed 1 9 0 -
  end 1 1 1 1

A row with another capacity is refused, and the disks stay as they are.

  $ sha256sum 1.* >before
  $ netpump replay <<.
  > session 1 4 8 2 20000 100000 500000 weather watch
  > .
  fault disk 1 low 3 3 4
  [8]
  $ sha256sum 1.* | diff before -
