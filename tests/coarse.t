Coarse sessions: of each average only its level comes down to Low, the least of 1, 2, 4 and so on that is not below it.

Each script is replayed over new disks. What the program says on standard error is left out; sentences.t has it.

  $ netpump() { command netpump "$@" 2>/dev/null; }
  $ anew() { rm -f *.low *.high *.recv; netpump "$@"; }

The level of the first average, 20,000, is 32,768; its shortest delay is 128.

  $ anew replay <<.
  > session 1 3 8 2 20000 100000 500000 weather watch
  > coarse 1
  > look 1 10 00000000 hello weather watch
  > look 1 100 00000000 data 0 61
  > look 1 100 00000000
  > look 1 227 00000000
  > look 1 228 00000000
  > .
  low 1 10 welcome 0
  stored 1 100 0
  passed 1 100 0 32768
  low 1 228 ack 0
  end 1 1 0 0

High takes 100 microseconds for a message, and the next one is told the level 128.

  $ anew replay <<.
  > session 1 3 8 2 20000 100000 500000 weather watch
  > coarse 1
  > look 1 10 00000000 hello weather watch
  > look 1 10 00000000 data 0 61
  > look 1 10 00000000
  > look 1 138 00000000
  > done 1 200 100
  > look 1 400 00000000 data 1 62
  > look 1 400 00000000
  > look 1 400 00000000
  > .
  low 1 10 welcome 0
  stored 1 10 0
  passed 1 10 0 32768
  low 1 138 ack 0
  sent 1 200 0
  took 1 0
  removed 1 300 0 100
  stored 1 400 1
  passed 1 400 1 128
  low 1 400 ack 1
  end 1 2 1 1

Where it takes 120, Low is told the same.

  $ anew replay <<.
  > session 1 3 8 2 20000 100000 500000 weather watch
  > coarse 1
  > look 1 10 00000000 hello weather watch
  > look 1 10 00000000 data 0 61
  > look 1 10 00000000
  > look 1 138 00000000
  > done 1 200 120
  > look 1 400 00000000 data 1 62
  > look 1 400 00000000
  > look 1 400 00000000
  > .
  low 1 10 welcome 0
  stored 1 10 0
  passed 1 10 0 32768
  low 1 138 ack 0
  sent 1 200 0
  took 1 0
  removed 1 320 0 120
  stored 1 400 1
  passed 1 400 1 128
  low 1 400 ack 1
  end 1 2 1 1

A low side alone is told no average that is not a level.

  $ anew replay <<.
  > low-session 1 3 8 2 20000 100000 500000 weather watch 0 0
  > coarse 1
  > told 1 10 00000000 fine 0/20000
  > .
  fault script 3
  [5]

A low side alone is made coarse twice,

  $ anew replay <<.
  > low-session 1 3 8 2 20000 100000 500000 weather watch 0 0
  > coarse 1
  > coarse 1
  > .
  fault script 3
  [5]

and a whole session is.

  $ anew replay <<.
  > session 1 3 8 2 20000 100000 500000 weather watch
  > coarse 1
  > coarse 1
  > .
  fault script 3
  [5]

A session is made coarse after a line of another kind.

  $ anew replay <<.
  > session 1 3 8 2 20000 100000 500000 weather watch
  > look 1 10 00000000 hello weather watch
  > coarse 1
  > .
  low 1 10 welcome 0
  fault script 3
  [5]

A session is made coarse that is not there,

  $ anew replay <<.
  > session 1 3 8 2 20000 100000 500000 weather watch
  > coarse 2
  > .
  fault script 2
  [5]

and where there is none at all.

  $ anew replay <<.
  > coarse 1
  > .
  fault script 1
  [5]
