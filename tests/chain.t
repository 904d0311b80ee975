Two pumps in a row: the sender of the second one reads what the first one's receiver has.

`anew` begins with new disks. What the program says on standard error is left out; sentences.t has it.

  $ netpump() { command netpump "$@" 2>/dev/null; }
  $ anew() { rm -f *.low *.high *.recv; netpump "$@"; }

A message goes through both pumps.

  $ anew chain <<.
  > session 1 3 8 2 20000 100000 500000 weather watch
  > session 2 3 8 2 20000 100000 500000 watch vault
  > look 1 10 00000000 hello weather watch
  > look 1 100 00000000 data 0 61
  > look 1 100 00000000
  > step 2 105 00000000
  > step 2 110 00000000
  > done 1 120 50
  > step 2 180 00000000
  > step 2 190 00000000
  > look 1 200 00000000
  > done 2 200 30
  > step 2 268 00000000
  > .
  low 1 10 welcome 0
  stored 1 100 0
  passed 1 100 0 20000
  low 2 105 welcome 0
  sent 1 120 0
  took 1 0
  removed 1 170 0 50
  stored 2 180 0
  passed 2 190 0 20000
  low 1 200 ack 0
  sent 2 200 0
  took 2 0
  removed 2 230 0 30
  low 2 268 ack 0
  end 1 1 1 1
  end 2 1 1 1

The pumps go on over the disks that they left.

  $ netpump chain <<.
  > # again
  > session 1 3 8 2 20000 100000 500000 weather watch
  > 
  > session 2 3 8 2 20000 100000 500000 watch vault
  > .
  end 1 1 1 1
  end 2 1 1 1

The second pump has accepted a message that the first receiver has not (12).

  $ anew replay <<.
  > session 2 3 8 2 20000 100000 500000 watch vault
  > look 2 10 00000000 hello watch vault
  > look 2 100 00000000 data 0 62
  > .
  low 2 10 welcome 0
  stored 2 100 0
  end 2 1 0 0
  $ netpump chain <<.
  > session 1 3 8 2 20000 100000 500000 weather watch
  > session 2 3 8 2 20000 100000 500000 watch vault
  > .
  fault disk 2 low 12 1 0
  [8]

The first receiver takes one, and it is another (13).

  $ netpump replay <<.
  > session 1 3 8 2 20000 100000 500000 weather watch
  > look 1 10 00000000 hello weather watch
  > look 1 100 00000000 data 0 61
  > look 1 100 00000000
  > done 1 120 50
  > .
  low 1 10 welcome 0
  stored 1 100 0
  passed 1 100 0 20000
  sent 1 120 0
  took 1 0
  removed 1 170 0 50
  end 1 1 1 1
  $ netpump chain <<.
  > session 1 3 8 2 20000 100000 500000 weather watch
  > session 2 3 8 2 20000 100000 500000 watch vault
  > .
  fault disk 2 low 13 0 0
  [8]

As two sessions that are apart they go on, each with its own disks.

  $ netpump replay <<.
  > session 1 3 8 2 20000 100000 500000 weather watch
  > session 2 3 8 2 20000 100000 500000 watch vault
  > .
  end 1 1 1 1
  end 2 1 0 0

Scripts that are not of a chain.

The second session is missing,

  $ anew chain <<.
  > session 1 3 8 2 20000 100000 500000 weather watch
  > .
  fault script 2
  [5]

both are,

  $ anew chain <<.
  > .
  fault script 1
  [5]

also where lines are skipped,

  $ anew chain <<.
  > # none
  > 
  > .
  fault script 3
  [5]

another line comes before both,

  $ anew chain <<.
  > coarse 1
  > .
  fault script 1
  [5]

or between them.

  $ anew chain <<.
  > session 1 3 8 2 20000 100000 500000 weather watch
  > coarse 1
  > session 2 3 8 2 20000 100000 500000 watch vault
  > .
  fault script 2
  [5]

Both have one number.

  $ anew chain <<.
  > session 1 3 8 2 20000 100000 500000 weather watch
  > session 1 3 8 2 20000 100000 500000 weather watch
  > .
  fault script 2
  [5]

The second one's messages are shorter than the first one's.

  $ anew chain <<.
  > session 1 3 8 2 20000 100000 500000 weather watch
  > session 2 3 7 2 20000 100000 500000 watch vault
  > .
  fault script 2
  [5]

The second one is a low side alone.

  $ anew chain <<.
  > session 1 3 8 2 20000 100000 500000 weather watch
  > low-session 2 3 8 2 20000 100000 500000 watch vault 0 0
  > .
  fault script 2
  [5]

There is a third session.

  $ anew chain <<.
  > session 1 3 8 2 20000 100000 500000 weather watch
  > session 2 3 8 2 20000 100000 500000 watch vault
  > session 3 3 8 2 20000 100000 500000 a b
  > .
  fault script 3
  [5]

The first pump has no `step`,

  $ anew chain <<.
  > session 1 3 8 2 20000 100000 500000 weather watch
  > session 2 3 8 2 20000 100000 500000 watch vault
  > step 1 10 00000000
  > .
  fault script 3
  [5]

the second one has no `look`,

  $ anew chain <<.
  > session 1 3 8 2 20000 100000 500000 weather watch
  > session 2 3 8 2 20000 100000 500000 watch vault
  > look 2 10 00000000
  > .
  fault script 3
  [5]

and a `step` has a word.

  $ anew chain <<.
  > session 1 3 8 2 20000 100000 500000 weather watch
  > session 2 3 8 2 20000 100000 500000 watch vault
  > step 2 10
  > .
  fault script 3
  [5]

The ends come by rising number.

  $ anew chain <<.
  > session 2 3 8 2 20000 100000 500000 watch vault
  > session 1 3 8 2 20000 100000 500000 weather watch
  > .
  end 1 0 0 0
  end 2 0 0 0

Either session may be made coarse, before all that is done with them,

  $ anew chain <<.
  > session 1 3 8 2 20000 100000 500000 weather watch
  > session 2 3 8 2 20000 100000 500000 watch vault
  > coarse 2
  > coarse 1
  > .
  end 1 0 0 0
  end 2 0 0 0

and not later.

  $ anew chain <<.
  > session 1 3 8 2 20000 100000 500000 weather watch
  > session 2 3 8 2 20000 100000 500000 watch vault
  > step 2 5 00000000
  > coarse 1
  > .
  low 2 5 welcome 0
  fault script 4
  [5]

While the first message is under way the second one is not sent; then it is, once.

  $ anew chain <<.
  > session 1 3 8 2 20000 100000 500000 weather watch
  > session 2 3 8 2 20000 100000 500000 watch vault
  > look 1 10 00000000 hello weather watch
  > look 1 100 00000000 data 0 61
  > look 1 100 00000000
  > done 1 120 50
  > look 1 200 00000000
  > look 1 200 00000000 data 1 62
  > look 1 210 00000000
  > done 1 220 30
  > step 2 300 00000000
  > step 2 310 00000000
  > step 2 320 00000000
  > step 2 330 00000000
  > step 2 400 00000000
  > done 2 400 30
  > step 2 440 00000000
  > step 2 450 00000000
  > step 2 460 00000000
  > step 2 470 00000000
  > .
  low 1 10 welcome 0
  stored 1 100 0
  passed 1 100 0 20000
  sent 1 120 0
  took 1 0
  removed 1 170 0 50
  low 1 200 ack 0
  stored 1 200 1
  passed 1 210 1 50
  sent 1 220 1
  took 1 1
  removed 1 250 1 30
  low 2 300 welcome 0
  stored 2 310 0
  passed 2 320 0 20000
  low 2 400 ack 0
  sent 2 400 0
  took 2 0
  removed 2 430 0 30
  stored 2 440 1
  passed 2 450 1 30
  low 2 460 ack 1
  end 1 2 2 2
  end 2 2 1 1

The connection is lost while it is under way: the sender begins anew, and is told that the message is stored.

  $ anew chain <<.
  > session 1 3 8 2 20000 100000 500000 weather watch
  > session 2 3 8 2 20000 100000 500000 watch vault
  > look 1 10 00000000 hello weather watch
  > look 1 100 00000000 data 0 61
  > look 1 100 00000000
  > done 1 120 50
  > look 1 200 00000000
  > look 1 200 00000000 data 1 62
  > look 1 210 00000000
  > done 1 220 30
  > step 2 300 00000000
  > step 2 310 00000000
  > gone 2 315
  > step 2 320 00000000
  > step 2 330 00000000
  > step 2 340 00000000
  > .
  low 1 10 welcome 0
  stored 1 100 0
  passed 1 100 0 20000
  sent 1 120 0
  took 1 0
  removed 1 170 0 50
  low 1 200 ack 0
  stored 1 200 1
  passed 1 210 1 50
  sent 1 220 1
  took 1 1
  removed 1 250 1 30
  low 2 300 welcome 0
  stored 2 310 0
  released 2 320
  low 2 330 welcome 1
  stored 2 340 1
  end 1 2 2 2
  end 2 2 0 0

A pump is refused for its own cause first: the disks of the first session are another row's.

  $ anew replay <<.
  > session 1 4 8 2 20000 100000 500000 weather watch
  > .
  end 1 0 0 0
  $ netpump chain <<.
  > session 1 3 8 2 20000 100000 500000 weather watch
  > session 2 3 8 2 20000 100000 500000 watch vault
  > .
  fault disk 1 low 3 4 3
  [8]
