Low greets, hands a message in, and is told that it is accepted.

Each script is replayed over new disks. What the program says on standard error is left out; sentences.t has it.

  $ netpump() { command netpump "$@" 2>/dev/null; }
  $ anew() { rm -f *.low *.high *.recv; netpump "$@"; }

A session without a look ends with nothing accepted, removed or received.

  $ anew replay <<.
  > session 1 3 8 2 20000 100000 500000 weather watch
  > .
  end 1 0 0 0

A greeting with the names of the session is welcomed, with the number of the first message.

  $ anew replay <<.
  > session 1 3 8 2 20000 100000 500000 weather watch
  > look 1 10 00000000 hello weather watch
  > .
  low 1 10 welcome 0
  end 1 0 0 0

With the word 0 the acknowledgement is due 78 microseconds after the message passed on, and not one earlier.

  $ anew replay <<.
  > session 1 3 8 2 20000 100000 500000 weather watch
  > look 1 10 00000000 hello weather watch
  > look 1 100 00000000 data 0 61
  > look 1 100 00000000
  > look 1 177 00000000
  > look 1 178 00000000
  > .
  low 1 10 welcome 0
  stored 1 100 0
  passed 1 100 0 20000
  low 1 178 ack 0
  end 1 1 0 0

The word of the passing look makes the delay: here it is 156 microseconds,

  $ anew replay <<.
  > session 1 3 8 2 20000 100000 500000 weather watch
  > look 1 10 00000000 hello weather watch
  > look 1 100 00000000 data 0 61
  > look 1 100 01000000
  > look 1 255 00000000
  > look 1 256 00000000
  > .
  low 1 10 welcome 0
  stored 1 100 0
  passed 1 100 0 20000
  low 1 256 ack 0
  end 1 1 0 0

and with the greatest word it is the longest delay of the session.

  $ anew replay <<.
  > session 1 3 8 2 20000 100000 500000 weather watch
  > look 1 10 00000000 hello weather watch
  > look 1 100 00000000 data 0 61
  > look 1 100 FFFFFFFF
  > look 1 100099 00000000
  > look 1 100100 00000000
  > .
  low 1 10 welcome 0
  stored 1 100 0
  passed 1 100 0 20000
  low 1 100100 ack 0
  end 1 1 0 0

A message that was acknowledged is acknowledged again when it is repeated, after a delay of its own; one that is out of step
is refused with the number that is wanted (code 4), and the next one is stored.

  $ anew replay <<.
  > session 1 3 8 2 20000 100000 500000 weather watch
  > look 1 10 00000000 hello weather watch
  > look 1 100 00000000 data 0 61
  > look 1 100 00000000
  > look 1 177 00000000
  > look 1 178 00000000
  > look 1 200 01000000 data 0 61
  > look 1 356 00000000
  > look 1 400 00000000 data 5 61
  > look 1 410 00000000 data 1 62
  > .
  low 1 10 welcome 0
  stored 1 100 0
  passed 1 100 0 20000
  low 1 178 ack 0
  repeat 1 200 0 20000
  low 1 356 ack 0
  low 1 400 refuse 4 1
  stored 1 410 1
  end 1 2 0 0
