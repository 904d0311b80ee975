A script stops at the first line that is written wrong or can't be applied there; those before it are answered.

Each script is replayed over new disks. What the program says on standard error is left out; sentences.t has it.

  $ netpump() { command netpump "$@" 2>/dev/null; }
  $ anew() { rm -f *.low *.high *.recv; netpump "$@"; }

The moment of a look falls below that of the look before it.

  $ anew replay <<.
  > session 1 3 8 2 20000 100000 500000 weather watch
  > look 1 10 00000000 hello weather watch
  > look 1 20 00000000
  > look 1 30 00000000
  > look 1 40 00000000
  > look 1 50 00000000
  > look 1 49 00000000
  > .
  low 1 10 welcome 0
  fault script 7
  [5]

The last line has no line end.

  $ printf '%s\n' 'session 1 3 8 2 20000 100000 500000 weather watch' >script
  > printf 'look 1 10' >>script
  > anew replay <script
  fault script 2
  [5]

A session is begun twice.

  $ anew replay <<.
  > session 1 3 8 2 20000 100000 500000 weather watch
  > session 1 3 8 2 20000 100000 500000 weather watch
  > .
  fault script 2
  [5]

A capacity of 2 is too small; lines that are skipped are counted.

  $ anew replay <<.
  > # no
  > 
  > session 1 2 8 2 20000 100000 500000 weather watch
  > .
  fault script 3
  [5]

A look comes before any session.

  $ anew replay <<.
  > look 1 10 00000000 hello weather watch
  > .
  fault script 1
  [5]

A connection is lost of a session that is not there.

  $ anew replay <<.
  > session 1 3 8 2 20000 100000 500000 weather watch
  > gone 2 5
  > .
  fault script 2
  [5]

A low side alone has the number of a whole session,

  $ anew replay <<.
  > session 1 3 8 2 20000 100000 500000 weather watch
  > low-session 1 3 8 2 20000 100000 500000 weather watch 0 0
  > .
  fault script 2
  [5]

and the other way round.

  $ anew replay <<.
  > low-session 1 3 8 2 20000 100000 500000 weather watch 0 0
  > session 1 3 8 2 20000 100000 500000 weather watch
  > .
  fault script 2
  [5]

A whole session is told nothing.

  $ anew replay <<.
  > session 1 3 8 2 20000 100000 500000 weather watch
  > told 1 10 00000000 fine -
  > .
  fault script 2
  [5]

A low side alone has no look but those with what it is told,

  $ anew replay <<.
  > low-session 1 3 8 2 20000 100000 500000 weather watch 0 0
  > look 1 10 00000000 hello weather watch
  > .
  fault script 2
  [5]

and no high side.

  $ anew replay <<.
  > low-session 1 3 8 2 20000 100000 500000 weather watch 0 0
  > high 1 10
  > .
  fault script 2
  [5]

Nothing behind a faulty line is looked at, and a script of 200,002 lines is read to its end.

  $ greet() { printf '%s\n' 'session 1 3 8 2 20000 100000 500000 weather watch' 'look 1 10 00000000 hello weather watch'; }
  > looks() { yes 'look 1 20 00000000' | head -n $1; }

  $ { greet; echo x; looks 100000; } >script
  > anew replay <script
  low 1 10 welcome 0
  fault script 3
  [5]

  $ { greet; looks 200000; } >script
  > anew replay <script
  low 1 10 welcome 0
  end 1 0 0 0
