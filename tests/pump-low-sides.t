A low side alone, which is told what it would hear of High's side: what it prints, and where it stops.

Each script begins with one of these two lines: nothing is stored, or message 0 is, and is in the low hand.

  $ empty='low-session 1 3 8 2 20000 100000 500000 weather watch 0 0'
  $ held='low-session 1 3 8 2 20000 100000 500000 weather watch 1 1'
  $ replay() { printf '%s\n' "$@" | netpump replay; }

A told fault fails the store: Low is refused, and the script stops there.

  $ replay "$empty" \
  >   'told 1 10 00000000 fine - hello weather watch' \
  >   'told 1 20 00000000 fault - data 0 61'
  low 1 10 welcome 0
  low 1 20 refuse 5 0
  fault device 1 low
  netpump: the device of the low disk fails in a store, as a line with the word fault tells; write fine in its place to go on. What was said until then is answered above
  [7]

A look that stores nothing leaves the fault to the next store.

  $ replay "$empty" \
  >   'told 1 10 00000000 fault - hello weather watch' \
  >   'told 1 20 00000000 fine - data 1 61' \
  >   'told 1 30 00000000 fine - data 0 61' 2> sentence
  low 1 10 welcome 0
  low 1 20 refuse 4 0
  low 1 30 refuse 5 0
  fault device 1 low
  [7]

A look at a full buffer keeps the message in the hand, and one that lets it pass releases it where nobody waits for it.

  $ replay "$held" \
  >   'told 1 10 00000000 fine full' \
  >   'told 1 20 00000000 fine 0/20000'
  full 1 10
  released 1 20
  end 1 1 - -

A repeat that is told nothing reads that no time was published, so it has the start; one that is told times has these.

  $ replay "$empty" \
  >   'told 1 10 00000000 fine - hello weather watch' \
  >   'told 1 20 00000000 fine 7/9 data 0 61' \
  >   'told 1 20 00000000 fine -' \
  >   'told 1 30 00000000 fine 3/5' \
  >   'told 1 1000 00000000 fine -' \
  >   'told 1 1100 00000000 fine - data 0 61' \
  >   'told 1 1177 00000000 fine 3/5' \
  >   'told 1 1178 00000000 fine 3/5' \
  >   'told 1 2000 00000000 fine 3/5 data 0 61'
  low 1 10 welcome 0
  stored 1 20 0
  full 1 20
  passed 1 30 3 5
  low 1 1000 ack 0
  repeat 1 1100 0 20000
  low 1 1178 ack 0
  repeat 1 2000 3 5
  end 1 1 - -

What came of a connection that is lost is forgotten: the next one greets anew, and without a greeting is refused.

  $ replay "$held" \
  >   'gone 1 5' \
  >   'told 1 10 00000000 fine 0/20000 hello weather watch' \
  >   'told 1 20 00000000 fine -' \
  >   'gone 1 30' \
  >   'told 1 40 00000000 fine - data 1 61'
  released 1 10
  low 1 20 welcome 1
  low 1 40 refuse 2 0
  end 1 1 - -

Lines that cannot be applied after a HELLO at 10: a moment that is over, another session, and what a low side alone does not do.

  $ barred() { replay "$empty" 'told 1 10 00000000 fine - hello weather watch' "$1" 2> sentence; }

  $ barred 'told 1 9 00000000 fine -'
  low 1 10 welcome 0
  fault script 3
  [5]

  $ barred 'told 2 20 00000000 fine -'
  low 1 10 welcome 0
  fault script 3
  [5]

  $ barred 'gone 1 9'
  low 1 10 welcome 0
  fault script 3
  [5]

  $ barred 'gone 2 20'
  low 1 10 welcome 0
  fault script 3
  [5]

  $ barred 'look 1 20 00000000'
  low 1 10 welcome 0
  fault script 3
  [5]

  $ barred 'high 1 20'
  low 1 10 welcome 0
  fault script 3
  [5]

  $ barred 'step 1 20 00000000'
  low 1 10 welcome 0
  fault script 3
  [5]

With a moment and a session that are allowed, the two lines of a low side are applied.

  $ barred 'told 1 10 00000000 fine -'
  low 1 10 welcome 0
  end 1 0 - -
  $ barred 'gone 1 10'
  low 1 10 welcome 0
  end 1 0 - -

In a coarse session a look cannot be told an average that is no level.

  $ replay "$held" 'coarse 1' 'told 1 10 00000000 fine 0/20000' 2> sentence
  fault script 3
  [5]
  $ replay "$held" 'coarse 1' 'told 1 10 00000000 fine 0/32768'
  released 1 10
  end 1 1 - -

There a repeat that is told nothing reads the level of the start.

  $ replay "$empty" 'coarse 1' \
  >   'told 1 10 00000000 fine - hello weather watch' \
  >   'told 1 20 00000000 fine - data 0 61' \
  >   'told 1 20 00000000 fine 0/32768' \
  >   'told 1 148 00000000 fine -' \
  >   'told 1 200 00000000 fine - data 0 61'
  low 1 10 welcome 0
  stored 1 20 0
  passed 1 20 0 32768
  low 1 148 ack 0
  repeat 1 200 0 32768
  end 1 1 - -
