A low side alone, which a script tells what the passage answers and whether its device fails.

Each script is replayed over new disks. What the program says on standard error is left out; sentences.t has it.

  $ netpump() { command netpump "$@" 2>/dev/null; }
  $ anew() { rm -f *.low *.high *.recv; netpump "$@"; }

With the greatest number that there is, a message that was accepted before is acknowledged again.

  $ anew replay <<.
  > low-session 1 3 8 2 20000 100000 500000 weather watch 281474976710656 0
  > told 1 10 00000000 fine - hello weather watch
  > told 1 20 00000000 fine 0/20000 data 281474976710655 61
  > told 1 98 00000000 fine -
  > .
  low 1 10 welcome 281474976710656
  repeat 1 20 0 20000
  low 1 98 ack 281474976710655
  end 1 281474976710656 - -

The message that was in the hand at the opening is passed on when the buffer is no longer full, and nobody waits for it.

  $ anew replay <<.
  > low-session 1 3 8 2 20000 100000 500000 weather watch 1 1
  > told 1 10 00000000 fine full
  > told 1 20 00000000 fine 0/20000
  > .
  full 1 10
  released 1 20
  end 1 1 - -

No message can be in the hand where none was accepted.

  $ anew replay <<.
  > low-session 1 3 8 2 20000 100000 500000 weather watch 0 1
  > .
  fault script 1
  [5]

Where the device fails in a store, Low is told so (code 5) and the script stops.

  $ anew replay <<.
  > low-session 1 3 8 2 20000 100000 500000 weather watch 0 0
  > told 1 10 00000000 fine - hello weather watch
  > told 1 20 00000000 fault - data 0 61
  > told 1 30 00000000 fine -
  > .
  low 1 10 welcome 0
  low 1 20 refuse 5 0
  fault device 1 low
  [7]

The fault stays until a look stores a message.

  $ anew replay <<.
  > low-session 1 3 8 2 20000 100000 500000 weather watch 0 0
  > told 1 10 00000000 fault - hello weather watch
  > told 1 20 00000000 fine - data 0 61
  > .
  low 1 10 welcome 0
  low 1 20 refuse 5 0
  fault device 1 low
  [7]

No look stores one here, so the fault does nothing.

  $ anew replay <<.
  > low-session 1 3 8 2 20000 100000 500000 weather watch 0 0
  > told 1 10 00000000 fault - hello weather watch
  > .
  low 1 10 welcome 0
  end 1 0 - -
