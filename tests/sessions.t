Several sessions in a script, one beside the other: each has its own lines, disks and end.

Each script is replayed over new disks. What the program says on standard error is left out; sentences.t has it.

  $ netpump() { command netpump "$@" 2>/dev/null; }
  $ anew() { rm -f *.low *.high *.recv; netpump "$@"; }

The ends come by rising number, in whichever order the script begins the sessions.

  $ anew replay <<.
  > session 2 3 8 2 20000 100000 500000 weather watch
  > session 1 3 8 2 20000 100000 500000 weather watch
  > look 1 10 00000000 hello weather watch
  > look 2 10 00000000 hello weather watch
  > .
  low 1 10 welcome 0
  low 2 10 welcome 0
  end 1 0 0 0
  end 2 0 0 0

A low side alone stands beside two whole sessions.

  $ anew replay <<.
  > low-session 7 3 8 2 20000 100000 500000 weather watch 5 0
  > session 2 3 8 2 20000 100000 500000 weather watch
  > session 1 3 8 2 20000 100000 500000 weather watch
  > look 1 10 00000000 hello weather watch
  > look 2 10 00000000 hello weather watch
  > told 7 20 00000000 fine - hello weather watch
  > look 1 30 00000000 data 0 61
  > .
  low 1 10 welcome 0
  low 2 10 welcome 0
  low 7 20 welcome 5
  stored 1 30 0
  end 1 1 0 0
  end 2 0 0 0
  end 7 5 - -

Each line is its session's: a buffer, an average and a hand are each one's own.

  $ anew replay <<.
  > session 2 3 8 2 20000 100000 500000 weather watch
  > session 1 3 8 2 20000 100000 500000 weather watch
  > look 1 10 00000000 hello weather watch
  > look 2 10 00000000 hello weather watch
  > look 1 100 00000000 data 0 61
  > look 2 100 00000000 data 0 62
  > look 1 100 00000000
  > look 2 100 00000000
  > look 1 178 00000000
  > high 2 200
  > carry 2 0
  > return 2 200 0
  > .
  low 1 10 welcome 0
  low 2 10 welcome 0
  stored 1 100 0
  stored 2 100 0
  passed 1 100 0 20000
  passed 2 100 0 20000
  low 1 178 ack 0
  sent 2 200 0
  took 2 0
  removed 2 200 0 0
  end 1 1 0 0
  end 2 1 1 1

A whole session is begun after a look,

  $ anew replay <<.
  > session 2 3 8 2 20000 100000 500000 weather watch
  > session 1 3 8 2 20000 100000 500000 weather watch
  > look 1 10 00000000 hello weather watch
  > look 2 10 00000000 hello weather watch
  > session 3 3 8 2 20000 100000 500000 weather watch
  > .
  low 1 10 welcome 0
  low 2 10 welcome 0
  fault script 5
  [5]

and a low side alone is.

  $ anew replay <<.
  > session 2 3 8 2 20000 100000 500000 weather watch
  > session 1 3 8 2 20000 100000 500000 weather watch
  > look 1 10 00000000 hello weather watch
  > look 2 10 00000000 hello weather watch
  > low-session 3 3 8 2 20000 100000 500000 weather watch 0 0
  > .
  low 1 10 welcome 0
  low 2 10 welcome 0
  fault script 5
  [5]

Two sessions have one number,

  $ anew replay <<.
  > session 2 3 8 2 20000 100000 500000 weather watch
  > session 1 3 8 2 20000 100000 500000 weather watch
  > session 2 3 8 2 20000 100000 500000 weather watch
  > session 1 3 8 2 20000 100000 500000 weather watch
  > .
  fault script 3
  [5]

also of either kind.

  $ anew replay <<.
  > low-session 3 3 8 2 20000 100000 500000 weather watch 0 0
  > session 3 3 8 2 20000 100000 500000 weather watch
  > .
  fault script 2
  [5]

The moment falls from one session to the other.

  $ anew replay <<.
  > session 2 3 8 2 20000 100000 500000 weather watch
  > session 1 3 8 2 20000 100000 500000 weather watch
  > look 1 10 00000000 hello weather watch
  > look 2 10 00000000 hello weather watch
  > look 2 20 00000000
  > look 1 19 00000000
  > .
  low 1 10 welcome 0
  low 2 10 welcome 0
  fault script 6
  [5]

Of `done` the later of its two moments counts.

  $ anew replay <<.
  > session 2 3 8 2 20000 100000 500000 weather watch
  > session 1 3 8 2 20000 100000 500000 weather watch
  > look 1 10 00000000 hello weather watch
  > look 2 10 00000000 hello weather watch
  > look 1 20 00000000 data 0 61
  > look 1 20 00000000
  > done 1 30 10
  > look 2 39 00000000
  > .
  low 1 10 welcome 0
  low 2 10 welcome 0
  stored 1 20 0
  passed 1 20 0 20000
  sent 1 30 0
  took 1 0
  removed 1 40 0 10
  fault script 8
  [5]

A look is of a session that isn't there,

  $ anew replay <<.
  > session 2 3 8 2 20000 100000 500000 weather watch
  > session 1 3 8 2 20000 100000 500000 weather watch
  > look 1 10 00000000 hello weather watch
  > look 2 10 00000000 hello weather watch
  > look 3 10 00000000
  > .
  low 1 10 welcome 0
  low 2 10 welcome 0
  fault script 5
  [5]

or of one of the other kind.

  $ anew replay <<.
  > session 2 3 8 2 20000 100000 500000 weather watch
  > session 1 3 8 2 20000 100000 500000 weather watch
  > low-session 3 3 8 2 20000 100000 500000 weather watch 0 0
  > look 3 10 00000000
  > .
  fault script 4
  [5]

A seventeenth session is one too many, whatever their numbers are.

  $ for number in $(seq 30 -1 14); do
  >   echo "low-session $number 3 8 2 20000 100000 500000 weather watch 0 0"
  > done | anew replay
  fault script 17
  [5]

A message is stored in session 1.

  $ anew replay <<.
  > session 2 3 8 2 20000 100000 500000 weather watch
  > session 1 3 8 2 20000 100000 500000 weather watch
  > look 1 10 00000000 hello weather watch
  > look 1 20 00000000 data 0 61
  > .
  low 1 10 welcome 0
  stored 1 20 0
  end 1 1 0 0
  end 2 0 0 0

The disks of session 2 are refused, since they are another row's,

  $ netpump replay <<.
  > session 1 3 8 2 20000 100000 500000 weather watch
  > session 2 4 8 2 20000 100000 500000 weather watch
  > .
  fault disk 2 low 3 3 4
  [8]

and those of both are as they were.

  $ netpump replay <<.
  > session 2 3 8 2 20000 100000 500000 weather watch
  > session 1 3 8 2 20000 100000 500000 weather watch
  > .
  end 1 1 0 0
  end 2 0 0 0

Two buoys send forty weather reports of 60 to 200 bytes, and the first one's receiver takes nothing. `reports` writes the
script of the first buoy, of the second, or of both.

  $ reports() {
  >   [[ $1 = *1* ]] && echo session 1 16 512 8 20000 200000 500000 buoy-1 shore
  >   [[ $1 = *2* ]] && echo session 2 16 512 8 20000 200000 500000 buoy-2 shore
  >   [[ $1 = *1* ]] && echo look 1 0 00000000 hello buoy-1 shore
  >   [[ $1 = *2* ]] && echo look 2 0 00000000 hello buoy-2 shore
  >   for ((k = 0; k < 40; k++)); do
  >     moment=$((100000 * k + 1000))
  >     payload=$(printf '61%.0s' $(seq $((60 + 7 * k % 141))))
  >     [[ $1 = *1* ]] && ((k < 15)) && echo look 1 $moment 00000000 data $k $payload
  >     [[ $1 = *1* ]] && echo look 1 $moment 00000000
  >     [[ $1 = *2* ]] && echo look 2 $moment 00000000 data $k $payload
  >     [[ $1 = *2* ]] && echo look 2 $moment 00000000
  >     [[ $1 = *1* ]] && echo look 1 $((moment + 78)) 00000000
  >     [[ $1 = *2* ]] && echo look 2 $((moment + 78)) 00000000 && echo done 2 $((moment + 100)) 1500
  >   done
  > }

  $ reports 12 >script; anew replay <script >both
  $ reports 1 >script; anew replay <script >first
  $ reports 2 >script; anew replay <script >second

The lines of each are those of the script without the other.

  $ grep '^[a-z]* 1 ' both | cmp - first
  $ grep '^[a-z]* 2 ' both | cmp - second

  $ tail -n 2 both
  end 1 15 0 0
  end 2 40 40 40

Each report of the second one is acknowledged 78 microseconds after it came.

  $ for ((k = 0; k < 40; k++)); do echo low 2 $((100000 * k + 1078)) ack $k; done >acks
  > grep '^low 2 .* ack ' second | cmp - acks

Of the first one fourteen are acknowledged, one more is stored, and the buffer is full from then on.

  $ grep -e ack -e stored first | tail -n 3
  stored 1 1301000 13
  low 1 1301078 ack 13
  stored 1 1401000 14
  $ tail -n 2 first
  full 1 3901078
  end 1 15 0 0
