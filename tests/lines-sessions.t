The lines of a whole session that are about its kind, its high side and its disks, and the step of a second pump: which are read,
and which are no lines.

  $ rest='3 8 2 20000 100000 500000 weather watch'
  $ replay() { rm -f *.low *.high *.recv; printf '%s\n' "$@" | netpump replay 2> sentence; }

# A coarse session

The session with the greatest number is made coarse: the start 20000 comes down as the level 32768.

  $ replay "session 4294967295 $rest" 'coarse 4294967295' \
  >   'look 4294967295 0 00000000 hello weather watch' \
  >   'look 4294967295 0 00000000 data 0 61' \
  >   'look 4294967295 0 00000000'
  low 4294967295 0 welcome 0
  stored 4294967295 0 0
  passed 4294967295 0 0 32768
  end 4294967295 1 0 0

The sessions 0 and 1 can be made coarse.

  $ coarse() { replay "low-session 0 $rest 0 0" "low-session 1 $rest 0 0" "$1"; }
  $ coarse 'coarse 0'
  end 0 0 - -
  end 1 0 - -
  $ coarse 'coarse 1'
  end 0 0 - -
  end 1 0 - -

These lines make none so: without a number, with another word for it, with one past its bound, with a field too many, and with
another first word.

  $ coarse 'coarse'
  fault script 3
  [5]
  $ coarse 'coarse x'
  fault script 3
  [5]
  $ coarse 'coarse 4294967296'
  fault script 3
  [5]
  $ coarse 'coarse 1 2'
  fault script 3
  [5]
  $ coarse 'Coarse 1'
  fault script 3
  [5]

# A step of the second of two pumps

The second pump has the greatest number, and steps at the latest moment: the sender between the pumps greets it.

  $ step() {
  >   rm -f *.low *.high *.recv
  >   printf '%s\n' "session 7 $rest" "session $1 $rest" "$2" | netpump chain 2> sentence
  > }
  $ step 4294967295 'step 4294967295 4611686018427387904 0000000A'
  low 4294967295 4611686018427387904 welcome 0
  end 7 0 0 0
  end 4294967295 0 0 0

The second pump steps where it is session 0 or 1.

  $ step 0 'step 0 5 0000000a'
  low 0 5 welcome 0
  end 0 0 0 0
  end 7 0 0 0
  $ step 1 'step 1 5 0000000a'
  low 1 5 welcome 0
  end 1 0 0 0
  end 7 0 0 0

These are no steps: a field is missing, something comes with it, the session or the moment is past its bound, the word has seven
digits, and the first word is another one.

  $ step 1 'step 1 5'
  fault script 3
  [5]
  $ step 1 'step 1 5 0000000a hello weather watch'
  fault script 3
  [5]
  $ step 0 'step 4294967296 5 0000000a'
  fault script 3
  [5]
  $ step 1 'step 1 4611686018427387905 0000000a'
  fault script 3
  [5]
  $ step 1 'step 1 5 000000a'
  fault script 3
  [5]
  $ step 1 'Step 1 5 0000000a'
  fault script 3
  [5]

# The high side, step by step

In session S message 0 is stored and passed on. Then come further lines; what is printed until then is left out.

  $ passed() {
  >   replay "session $1 $rest" "look $1 0 00000000 hello weather watch" "look $1 0 00000000 data 0 61" \
  >     "look $1 0 00000000" "${@:2}" | tail -n +4
  >   return ${PIPESTATUS[0]}
  > }

The high side looks at the latest moment, and sends the message.

  $ passed 1 'high 1 4611686018427387904'
  sent 1 4611686018427387904 0
  end 1 1 0 0

In the session with the greatest number the last packet is carried to the receiver. One further back than all is not there.

  $ passed 4294967295 'high 4294967295 0' 'carry 4294967295 0'
  sent 4294967295 0 0
  took 4294967295 0
  end 4294967295 1 0 1
  $ passed 4294967295 'high 4294967295 0' 'carry 4294967295 18446744073709551615'
  sent 4294967295 0 0
  fault script 6
  [5]

The TAKEN three before the last one comes back, where there are four.

  $ passed 1 'high 1 0' 'carry 1 0' 'carry 1 0' 'carry 1 0' 'carry 1 0' 'return 1 20 3'
  sent 1 0 0
  took 1 0
  again 1 0
  again 1 0
  again 1 0
  removed 1 20 0 20
  end 1 1 1 1
  $ passed 1 'high 1 0' 'carry 1 0' 'carry 1 0' 'carry 1 0' 'return 1 20 3'
  sent 1 0 0
  took 1 0
  again 1 0
  again 1 0
  fault script 9
  [5]

Where message 0 was sent and taken at 0, each of the three lines can be applied.

  $ taken() { passed 1 'high 1 0' 'carry 1 0' "$1"; }
  $ taken 'high 1 0'
  sent 1 0 0
  took 1 0
  end 1 1 0 1
  $ taken 'carry 1 0'
  sent 1 0 0
  took 1 0
  again 1 0
  end 1 1 0 1
  $ taken 'return 1 0 0'
  sent 1 0 0
  took 1 0
  removed 1 0 0 0
  end 1 1 1 1

These are no lines: a field is missing, a number is past its bound, has leading zeros, or is one too many.

  $ taken 'high 1'
  sent 1 0 0
  took 1 0
  fault script 7
  [5]
  $ taken 'high 1 4611686018427387905'
  sent 1 0 0
  took 1 0
  fault script 7
  [5]
  $ taken 'high 1 0 0'
  sent 1 0 0
  took 1 0
  fault script 7
  [5]
  $ taken 'carry 1'
  sent 1 0 0
  took 1 0
  fault script 7
  [5]
  $ taken 'carry 1 18446744073709551616'
  sent 1 0 0
  took 1 0
  fault script 7
  [5]
  $ taken 'carry 1 00'
  sent 1 0 0
  took 1 0
  fault script 7
  [5]
  $ taken 'carry 1 0 0'
  sent 1 0 0
  took 1 0
  fault script 7
  [5]
  $ taken 'return 1 0'
  sent 1 0 0
  took 1 0
  fault script 7
  [5]
  $ taken 'return 1 4611686018427387905 0'
  sent 1 0 0
  took 1 0
  fault script 7
  [5]
  $ taken 'return 1 0 18446744073709551616'
  sent 1 0 0
  took 1 0
  fault script 7
  [5]

# Disks that are opened again

Both processes are, at the latest moment, and the receiver of the session with the greatest number.

  $ replay "session 1 $rest" 'restart 1 4611686018427387904'
  restart 1 4611686018427387904 0 0 0
  end 1 0 0 0
  $ replay "session 4294967295 $rest" 'receiver-restart 4294967295 0'
  attach 4294967295 0 0
  end 4294967295 0 0 0

So they are in the sessions 0 and 1.

  $ again() { replay "session 0 $rest" "session 1 $rest" "$1"; }
  $ again 'restart 1 0'
  restart 1 0 0 0 0
  end 0 0 0 0
  end 1 0 0 0
  $ again 'receiver-restart 0 0'
  attach 0 0 0
  end 0 0 0 0
  end 1 0 0 0
  $ again 'receiver-restart 1 0'
  attach 1 0 0
  end 0 0 0 0
  end 1 0 0 0

These are no lines: a field is missing, one is too many, a number is past its bound, and the first word is another one.

  $ again 'restart 1'
  fault script 3
  [5]
  $ again 'restart 1 0 0'
  fault script 3
  [5]
  $ again 'restart 1 4611686018427387905'
  fault script 3
  [5]
  $ again 'receiver-restart 4294967296 0'
  fault script 3
  [5]
  $ again 'receiver restart 1 0'
  fault script 3
  [5]
  $ again 'receiver-Restart 1 0'
  fault script 3
  [5]
