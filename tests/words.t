The words of a command line, and the command that they are; all other words are answered by a fault line with status 2.

Each line is tried with nothing on standard input, and is printed with its status before it and what is written behind it.

  $ tried() {
  >   while read -r words; do
  >     written=$(netpump $words </dev/null 2>/dev/null)
  >     echo "$? $words${written:+: $written}"
  >   done
  > }

These are no commands.

  $ tried <<.
  > replay now
  > format t.toml 01
  > format t.toml +1
  > format t.toml 4294967296
  > format .toml 1
  > format a/b 1
  > format -- t.toml 1
  > format t.toml -- 1
  > format t.toml
  > show a2345678901234567890123456789012345678901234567890123456789012345 1
  > sho t.toml 1
  > exercise 0 0
  > exercise 0 100001
  > exercise -1 1
  > race 0 1 1,2,3,4,5,6,7,8,9,10,11,12,13,14,15,16,17
  > race 0 1 1000000001
  > race 0 1 50,
  > race 0 1 50,,20
  > race 0 1 050
  > race 0 1
  > send t.toml 1 0
  > send t.toml 1 4294967296
  > append t.toml 1 0
  > append t.toml 1
  > drop t.toml 1 5
  > drop t.toml 1 5 a/b
  > drop t.toml 1 0 out
  > collect t.toml 01 5 in
  > collect t.toml 1 5 .in
  > serve t.toml 1 05
  > receive t.toml 1
  > recv t.toml 1 5
  > serve t.toml 1 5 -v
  > migrate t.toml 1 u.toml
  > migrate t.toml 1 .toml 2
  > migrate t.toml 1 u.toml 02
  > migrate t.toml 4294967296 u.toml 2
  > wrap t.toml
  > unwrap t.toml
  > unwrap t.toml 01
  > messages t.toml 1
  > messages t.toml 1 01
  > messages t.toml 1 4294967296
  > messages t.toml 1 0 0
  > status t.toml
  > status t.toml 1 1
  > audit record
  > chain t.toml 1
  > help
  > help replay
  > --help
  > -h
  > replay --help
  > --version
  > .
  2 replay now: fault words
  2 format t.toml 01: fault words
  2 format t.toml +1: fault words
  2 format t.toml 4294967296: fault words
  2 format .toml 1: fault words
  2 format a/b 1: fault words
  2 format -- t.toml 1: fault words
  2 format t.toml -- 1: fault words
  2 format t.toml: fault words
  2 show a2345678901234567890123456789012345678901234567890123456789012345 1: fault words
  2 sho t.toml 1: fault words
  2 exercise 0 0: fault words
  2 exercise 0 100001: fault words
  2 exercise -1 1: fault words
  2 race 0 1 1,2,3,4,5,6,7,8,9,10,11,12,13,14,15,16,17: fault words
  2 race 0 1 1000000001: fault words
  2 race 0 1 50,: fault words
  2 race 0 1 50,,20: fault words
  2 race 0 1 050: fault words
  2 race 0 1: fault words
  2 send t.toml 1 0: fault words
  2 send t.toml 1 4294967296: fault words
  2 append t.toml 1 0: fault words
  2 append t.toml 1: fault words
  2 drop t.toml 1 5: fault words
  2 drop t.toml 1 5 a/b: fault words
  2 drop t.toml 1 0 out: fault words
  2 collect t.toml 01 5 in: fault words
  2 collect t.toml 1 5 .in: fault words
  2 serve t.toml 1 05: fault words
  2 receive t.toml 1: fault words
  2 recv t.toml 1 5: fault words
  2 serve t.toml 1 5 -v: fault words
  2 migrate t.toml 1 u.toml: fault words
  2 migrate t.toml 1 .toml 2: fault words
  2 migrate t.toml 1 u.toml 02: fault words
  2 migrate t.toml 4294967296 u.toml 2: fault words
  2 wrap t.toml: fault words
  2 unwrap t.toml: fault words
  2 unwrap t.toml 01: fault words
  2 messages t.toml 1: fault words
  2 messages t.toml 1 01: fault words
  2 messages t.toml 1 4294967296: fault words
  2 messages t.toml 1 0 0: fault words
  2 status t.toml: fault words
  2 status t.toml 1 1: fault words
  2 audit record: fault words
  2 chain t.toml 1: fault words
  2 help: fault words
  2 help replay: fault words
  2 --help: fault words
  2 -h: fault words
  2 replay --help: fault words
  2 --version: fault words

Nor is a word without letters, or no word at all.

  $ netpump '' 2>/dev/null
  fault words
  [2]
  $ netpump 2>/dev/null
  fault words
  [2]

These are commands without a table. An empty script is replayed to its end; it is no chain, no record, and no two of them.

  $ tried <<.
  > replay
  > exercise 0 1
  > exercise 4294967295 100000
  > audit
  > compare
  > chain
  > .
  0 replay
  0 exercise 0 1: exercise 0 1 looks 4 acks 1 full 0 removed 0 delay 5431
  0 exercise 4294967295 100000: exercise 4294967295 100000 looks 314286 acks 100000 full 14285 removed 99995 delay 205973998
  15 audit: audit no 1 1
  5 compare: fault script 1
  5 chain: fault script 1

Races, with one time and with several; the last line of each record says that all messages were accepted and removed.

  $ netpump race 3 100000 50,700,20 | tail -n 1
  # end 100000 100000
  $ netpump race 0 1 0 | tail -n 1
  # end 1 1
  $ netpump race 0 1 1,2,3,4,5,6,7,8,9,10,11,12,13,14,15,1000000000 | tail -n 1
  # end 1 1

The others are over tables: one with the sessions 1 and 4294967295, whose ports nobody else has, and one with session 0.

  $ . $TESTDIR/helpers
  $ ports=($(free_ports 4))
  $ row low_port=${ports[0]} high_port=${ports[1]} >t.toml
  $ row id=4294967295 low_port=${ports[2]} high_port=${ports[3]} >>t.toml
  $ cp t.toml u.toml
  $ row id=0 >0
  $ long=a234567890123456789012345678901234567890123456789012345678901234
  $ cp t.toml $long

  $ tried <<.
  > format t.toml 1
  > format 0 0
  > serve t.toml 1 5
  > receive t.toml 1 4294967295
  > send t.toml 4294967295 1
  > append t.toml 4294967295 3
  > migrate t.toml 1 u.toml 4294967295
  > migrate t.toml 1 t.toml 1
  > format t.toml 4294967295
  > show t.toml 1
  > show a234567890123456789012345678901234567890123456789012345678901234 1
  > wrap t.toml 1
  > unwrap t.toml 1
  > messages t.toml 1 0
  > messages t.toml 1 4294967295
  > status t.toml 1
  > .
  0 format t.toml 1: formatted 1
  0 format 0 0: formatted 0
  0 serve t.toml 1 5: low-session 1 3 12 2 20000 100000 500000 weather watch 0 0
  9 receive t.toml 1 4294967295: fault link
  9 send t.toml 4294967295 1: fault link
  12 append t.toml 4294967295 3: appended 4294967295 0 0
  fault unfinished 0
  0 migrate t.toml 1 u.toml 4294967295: migrated 1 4294967295 0 0 0
  6 migrate t.toml 1 t.toml 1: fault table 13 1
  8 format t.toml 4294967295: fault disk 4294967295 low 9 122 0
  0 show t.toml 1: show 1 0 0 0
  0 show a234567890123456789012345678901234567890123456789012345678901234 1: show 1 0 0 0
  0 wrap t.toml 1: wrapped 1 0 1
  0 unwrap t.toml 1
  0 messages t.toml 1 0: message 1 0 010000000000000000
  0 messages t.toml 1 4294967295
  0 status t.toml 1: status 1 1 1 1 0 3
