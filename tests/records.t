Records are audited, and two of them are compared.

What the program says on standard error is left out; sentences.t has it.

  $ netpump() { command netpump "$@" 2>/dev/null; }

A record in which Low greets, hands in a message, and is acknowledged. `with` changes one of its lines, and `audited` audits the
record that comes of it.

  $ cat >record <<.
  > low-session 1 3 8 2 20000 100000 500000 a b 0 0
  > told 1 10 00000000 fine - raw 4e5001010000000100000000000000000003613a62
  > # low 1 10 welcome 0
  > told 1 20 00000000 fine - raw 4e500103000000010000000000000000000161
  > told 1 30 00000000 fine 0/20000
  > told 1 108 00000000 fine -
  > # low 1 108 ack 0
  > # time 50
  > # took 1
  > # end 1 1
  > .
  $ with() { awk -v at=$1 -v line="$2" 'NR == at { $0 = line } { print }' record; }
  $ audited() { with $1 "$2" | netpump audit; }

It is clean, with four looks, an acknowledgement and a time.

  $ netpump audit <record
  audit yes 4 1 1

The comment is of another reply, or another line stands in its place (3).

  $ audited 3 '# low 1 10 welcome 1'
  audit no 3 3
  [15]
  $ audited 3 'told 1 20 00000000 fine - raw 4e500103000000010000000000000000000161'
  audit no 3 3
  [15]

The moment falls; a look that passes the message on is told nothing (2).

  $ audited 4 'told 1 9 00000000 fine -'
  audit no 4 2
  [15]
  $ audited 5 'told 1 30 00000000 fine -'
  audit no 5 2
  [15]

The average is not that of the first time (4).

  $ audited 5 'told 1 30 00000000 fine 1/60'
  audit no 5 4
  [15]

The line is of another session (1).

  $ audited 5 'told 2 30 00000000 fine 0/20000'
  audit no 5 1
  [15]

The acknowledgement is of another message (3); its moment is spelled in another way (1).

  $ audited 7 '# low 1 108 ack 1'
  audit no 7 3
  [15]
  $ audited 7 '# low 1 0108 ack 0'
  audit no 7 1
  [15]

Behind the times it does not say how many messages were taken (1).

  $ audited 9 '# time 60'
  audit no 10 1
  [15]

More are removed than taken; more are accepted than were stored (5).

  $ audited 10 '# end 1 2'
  audit no 10 5
  [15]
  $ audited 10 '# end 2 1'
  audit no 10 5
  [15]

There are no bytes at all; the record ends between its times and its last line; a reply has no comment.

  $ netpump audit </dev/null
  audit no 1 1
  [15]
  $ head -n 8 record | netpump audit
  audit no 9 1
  [15]
  $ head -n 6 record | netpump audit
  audit no 7 3
  [15]

Two records are compared, of which the second has one line changed. They differ in what was found at the opening.

  $ compared() { { cat record; echo '# compare'; with $1 "$2"; } | netpump compare; }
  $ compared 1 'low-session 1 3 8 2 20000 100000 500000 a b 1 0'
  differ 0 opening
  [16]

How many times an average is of makes no difference; the average does.

  $ compared 5 'told 1 30 00000000 fine 1/20000'
  agree 5
  $ compared 5 'told 1 30 00000000 fine 0/19999'
  differ 3 feedback
  [16]

The moment, the word, the outcome and what came make a difference.

  $ compared 5 'told 1 31 00000000 fine 0/20000'
  differ 3 moment
  [16]
  $ compared 5 'told 1 30 00000001 fine 0/20000'
  differ 3 word
  [16]
  $ compared 6 'told 1 108 00000000 fault -'
  differ 4 outcome
  [16]
  $ compared 6 'told 1 108 00000000 fine - raw 00'
  differ 4 arrival
  [16]

A look fewer, and a look more.

  $ compared 6 '# low 1 108 ack 9'
  differ 4 length
  [16]
  $ compared 7 'told 1 109 00000000 fine -'
  differ 5 length
  [16]

The second one ends too early, and there is no second one.

  $ compared 9 '# time 50'
  fault script 21
  [5]
  $ netpump compare <record
  fault script 11
  [5]
