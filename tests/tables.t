Session tables that are read, as the opening line of a relay shows their rows.

The two rows of refused_tables.t, at ports that nobody else has: each number but these is at an end of its range in the second.
`opened` formats the disks of both sessions, runs a relay of each for a round, and prints what they found.

  $ ports=($(python3 -c '
  > import socket
  > ends = [socket.create_server(("127.0.0.1", 0)) for _ in range(4)]
  > print(*[end.getsockname()[1] for end in ends])'))

  $ cat >first <<.
  > [[session]]
  > id = 1
  > low = "weather"
  > high = "watch"
  > capacity = 3
  > message = 8
  > window = 2
  > start = 20000
  > longest = 100000
  > resend = 500000
  > low_port = ${ports[0]}
  > high_port = ${ports[1]}
  > .
  $ cat >second <<.
  > [[session]]
  > high_port = ${ports[2]}
  > low_port = ${ports[3]}
  > resend = 1
  > longest = 1_000_000_000
  > start = 0
  > window = 256
  > message = 1024
  > capacity = 256
  > coarse = true
  > high = "-"
  > low = "a-name-of-thirty-two-bytes-00009"
  > id = 4294967295
  > .
  $ both=$(cat first second)
  $ opened() {
  >   rm -f *.low *.high *.recv
  >   for session in 1 4294967295; do
  >     netpump format t.toml $session >said && netpump serve t.toml $session 1 2>log || cat said
  >   done
  > }
  $ changed() { printf '%s\n' "${both//"$1"/"$2"}" >t.toml; opened; }

Nothing is changed.

  $ changed '' ''
  low-session 1 3 8 2 20000 100000 500000 weather watch 0 0
  low-session 4294967295 256 1024 256 0 1000000000 1 a-name-of-thirty-two-bytes-00009 - 0 0
  coarse 4294967295

A row has its capacity, and is coarse where it says so.

  $ changed 'capacity = 3' 'capacity = 65'
  low-session 1 65 8 2 20000 100000 500000 weather watch 0 0
  low-session 4294967295 256 1024 256 0 1000000000 1 a-name-of-thirty-two-bytes-00009 - 0 0
  coarse 4294967295
  $ changed 'capacity = 3' 'capacity = 256'
  low-session 1 256 8 2 20000 100000 500000 weather watch 0 0
  low-session 4294967295 256 1024 256 0 1000000000 1 a-name-of-thirty-two-bytes-00009 - 0 0
  coarse 4294967295
  $ changed 'capacity = 3' $'capacity = 3\ncoarse = true'
  low-session 1 3 8 2 20000 100000 500000 weather watch 0 0
  coarse 1
  low-session 4294967295 256 1024 256 0 1000000000 1 a-name-of-thirty-two-bytes-00009 - 0 0
  coarse 4294967295
  $ changed 'capacity = 3' $'coarse = false\ncapacity = 4'
  low-session 1 4 8 2 20000 100000 500000 weather watch 0 0
  low-session 4294967295 256 1024 256 0 1000000000 1 a-name-of-thirty-two-bytes-00009 - 0 0
  coarse 4294967295

A row may be written in any way of TOML: numbers to other bases, with a sign, a comment or a key in quotes; texts in other quotes or
with escapes; a byte order mark at the head, other line ends, and no spaces.

  $ changed 'capacity = 3' 'capacity = 0b11'
  low-session 1 3 8 2 20000 100000 500000 weather watch 0 0
  low-session 4294967295 256 1024 256 0 1000000000 1 a-name-of-thirty-two-bytes-00009 - 0 0
  coarse 4294967295
  $ changed 'capacity = 3' 'capacity = 0o3'
  low-session 1 3 8 2 20000 100000 500000 weather watch 0 0
  low-session 4294967295 256 1024 256 0 1000000000 1 a-name-of-thirty-two-bytes-00009 - 0 0
  coarse 4294967295
  $ changed 'capacity = 3' '"capacity" = +3 # messages'
  low-session 1 3 8 2 20000 100000 500000 weather watch 0 0
  low-session 4294967295 256 1024 256 0 1000000000 1 a-name-of-thirty-two-bytes-00009 - 0 0
  coarse 4294967295
  $ changed '"weather"' "'weather'"
  low-session 1 3 8 2 20000 100000 500000 weather watch 0 0
  low-session 4294967295 256 1024 256 0 1000000000 1 a-name-of-thirty-two-bytes-00009 - 0 0
  coarse 4294967295
  $ changed '"weather"' '"w\u0065ather"'
  low-session 1 3 8 2 20000 100000 500000 weather watch 0 0
  low-session 4294967295 256 1024 256 0 1000000000 1 a-name-of-thirty-two-bytes-00009 - 0 0
  coarse 4294967295
  $ changed $'[[session]]\nid = 1\n' $'\xef\xbb\xbf[[session]]\r\n\r\nid=1\r\n'
  low-session 1 3 8 2 20000 100000 500000 weather watch 0 0
  low-session 4294967295 256 1024 256 0 1000000000 1 a-name-of-thirty-two-bytes-00009 - 0 0
  coarse 4294967295

A session that is not in the table has no row, and a table may have none at all.

  $ netpump show t.toml 2 2>&1
  fault table 11 2
  netpump: no row of the table t.toml has id = 2; name a session that has one, or add it
  [6]
  $ echo 'session = []' >t.toml; netpump show t.toml 1 2>&1
  fault table 11 1
  netpump: no row of the table t.toml has id = 1; name a session that has one, or add it
  [6]
