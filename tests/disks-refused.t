Disks that are not what a session wrote: a byte is changed, or the end is cut off. `show` says which disk is refused, and why.

A replay makes the disks: three messages are accepted, one of them is removed, and the receiver has two. Low's disk was written
three times, high's once and the receiver's twice, so the register of low's and of high's disk is at 64, and the receiver's at 48.

  $ cat > table.toml <<'END'
  > [[session]]
  > id = 1
  > low = "weather"
  > high = "watch"
  > capacity = 3
  > message = 8
  > window = 2
  > start = 20000
  > longest = 100000
  > resend = 500000
  > low_port = 7001
  > high_port = 7002
  > END
  $ cat > script <<'END'
  > session 1 3 8 2 20000 100000 500000 weather watch
  > look 1 0 00000000 hello weather watch
  > look 1 0 00000000 data 0 61
  > look 1 0 00000000
  > look 1 1000 00000000
  > look 1 1000 00000000 data 1 62
  > done 1 1000 1
  > look 1 1001 00000000
  > look 1 2000 00000000
  > look 1 2000 00000000 data 2 63
  > high 1 2000
  > carry 1 0
  > END
  $ netpump replay < script | tail -n 1
  end 1 3 1 2
  $ mkdir whole
  $ mv 1.* whole

`whole` puts back the disks as they were, `byte` writes one byte, and `shown` shows the disks. Of what standard error says,
`shown` leaves out the second sentence, which is the same for each of these refusals.

  $ whole() { rm -rf 1.*; cp whole/1.* .; }
  $ byte() { printf "\\x$3" | dd of=$1 bs=1 seek=$2 conv=notrunc status=none; }
  $ shown() { local status; netpump show table.toml 1 2> sentence; status=$?; head -n 1 sentence; return $status; }
  $ changed() { whole; byte $1 $2 $3; shown; }

  $ whole
  $ shown
  show 1 3 1 2
  live 1 1 62
  live 1 2 63
  $ byte 1.low 3 32
  $ netpump show table.toml 1
  fault disk 1 low 2 110 1313883186
  netpump: the file 1.low is no disk of netpump's: it has 110 bytes, and does not begin as one
  netpump: put back the three files that belong together, use the numbers of the session line that made them, or replay in an empty folder to begin anew (docs/formats.md, "When disks are refused")
  [8]

# One byte of low's disk

The last byte of the mark.

  $ changed 1.low 3 32
  fault disk 1 low 2 110 1313883186
  netpump: the file 1.low is no disk of netpump's: it has 110 bytes, and does not begin as one
  [8]

The role, which is then high's.

  $ changed 1.low 4 48
  fault disk 1 low 3 72 76
  netpump: the file 1.low is a disk of the role high, and one of the role low is wanted, so the files of the session stand under each other's names
  [8]

The version, which is then 3.

  $ changed 1.low 5 03
  fault disk 1 low 3 3 2
  netpump: the file 1.low is of version 3, and 2 is wanted
  [8]

The session.

  $ changed 1.low 11 02
  fault disk 1 low 3 2 1
  netpump: the file 1.low is a disk of session 2, and the session is 1
  [8]

The capacity.

  $ changed 1.low 15 04
  fault disk 1 low 3 4 3
  netpump: the file 1.low was made with the capacity 4, and the session's is 3
  [8]
  $ changed 1.low 15 05
  fault disk 1 low 3 5 3
  netpump: the file 1.low was made with the capacity 5, and the session's is 3
  [8]

The message size.

  $ changed 1.low 19 09
  fault disk 1 low 3 9 8
  netpump: the file 1.low was made with the message size 9, and the session's is 8
  [8]

The first number of the register, which is then above 2^48.

  $ changed 1.low 65 01
  fault disk 1 low 4 281474976710659 0
  netpump: the register of the file 1.low has 281474976710659 and 0, which no such disk has
  [8]

Its second number, which is then not 0.

  $ changed 1.low 79 01
  fault disk 1 low 4 3 1
  netpump: the register of the file 1.low has 3 and 1, which no such disk has
  [8]

The length of message 1.

  $ changed 1.low 91 09
  fault disk 1 low 6 1 9
  netpump: message 1 in the file 1.low has 9 bytes, which is more than the session line allows
  [8]

In the cell that does not count, the same two changes are not seen.

  $ changed 1.low 49 01
  show 1 3 1 2
  live 1 1 62
  live 1 2 63
  $ changed 1.low 63 01
  show 1 3 1 2
  live 1 1 62
  live 1 2 63

A replay refuses the disk as `show` does.

  $ changed 1.low 91 09 > answer
  [8]
  $ head -n 1 script | netpump replay 2> sentence
  fault disk 1 low 6 1 9
  [8]

# Sizes and counts

Low's disk has three bytes.

  $ whole
  $ truncate -s 3 1.low
  $ shown
  fault disk 1 low 2 3 0
  netpump: the file 1.low is no disk of netpump's: it has 3 bytes, and does not begin as one
  [8]

It has one byte less than any disk, and the right mark.

  $ whole
  $ truncate -s 79 1.low
  $ shown
  fault disk 1 low 2 79 1313883185
  netpump: the file 1.low is no disk of netpump's: it has 79 bytes, and does not begin as one
  [8]

It has one byte less than one of its row.

  $ whole
  $ truncate -s 109 1.low
  $ shown
  fault disk 1 low 3 109 110
  netpump: the file 1.low has 109 bytes, and a disk of its session has 110
  [8]

Low's disk stands in the place of high's too.

  $ whole
  $ cp 1.low 1.high
  $ shown
  fault disk 1 high 3 76 72
  netpump: the file 1.high is a disk of the role low, and one of the role high is wanted, so the files of the session stand under each other's names
  [8]

Three messages are removed, and one is accepted.

  $ whole
  $ byte 1.low 71 01
  $ byte 1.high 71 03
  $ shown
  fault disk 1 high 5 3 1
  netpump: the files 1.low and 1.high are not of one time: 3 messages are removed, and 1 accepted
  [8]

Four messages are accepted and none is removed, which is one more than the capacity.

  $ whole
  $ byte 1.low 71 04
  $ byte 1.high 71 00
  $ shown
  fault disk 1 high 5 0 4
  netpump: the files 1.low and 1.high are not of one time: 0 messages are removed, and 4 accepted
  [8]

All three messages that are accepted are removed, and with a receiver that has them the disks are opened.

  $ whole
  $ byte 1.high 71 03
  $ printf '\0\1c' >> 1.recv
  $ byte 1.recv 55 03
  $ byte 1.recv 63 59
  $ shown
  show 1 3 3 3

# What disks with three live messages are dealt out as

Where none is removed, message 2 is in the low hand, message 1 on its way, and message 0 in the high hand. So the buffer is full
for message 2 until message 0 is removed, and the receiver knows both messages that it is sent.

  $ changed 1.high 71 00
  show 1 3 0 2
  live 1 0 61
  live 1 1 62
  live 1 2 63
  $ netpump replay <<'END'
  > session 1 3 8 2 20000 100000 500000 weather watch
  > restart 1 0
  > look 1 0 00000000
  > high 1 1
  > carry 1 0
  > return 1 2 0
  > look 1 4 00000000
  > carry 1 0
  > return 1 5 0
  > carry 1 0
  > END
  restart 1 0 3 0 1
  full 1 0
  sent 1 1 0
  again 1 0
  removed 1 2 0 1
  sent 1 2 1
  released 1 4
  again 1 1
  removed 1 5 1 3
  sent 1 5 2
  took 1 2
  end 1 3 2 3

# A receiver that goes with its relay

Its messages are those of the relay.

  $ whole
  $ shown
  show 1 3 1 2
  live 1 1 62
  live 1 2 63

It has another message 1 than the relay, where that is not removed.

  $ changed 1.recv 85 78
  fault disk 1 recv 8 1 0
  netpump: the files of session 1 are not of one time: message 1 is another one in 1.low than in 1.recv
  [8]

Where message 1 is removed, nobody knows that it was another one.

  $ whole
  $ byte 1.recv 85 78
  $ byte 1.high 71 02
  $ shown
  show 1 3 2 2
  live 1 2 63

Three messages are removed, and it has two.

  $ changed 1.high 71 03
  fault disk 1 recv 7 2 3
  netpump: the files of session 1 are not of one time: the receiver has 2 messages, and the bound is 3
  [8]

Its last byte is missing.

  $ whole
  $ truncate -s 85 1.recv
  $ shown
  fault disk 1 recv 4 2 86
  netpump: the register of the file 1.recv has 2 and 86, which no such disk has
  [8]

# Versions

A receiver's disk of this version, where the row and the three disks have this capacity. Version 1 had at most 64.

  $ version() {
  >   rm -rf 1.*
  >   sed "s/^capacity = 3$/capacity = $2/" table.toml > other.toml
  >   sed "s/^session 1 3 /session 1 $2 /" script | netpump replay > answer || return
  >   byte 1.recv 5 $1
  >   netpump show other.toml 1 2> sentence
  > }

  $ version 00 3
  fault disk 1 recv 3 0 2
  [8]
  $ version 01 3
  show 1 3 1 2
  live 1 1 62
  live 1 2 63
  $ version 01 64
  show 1 3 1 2
  live 1 1 62
  live 1 2 63
  $ version 01 65
  fault disk 1 recv 3 1 2
  [8]
  $ version 02 65
  show 1 3 1 2
  live 1 1 62
  live 1 2 63
  $ version 03 3
  fault disk 1 recv 3 3 2
  [8]
