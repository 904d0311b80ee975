The moving of a session to new disks: a move is refused for the first thing that is wrong, and what was moved opens.

Session 1 is moved to session 2. `table FILE ID CAPACITY MESSAGE` writes a table with one row.

  $ table() {
  >   cat > $1 <<END
  > [[session]]
  > id = $2
  > low = "weather"
  > high = "watch"
  > capacity = $3
  > message = $4
  > window = 2
  > start = 20000
  > longest = 100000
  > resend = 500000
  > low_port = 7001
  > high_port = 7002
  > END
  > }
  $ table of_3.toml 1 3 8
  $ table of_4.toml 1 4 8
  $ byte() { printf "\\x$3" | dd of=$1 bs=1 seek=$2 conv=notrunc status=none; }

Disks of capacity 3: three messages are accepted, one of them is removed, and the receiver has two. Message 2 is the word's.

  $ three() {
  >   rm -f 1.* 2.*
  >   netpump replay <<END | tail -n 1
  > session 1 3 8 2 20000 100000 500000 weather watch
  > look 1 0 00000000 hello weather watch
  > look 1 0 00000000 data 0 61
  > look 1 0 00000000
  > look 1 1000 00000000
  > look 1 1000 00000000 data 1 62
  > done 1 1000 1
  > look 1 1001 00000000
  > look 1 2000 00000000
  > look 1 2000 00000000 data 2 $1
  > high 1 2000
  > carry 1 0
  > END
  > }

# Refusals

The old disks are looked at first: three messages are removed, and the receiver has two. That its new disk is not empty and that
the new row's messages are shorter would come later.

  $ table new.toml 2 3 2
  $ three 630000
  end 1 3 1 2
  $ byte 1.high 71 03
  $ printf '\0\0' > 2.recv
  $ netpump migrate of_3.toml 1 new.toml 2
  fault disk 1 recv 7 2 3
  netpump: the files of session 1 are not of one time: the receiver has 2 messages, and the bound is 3
  netpump: put back the three files that belong together, use the numbers of the session line that made them, or replay in an empty folder to begin anew (docs/formats.md, "When disks are refused")
  [8]

Then the receiver's new disk is not empty.

  $ three 630000
  end 1 3 1 2
  $ printf '\0\0' > 2.recv
  $ netpump migrate of_3.toml 1 new.toml 2
  fault disk 2 recv 9 2 0
  netpump: the file 2.recv has 2 bytes already, and a session is moved to empty disks only; if nothing in them is wanted, remove the files 2.low, 2.high and 2.recv, and migrate again
  [8]

Then message 2 is longer than the new row's messages.

  $ rm 2.*
  $ netpump migrate of_3.toml 1 new.toml 2
  fault disk 1 low 11 2 3
  netpump: message 2 in the file 1.low has 3 bytes, which is more than the new row's message; make that at least as long as the longest message
  [8]

A refused move leaves no new disks, and the old ones as they were.

  $ ls 2.*
  ls: cannot access '2.*': No such file or directory
  [2]
  $ netpump show of_3.toml 1
  show 1 3 1 2
  live 1 1 62
  live 1 2 630000

With messages of three bytes the same disks are moved.

  $ table new.toml 2 4 3
  $ netpump migrate of_3.toml 1 new.toml 2
  migrated 1 2 3 1 2
  $ netpump show new.toml 2
  show 2 3 1 2
  live 2 1 62
  live 2 2 630000

Disks of capacity 4 with four live messages, of which message 3 alone has three bytes. The receiver has none.

  $ four() {
  >   rm -f 1.* 2.*
  >   netpump replay <<END | tail -n 1
  > session 1 4 8 2 20000 100000 500000 weather watch
  > look 1 0 00000000 hello weather watch
  > look 1 0 00000000 data 0 00
  > look 1 0 00000000
  > look 1 1000 00000000
  > high 1 1000
  > look 1 1000 00000000 data 1 -
  > look 1 1000 00000000
  > look 1 2000 00000000
  > look 1 2000 00000000 data 2 -
  > look 1 2000 00000000
  > look 1 3000 00000000
  > look 1 3000 00000000 data 3 000000
  > END
  > }

They do not fit into a capacity of 3; that a message is too long would come later.

  $ table new.toml 2 3 2
  $ four
  end 1 4 0 0
  $ netpump migrate of_4.toml 1 new.toml 2
  fault disk 1 low 10 4 3
  netpump: 4 messages of session 1 are not removed, and the new row has capacity = 3; give it a larger one, or let the relay of session 1 hand some on to the receiver first
  [8]

They fit into one of 4, but message 3 is longer than two bytes.

  $ table new.toml 2 4 2
  $ netpump migrate of_4.toml 1 new.toml 2
  fault disk 1 low 11 3 3
  netpump: message 3 in the file 1.low has 3 bytes, which is more than the new row's message; make that at least as long as the longest message
  [8]

Message 4 of nine bytes does not fit into messages of eight.

  $ rm -f 1.* 2.*
  $ netpump replay <<'END' | tail -n 1
  > session 1 5 9 2 20000 100000 500000 weather watch
  > look 1 0 00000000 hello weather watch
  > look 1 0 00000000 data 0 -
  > look 1 0 00000000
  > look 1 1000 00000000
  > high 1 1000
  > look 1 1000 00000000 data 1 -
  > look 1 1000 00000000
  > look 1 2000 00000000
  > look 1 2000 00000000 data 2 -
  > look 1 2000 00000000
  > look 1 3000 00000000
  > look 1 3000 00000000 data 3 -
  > look 1 3000 00000000
  > look 1 4000 00000000
  > look 1 4000 00000000 data 4 000102030405060708
  > END
  end 1 5 0 0
  $ table of_5.toml 1 5 9
  $ table new.toml 2 5 8
  $ netpump migrate of_5.toml 1 new.toml 2 2> sentence
  fault disk 1 low 11 4 9
  [8]

# What was moved opens

The new disks are those of the new row, and a replay goes on with them: message 1 is in the high hand, and message 2 behind it.

  $ three 63
  end 1 3 1 2
  $ table new.toml 2 4 3
  $ netpump migrate of_3.toml 1 new.toml 2
  migrated 1 2 3 1 2
  $ netpump show new.toml 2
  show 2 3 1 2
  live 2 1 62
  live 2 2 63
  $ netpump replay <<'END'
  > session 2 4 3 2 20000 100000 500000 weather watch
  > high 2 0
  > carry 2 0
  > return 2 1 0
  > END
  sent 2 0 1
  again 2 1
  removed 2 1 1 1
  sent 2 1 2
  end 2 3 2 2
