A session is moved to the disks of another row, and no old disk is changed.

What the program says on standard error is left out; sentences.t has it.

  $ netpump() { command netpump "$@" 2>/dev/null; }

Session 1; and session 2 with a larger capacity and longer messages, with messages of a byte, with a capacity that is too small,
and as session 1 but for longer messages.

  $ cat >t.toml <<.
  > [[session]]
  > id = 1
  > low = "weather"
  > high = "watch"
  > capacity = 3
  > message = 8
  > window = 2
  > start = 20000
  > longest = 100000
  > resend = 500000
  > low_port = 7001
  > high_port = 7002
  > .
  $ sed 's/^id = 1/id = 2/; s/^capacity = 3/capacity = 100/; s/^message = 8/message = 12/' t.toml >u.toml
  $ sed 's/^id = 1/id = 2/; s/^message = 8/message = 1/' t.toml >short.toml
  $ sed 's/^capacity = 3/capacity = 2/' t.toml >small.toml
  $ sed 's/^message = 8/message = 12/' t.toml >w.toml
  $ sed 's/^id = 1/id = 2/' w.toml >v.toml
  $ anew() { rm -rf *.low *.high *.recv; }

The disks of session 1 are empty, so there is nothing to move.

  $ netpump migrate t.toml 1 u.toml 2
  fault disk 1 low 2 0 0
  [8]

Two messages are stored.

  $ netpump replay <<.
  > session 1 3 8 2 20000 100000 500000 weather watch
  > look 1 10 00000000 hello weather watch
  > look 1 100 00000000 data 0 61ff
  > look 1 100 00000000
  > look 1 178 00000000
  > look 1 200 00000000 data 1 -
  > .
  low 1 10 welcome 0
  stored 1 100 0
  passed 1 100 0 20000
  low 1 178 ack 0
  stored 1 200 1
  end 1 2 0 0

A session is not moved to itself, nor by a table that has no such row, is refused or is not there.

  $ netpump migrate t.toml 1 t.toml 1
  fault table 13 1
  [6]
  $ netpump migrate t.toml 9 small.toml 2
  fault table 11 9
  [6]
  $ netpump migrate t.toml 1 small.toml 2
  fault table 4 1
  [6]
  $ netpump migrate t.toml 1 u.toml 1
  fault table 11 1
  [6]
  $ netpump migrate t.toml 1 none.toml 2
  fault read
  [3]
  $ netpump migrate none.toml 1 small.toml 2
  fault read
  [3]

Message 0 is longer than the new row's.

  $ netpump migrate t.toml 1 short.toml 2
  fault disk 1 low 11 0 2
  [8]

Until then nothing was written for session 2; now it is.

  $ netpump show u.toml 2
  fault disk 2 low 2 0 0
  [8]
  $ netpump migrate t.toml 1 u.toml 2
  migrated 1 2 2 0 0
  $ netpump show u.toml 2
  show 2 2 0 0
  live 2 0 61ff
  live 2 1 -
  $ netpump show t.toml 1
  show 1 2 0 0
  live 1 0 61ff
  live 1 1 -

Neither is written over.

  $ netpump migrate t.toml 1 u.toml 2
  fault disk 2 low 9 1480 0
  [8]
  $ netpump migrate u.toml 2 t.toml 1
  fault disk 1 low 9 110 0
  [8]

A new session is moved too; its disks must be there.

  $ anew
  $ netpump migrate t.toml 1 v.toml 2
  fault disk 1 low 2 0 0
  [8]
  $ netpump format w.toml 1
  formatted 1
  $ netpump migrate w.toml 1 v.toml 2
  migrated 1 2 0 0 0
  $ netpump show v.toml 2
  show 2 0 0 0

Where the new table or a disk can't be opened, since a folder has its name, nothing is written; without the folder the session is
moved.

  $ anew; mv v.toml kept; mkdir v.toml
  $ netpump migrate t.toml 1 v.toml 2
  fault read
  [3]
  $ rmdir v.toml; mv kept v.toml
  $ netpump format t.toml 1
  formatted 1
  $ netpump migrate t.toml 1 v.toml 2
  migrated 1 2 0 0 0

  $ anew; mkdir 1.low
  $ netpump migrate t.toml 1 v.toml 2
  fault device 1 low
  [7]
  $ rmdir 1.low
  $ netpump format t.toml 1
  formatted 1
  $ netpump migrate t.toml 1 v.toml 2
  migrated 1 2 0 0 0

  $ anew; mkdir 2.low
  $ netpump migrate t.toml 1 v.toml 2
  fault device 2 low
  [7]
  $ rmdir 2.low
  $ netpump format t.toml 1
  formatted 1
  $ netpump migrate t.toml 1 v.toml 2
  migrated 1 2 0 0 0

  $ anew; mkdir 2.recv
  $ netpump migrate t.toml 1 v.toml 2
  fault device 2 recv
  [7]
  $ rmdir 2.recv
  $ netpump format t.toml 1
  formatted 1
  $ netpump migrate t.toml 1 v.toml 2
  migrated 1 2 0 0 0
