Disks are formatted by a row of a table, and shown.

What the program says on standard error is left out; sentences.t has it.

  $ netpump() { command netpump "$@" 2>/dev/null; }

A table with session 1; one with a capacity that is too small; one with messages of 12 bytes; and a file that is too long for a
table.

  $ cat >t.toml <<.
  > [[session]]
  > id = 1
  > low = "weather"
  > high = "watch"
  > capacity = 3
  > message = 8
  > window = 2
  > start = 20000
  > longest = 100000
  > resend = 500000
  > low_port = 7001
  > high_port = 7002
  > .
  $ sed 's/^capacity = 3/capacity = 2/' t.toml >small.toml
  $ sed 's/^message = 8/message = 12/' t.toml >w.toml
  $ yes '' | head -c 65537 >large.toml
  $ anew() { rm -rf *.low *.high *.recv; }

Disks that are not there are empty, and no disks until they are formatted. What only reads makes no file, and neither does what is
refused.

  $ netpump show t.toml 1
  fault disk 1 low 2 0 0
  [8]
  $ netpump unwrap w.toml 1
  [8]
  $ netpump serve t.toml 1 1
  fault disk 1 low 2 0 0
  [8]
  $ ls
  large.toml
  small.toml
  t.toml
  w.toml
  $ netpump format t.toml 1
  formatted 1
  $ netpump show t.toml 1
  show 1 0 0 0

Two messages are stored, of which the first is acknowledged.

  $ netpump replay <<.
  > session 1 3 8 2 20000 100000 500000 weather watch
  > look 1 10 00000000 hello weather watch
  > look 1 100 00000000 data 0 61ff
  > look 1 100 00000000
  > look 1 178 00000000
  > look 1 200 00000000 data 1 -
  > .
  low 1 10 welcome 0
  stored 1 100 0
  passed 1 100 0 20000
  low 1 178 ack 0
  stored 1 200 1
  end 1 2 0 0

They are shown, and shown again: that changes nothing.

  $ netpump show t.toml 1
  show 1 2 0 0
  live 1 0 61ff
  live 1 1 -
  $ netpump show t.toml 1
  show 1 2 0 0
  live 1 0 61ff
  live 1 1 -

Disks that are not empty are not formatted.

  $ netpump format t.toml 1
  fault disk 1 low 9 110 0
  [8]

No row has session 9; a table is refused; and there is no such file.

  $ netpump show t.toml 9
  fault table 11 9
  [6]
  $ netpump show small.toml 1
  fault table 4 1
  [6]
  $ netpump show none.toml 1
  fault read
  [3]

No bytes are no record, and no two of them.

  $ netpump audit
  audit no 1 1
  [15]
  $ netpump compare
  fault script 1
  [5]

The same of formatting, over new disks.

  $ anew
  $ netpump format t.toml 1
  formatted 1
  $ netpump format t.toml 1
  fault disk 1 low 9 110 0
  [8]
  $ netpump format t.toml 9
  fault table 11 9
  [6]
  $ netpump format small.toml 1
  fault table 4 1
  [6]
  $ netpump format large.toml 1
  fault table 10 0
  [6]
  $ netpump format none.toml 1
  fault read
  [3]
  $ netpump format t.toml 01
  fault words
  [2]
  $ netpump format --help
  fault words
  [2]
  $ netpump help
  fault words
  [2]
  $ netpump replay now
  fault words
  [2]
  $ netpump --version
  fault words
  [2]

Disks of longer messages are longer, and a receiver without messages has no file yet.

  $ anew
  $ netpump format w.toml 1
  formatted 1
  $ netpump format w.toml 1
  fault disk 1 low 9 122 0
  [8]
  $ netpump show w.toml 1
  show 1 0 0 0
  $ netpump unwrap w.toml 1
  [14]

Where the table or a disk can't be opened, since a folder has its name, nothing is formatted; without the folder all is.

  $ anew; mv t.toml kept; mkdir t.toml
  $ netpump format t.toml 1
  fault read
  [3]
  $ rmdir t.toml; mv kept t.toml
  $ netpump format t.toml 1
  formatted 1

  $ anew; mkdir 1.low
  $ netpump format t.toml 1
  fault device 1 low
  [7]
  $ rmdir 1.low
  $ netpump format t.toml 1
  formatted 1

  $ anew; mkdir 1.high
  $ netpump format t.toml 1
  fault device 1 high
  [7]
  $ rmdir 1.high
  $ netpump format t.toml 1
  formatted 1

  $ anew; mkdir 1.recv
  $ netpump format t.toml 1
  fault device 1 recv
  [7]
  $ rmdir 1.recv
  $ netpump format t.toml 1
  formatted 1
