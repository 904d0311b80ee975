What is said on standard error: what is wrong, and what to do. refused_tables.t has what is said of tables.

The words are no command.

  $ netpump help
  fault words
  netpump 1.0: the word 'help' is no command; type one of these after the program's name:
    replay                        reads a script from standard input and prints its transcript, as in: netpump replay < SCRIPT
    format TABLE S                formats the three empty disks of session S, which has a row in the file TABLE
    show TABLE S                  prints the counts of session S, and the messages on its low disk that are not removed
    exercise SEED COUNT           runs COUNT messages (1 to 100000) that are made from the number SEED, and prints a summary
    race SEED COUNT TIMES         runs such messages with both sides in threads of their own, and prints a record of Low's side
    serve TABLE S LOOKS           relays session S over the two ports of its row, both on 127.0.0.1, and prints a record of Low's side; each side makes LOOKS rounds
    receive TABLE S LOOKS         takes the messages of session S from its relay, and prints a line for each; it ends after LOOKS looks at the link
    send TABLE S LOOKS            sends the messages on standard input, a line of hexadecimal digits each, to the relay of session S, and prints a line for each that is stored; it waits LOOKS looks at most for an answer
    append TABLE S LOOKS          sends each line on standard input as a new message of session S, connects again where a connection breaks, and at its end prints how many lines are stored; LOOKS is how many looks and attempts to connect it makes at most
    drop TABLE S LOOKS FOLDER     sends the files of the folder FOLDER over the relay of session S, one after another, prints a line for each, and removes each once all of it is stored; it ends after LOOKS looks at the link
    collect TABLE S LOOKS FOLDER  puts the files that come from the relay of session S into the folder FOLDER, each when it is whole, and prints a line for each; it ends after LOOKS looks at the link
    migrate TABLE S NEWTABLE T    writes what session S has on the three empty disks of session T, which has a row in the file NEWTABLE, and changes none of its own
    wrap TABLE S                  sends the file on standard input over the pump of session S until its receiver has all of it, as in: netpump wrap TABLE S < FILE
    unwrap TABLE S                writes the file that the messages with the receiver of session S are, and nothing else
    messages TABLE S FROM         prints a line for each message that the receiver of session S has, from number FROM on, where 0 is the first; it may run beside the receiver
    status TABLE S                prints how many messages session S has accepted, removed and received, how many lie in its relay, and how many may; it may run beside the relay
    audit                         checks the record on standard input, and prints that it is clean, or the first line that is wrong and its cause, as in: netpump audit < RECORD
    compare                       compares Low's side of two records on standard input, with a line '# compare' between them, and prints that they agree, or the first item that differs
    chain                         reads a script of two sessions from standard input, of which the second one sends on what the receiver of the first one has, and prints its transcript, as in: netpump chain < SCRIPT
  TABLE is the name of a file in this folder: 1 to 64 letters, digits, dots, underscores and dashes, the first a letter or a digit. NEWTABLE is spelled alike, and so is FOLDER, the name of a folder in this one. TIMES are 1 to 16 numbers up to 1000000000 with commas between, as 50,700,20: how many microseconds the receiver takes for each message in turn. LOOKS is at least 1; a look or a round that finds nothing takes about a millisecond. Numbers are written without a sign and without zeros before them, and are below 2^32
  [2]

The first sentence says which word is wrong and what may stand there, and how the command is typed follows.

  $ netpump status t.toml
  fault words
  netpump 1.0: the command status takes 2 words and is given 1; type it so:
    status TABLE S                prints how many messages session S has accepted, removed and received, how many lie in its relay, and how many may; it may run beside the relay
  [2]

  $ which() { netpump "$@" 2>&1 >/dev/null | head -n 1 | cut -d';' -f1; }
  $ which; which --version; which show t.toml; which audit record
  netpump 1.0: there is no word
  netpump 1.0: the word '--version' is no command
  netpump 1.0: the command show takes 2 words and is given 1
  netpump 1.0: the command audit takes 0 words and is given 1
  $ which show a/b 1; which format t.toml 01; which serve t.toml 1 0; which exercise 1 100001
  netpump 1.0: the word 'a/b' can't stand for TABLE of show, which is the name of a file in this folder: 1 to 64 letters, digits, dots, underscores and dashes, the first a letter or a digit
  netpump 1.0: the word '01' can't stand for S of format, which is a number below 4294967296, without a sign and without zeros before it
  netpump 1.0: the word '0' can't stand for LOOKS of serve, which is a number from 1 to 4294967295, without zeros before it
  netpump 1.0: the word '100001' can't stand for COUNT of exercise, which is a number from 1 to 100000, without zeros before it
  $ which migrate t.toml 1 new.toml 4294967296; which race 0 1 50,,7; which race 0 1 1,2,3,4,5,6,7,8,9,10,11,12,13,14,15,16,17
  netpump 1.0: the word '4294967296' can't stand for T of migrate, which is a number below 4294967296, without a sign and without zeros before it
  netpump 1.0: the word '50,,7' can't stand for TIMES of race, which is 1 to 16 numbers up to 1000000000 with commas between, as 50,700,20: how many microseconds the receiver takes for each message in turn
  netpump 1.0: the word '1,2,3,4,5,6,7,8,9,10,11,12,13,14,15,16,17' can't stand for TIMES of race, which is 1 to 16 numbers up to 1000000000 with commas between, as 50,700,20: how many microseconds the receiver takes for each message in turn

A line of a script is faulty, and standard input can't be read.

  $ echo look | netpump replay
  fault script 1
  netpump: line 1 of the script is written wrong or can't be applied there; mend it and replay the script again. Each line, the last one too, ends with a newline that no carriage return stands before (docs/formats.md, "Scripts", tells how lines are written and when they can be applied)
  [5]
  $ netpump replay <.
  fault read
  netpump: standard input could not be read to its end; see that it is a file or a pipe, and not a folder. What it said until then is answered above
  [3]

The output can't be written.

  $ echo 'session 1 3 8 2 20000 100000 500000 weather watch' | netpump replay >/dev/full
  netpump: standard output could not be written; see that its reader is there, or that its disk has room, and try again
  [4]

A disk is a folder or a link, can't be written, is in use, or is told to fail.

  $ cat >t.toml <<.
  > [[session]]
  > id = 1
  > low = "weather"
  > high = "watch"
  > capacity = 3
  > message = 8
  > window = 2
  > start = 20000
  > longest = 100000
  > resend = 500000
  > low_port = 7001
  > high_port = 7002
  > .
  $ anew() { rm -rf *.low *.high *.recv; }
  $ anew; mkdir 1.low; netpump format t.toml 1
  fault device 1 low
  netpump: what is called 1.low in this folder is no regular file but a folder, a link, a device or a pipe; move it away, and put the disk of this name there
  [7]
  $ rmdir 1.low; ln -s kept 1.low; netpump format t.toml 1; ls kept
  fault device 1 low
  netpump: what is called 1.low in this folder is no regular file but a folder, a link, a device or a pipe; move it away, and put the disk of this name there
  ls: cannot access 'kept': No such file or directory
  [2]
  $ rm 1.low; flock 1.high netpump format t.toml 1
  fault device 1 high
  netpump: the file 1.high is in use by another netpump; wait until that one has ended, and try again
  [7]
  $ netpump replay <<.
  > low-session 1 3 8 2 20000 100000 500000 weather watch 0 0
  > told 1 10 00000000 fine - hello weather watch
  > told 1 20 00000000 fault - data 0 61
  > .
  low 1 10 welcome 0
  low 1 20 refuse 5 0
  fault device 1 low
  netpump: the device of the low disk fails in a store, as a line with the word fault tells; write fine in its place to go on. What was said until then is answered above
  [7]

Disks are refused: an empty one, no disk at all, another row's, one whose register is wrong, those of different times.

  $ anew; netpump show t.toml 1
  fault disk 1 low 2 0 0
  netpump: the file 1.low is empty, so it is no disk yet; where all three files of the session are empty, netpump format t.toml 1 makes new disks, and else put back the three files that belong together
  [8]
  $ echo none >1.low; netpump show t.toml 1
  fault disk 1 low 2 5 1852796517
  netpump: the file 1.low is no disk of netpump's: it has 5 bytes, and does not begin as one
  netpump: put back the three files that belong together, use the numbers of the session line that made them, or replay in an empty folder to begin anew (docs/formats.md, "When disks are refused")
  [8]
  $ anew; netpump format t.toml 1; sed 's/^capacity = 3/capacity = 4/' t.toml >other.toml; netpump show other.toml 1
  formatted 1
  fault disk 1 low 3 3 4
  netpump: the file 1.low was made with the capacity 3, and the session's is 4
  netpump: put back the three files that belong together, use the numbers of the session line that made them, or replay in an empty folder to begin anew (docs/formats.md, "When disks are refused")
  [8]
  $ put() { printf "$3" | dd of=$1 bs=1 seek=$2 conv=notrunc status=none; }
  $ put 1.low 63 '\1'; netpump show t.toml 1
  fault disk 1 low 4 0 1
  netpump: the register of the file 1.low has 0 and 1, which no such disk has
  netpump: put back the three files that belong together, use the numbers of the session line that made them, or replay in an empty folder to begin anew (docs/formats.md, "When disks are refused")
  [8]
  $ put 1.low 63 '\0'; put 1.high 55 '\1'; netpump show t.toml 1
  fault disk 1 high 5 1 0
  netpump: the files 1.low and 1.high are not of one time: 1 messages are removed, and 0 accepted
  netpump: put back the three files that belong together, use the numbers of the session line that made them, or replay in an empty folder to begin anew (docs/formats.md, "When disks are refused")
  [8]
  $ put 1.high 55 '\0'; put 1.low 55 '\1'; put 1.low 80 '\0\11'; netpump show t.toml 1
  fault disk 1 low 6 0 9
  netpump: message 0 in the file 1.low has 9 bytes, which is more than the session line allows
  netpump: put back the three files that belong together, use the numbers of the session line that made them, or replay in an empty folder to begin anew (docs/formats.md, "When disks are refused")
  [8]
  $ put 1.low 80 '\0\1'; put 1.high 55 '\1'; netpump show t.toml 1
  fault disk 1 recv 7 0 1
  netpump: the files of session 1 are not of one time: the receiver has 0 messages, and the bound is 1
  netpump: put back the three files that belong together, use the numbers of the session line that made them, or replay in an empty folder to begin anew (docs/formats.md, "When disks are refused")
  [8]
  $ netpump replay <<.
  > session 2 3 8 2 20000 100000 500000 weather watch
  > look 2 10 00000000 hello weather watch
  > look 2 20 00000000 data 0 61
  > look 2 20 00000000
  > high 2 30
  > carry 2 0
  > .
  low 2 10 welcome 0
  stored 2 20 0
  passed 2 20 0 20000
  sent 2 30 0
  took 2 0
  end 2 1 0 1
  $ put 2.recv 82 b; sed 's/^id = 1/id = 2/' t.toml >u.toml; netpump show u.toml 2
  fault disk 2 recv 8 0 0
  netpump: the files of session 2 are not of one time: message 0 is another one in 2.low than in 2.recv
  netpump: put back the three files that belong together, use the numbers of the session line that made them, or replay in an empty folder to begin anew (docs/formats.md, "When disks are refused")
  [8]

Disks that are not empty are neither formatted nor moved to; a session is not moved to itself, to too few places, or to messages
that are too short.

  $ netpump format t.toml 1
  fault disk 1 low 9 110 0
  netpump: the file 1.low has 110 bytes already, and only empty disks are formatted; if nothing in them is wanted, remove the files 1.low, 1.high and 1.recv, and format again
  [8]
  $ anew; netpump replay >out <<.
  > session 1 3 8 2 20000 100000 500000 weather watch
  > look 1 10 00000000 hello weather watch
  > look 1 20 00000000 data 0 6161
  > look 1 20 00000000
  > look 1 98 00000000
  > .
  $ netpump format u.toml 2; netpump migrate t.toml 1 u.toml 2
  formatted 2
  fault disk 2 low 9 110 0
  netpump: the file 2.low has 110 bytes already, and a session is moved to empty disks only; if nothing in them is wanted, remove the files 2.low, 2.high and 2.recv, and migrate again
  [8]
  $ netpump migrate t.toml 1 t.toml 1
  fault table 13 1
  netpump: a session is moved to another one, and both are session 1; give the new row in t.toml an id of its own, and name that
  [6]
  $ rm 2.*; sed 's/^message = 8/message = 1/' u.toml >short.toml; netpump migrate t.toml 1 short.toml 2
  fault disk 1 low 11 0 2
  netpump: message 0 in the file 1.low has 2 bytes, which is more than the new row's message; make that at least as long as the longest message
  [8]
  $ sed 's/^id = 1/id = 3/; s/^capacity = 3/capacity = 9/' t.toml >w.toml; netpump migrate t.toml 1 w.toml 3
  migrated 1 3 1 0 0
  $ netpump replay <<.
  > session 3 9 8 2 20000 100000 500000 weather watch
  > look 3 10 00000000 hello weather watch
  > look 3 20 00000000 data 1 61
  > look 3 20 00000000
  > look 3 98 00000000
  > look 3 98 00000000 data 2 61
  > look 3 98 00000000
  > look 3 176 00000000
  > look 3 176 00000000 data 3 61
  > .
  low 3 10 welcome 1
  stored 3 20 1
  passed 3 20 0 20000
  low 3 98 ack 1
  stored 3 98 2
  passed 3 98 0 20000
  low 3 176 ack 2
  stored 3 176 3
  end 3 4 0 0
  $ netpump migrate w.toml 3 u.toml 2
  fault disk 3 low 10 4 3
  netpump: 4 messages of session 3 are not removed, and the new row has capacity = 3; give it a larger one, or let the relay of session 3 hand some on to the receiver first
  [8]

A table has too many bytes, no such session, or messages that are too short for a file; it is not there.

  $ yes '' | head -c 65537 >large.toml; netpump show large.toml 1
  fault table 10 0
  netpump: the file large.toml has more than 65,536 bytes, which no table has; name the right file, or take out what is no row
  [6]
  $ netpump show t.toml 9
  fault table 11 9
  netpump: no row of the table t.toml has id = 9; name a session that has one, or add it
  [6]
  $ netpump wrap t.toml 1 </dev/null
  fault table 12 1
  netpump: the messages of session 1 have fewer than 9 bytes in the table t.toml, and a file needs as many; name a session that has longer ones
  [6]
  $ netpump show none.toml 1
  fault read
  netpump: the file none.toml in this folder could not be read: there is no such file; see that it is there and that it is yours to read, and try again
  [3]
  $ mkfifo pipe.toml; netpump show pipe.toml 1
  fault read
  netpump: what is called pipe.toml in this folder is no regular file but a folder, a link, a device or a pipe; name the file of the table itself
  [3]

A receiver has another file; the file to send can't be read.

  $ anew; sed -i 's/^message = 8/message = 12/' t.toml; printf 'hello, world' | netpump wrap t.toml 1
  wrapped 1 12 3
  $ printf 'hello, there' | netpump wrap t.toml 1
  fault wrapped 1 0
  netpump: the receiver of session 1 has another message 0 than this file, in pieces of the message size that its row in t.toml has, so it was begun with another file; send that one to its end, or this one over a session with new disks. Nothing of this file was sent
  [13]
  $ netpump wrap t.toml 1 <.
  fault read
  netpump: the file on standard input could not be read to its end; see that it is a file or a pipe, and not a folder, and wrap it again: what was sent of it is passed over
  [3]

`unwrap` writes no fault line, so all is said here: no table, no such row, a disk that can't be opened or is
empty, messages that are no file's, and a file that is not there whole.

  $ netpump unwrap none.toml 1
  netpump: the file none.toml in this folder could not be read: there is no such file; see that it is there and that it is yours to read, and try again
  [3]
  $ netpump unwrap t.toml 9
  netpump: no row of the table t.toml has id = 9 and messages of at least 9 bytes, which files need; name a session that has one
  [6]
  $ mv 1.recv kept; mkdir 1.recv; netpump unwrap t.toml 1
  netpump: what is called 1.recv in this folder is no regular file but a folder, a link, a device or a pipe; move it away, and put the disk of this name there
  [7]
  $ rmdir 1.recv; netpump unwrap t.toml 1
  netpump: the file 1.recv is no disk of session 1, as its row in t.toml has it; netpump show t.toml 1 says what is wrong with it
  [8]
  $ mv kept 1.recv; put 1.recv 82 x; netpump unwrap t.toml 1
  netpump: the messages with the receiver of session 1 are not those of a file, in pieces of the message size that its row in t.toml has; what was written is the pieces before the first that is none
  [13]
  $ anew; netpump format t.toml 1; netpump unwrap t.toml 1
  formatted 1
  netpump: the receiver of session 1 has not all messages of its file yet; what it has of it was written. Unwrap it again, once the file is sent to its end
  [14]

The file of a disk can't be read beside a relay.

  $ anew; netpump messages t.toml 1 0
  fault device 1 recv
  netpump: the file 1.recv in this folder could not be read: there is no such file; run this in the folder of the disks, as a user that may read them
  [7]
  $ mkdir 1.high; netpump status t.toml 1
  fault device 1 high
  netpump: what is called 1.high in this folder is no regular file but a folder, a link, a device or a pipe; run this in the folder of the disks
  [7]

Two pumps are no chain.

  $ anew; netpump replay <<.
  > session 2 3 8 2 20000 100000 500000 watch vault
  > look 2 10 00000000 hello watch vault
  > look 2 20 00000000 data 0 62
  > .
  low 2 10 welcome 0
  stored 2 20 0
  end 2 1 0 0
  $ cat >both <<.
  > session 1 3 8 2 20000 100000 500000 weather watch
  > session 2 3 8 2 20000 100000 500000 watch vault
  > .
  > netpump chain <both
  fault disk 2 low 12 1 0
  netpump: the second pump has accepted 1 messages in 2.low, and the receiver of the first one has 0 alone, so the six files are not of one time; put back those that belong together, or replay the chain in an empty folder
  [8]
  $ netpump replay <<.
  > session 1 3 8 2 20000 100000 500000 weather watch
  > look 1 10 00000000 hello weather watch
  > look 1 20 00000000 data 0 61
  > look 1 20 00000000
  > done 1 30 1
  > .
  low 1 10 welcome 0
  stored 1 20 0
  passed 1 20 0 20000
  sent 1 30 0
  took 1 0
  removed 1 31 0 1
  end 1 1 1 1
  $ netpump chain <both
  fault disk 2 low 13 0 0
  netpump: message 0 in 2.low is another one than the receiver of the first pump has, so the six files are not of one chain; put back those that belong together, or replay the chain in an empty folder
  [8]

Records: a line of each cause, two that differ, and one alone.

  $ cat >record <<.
  > low-session 1 3 8 2 20000 100000 500000 a b 0 0
  > told 1 10 00000000 fine - raw 4e5001010000000100000000000000000003613a62
  > # low 1 10 welcome 0
  > told 1 20 00000000 fine - raw 4e500103000000010000000000000000000161
  > told 1 30 00000000 fine 0/20000
  > told 1 108 00000000 fine -
  > # low 1 108 ack 0
  > # time 50
  > # took 1
  > # end 1 1
  > .
  $ with() { awk -v at=$1 -v line="$2" 'NR == at { $0 = line } { print }' record; }
  $ with 5 'told 2 30 00000000 fine 0/20000' | netpump audit
  audit no 5 1
  netpump: line 5 of the record is no line of a record, or not in this place: it is spelled wrong, has no line end, has a number out of its range or another session, or the record ends too early (docs/formats.md, "Audits"). The lines before it are a record that is clean so far
  [15]
  $ with 4 'told 1 9 00000000 fine -' | netpump audit
  audit no 4 2
  netpump: line 4 of the record tells a look that can't follow the ones before it: its moment falls, it takes what it could not take, or what it was told does not fit (docs/formats.md, "Audits"). The lines before it are a record that is clean so far
  [15]
  $ with 3 '# low 1 10 welcome 1' | netpump audit
  audit no 3 3
  netpump: line 3 of the record is the comment of a reply that no look gave, or stands where the comment of a reply is missing (docs/formats.md, "Audits"). The lines before it are a record that is clean so far
  [15]
  $ with 5 'told 1 30 00000000 fine 1/60' | netpump audit
  audit no 5 4
  netpump: line 5 of the record tells fewer of High's times than a line before it, or an average that is not that of so many times (docs/formats.md, "Audits"). The lines before it are a record that is clean so far
  [15]
  $ with 10 '# end 1 2' | netpump audit
  audit no 10 5
  netpump: line 10 of the record has numbers that do not fit: more removed than taken, more taken than accepted, more accepted than there is room for, or not as many accepted as the looks stored (docs/formats.md, "Audits"). The lines before it are a record that is clean so far
  [15]
  $ { cat record; echo '# compare'; with 5 'told 1 31 00000000 fine 0/20000'; } | netpump compare
  differ 3 moment
  netpump: the two records differ first in item 3, in its moment; item 0 is the row with what was found at the opening, and the looks are the items from 1 on (docs/formats.md, "Audits")
  [16]
  $ netpump compare <record
  fault script 11
  netpump: line 11 of standard input is no line of a record in its place; give a record, a line '# compare', and another record (docs/formats.md, "Audits")
  [5]

Nobody listens at the ports of a session.

  $ anew; netpump format t.toml 1
  formatted 1
  $ port=$(python3 -c '
  > import socket
  > end = socket.create_server(("127.0.0.1", 0))
  > print(end.getsockname()[1])')
  > sed "s/^low_port = .*/low_port = $port/" t.toml >near.toml; netpump send near.toml 1 1 </dev/null 2>&1 | sed "s/ $port / PORT /"
  fault link
  netpump: nobody answers at port PORT of 127.0.0.1, which is the low port of session 1; start its relay in the folder of its disks by netpump serve near.toml 1 LOOKS, and try again while it runs
  $ sed "s/^high_port = .*/high_port = $port/" t.toml >near.toml; netpump receive near.toml 1 1 </dev/null 2>&1 | sed "s/ $port / PORT /"
  fault link
  netpump: nobody answers at port PORT of 127.0.0.1, which is the high port of session 1; start its relay in the folder of its disks by netpump serve near.toml 1 LOOKS, and try again while it runs
