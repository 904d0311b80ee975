How the lines of a transcript and the fault lines are spelled, with the greatest numbers that the program can be brought to print.

  $ rest='3 8 2 20000 100000 500000 weather watch'
  $ replay() { rm -rf *.low *.high *.recv; printf '%s\n' "$@" | netpump replay; }
  $ byte() { printf "\\x$3" | dd of=$1 bs=1 seek=$2 conv=notrunc status=none; }

# What a session does

The last message that there can be is stored in the session with the greatest number.

  $ hello='told 4294967295 10 00000000 fine - hello weather watch'
  $ replay "low-session 4294967295 $rest 281474976710655 0" "$hello" \
  >   'told 4294967295 20 00000000 fine - data 281474976710655 61'
  low 4294967295 10 welcome 281474976710655
  stored 4294967295 20 281474976710655
  end 4294967295 281474976710656 - -

A message comes again, and three times of High are read, of which the average is 20000.

  $ replay "low-session 4294967295 $rest 1 0" "$hello" 'told 4294967295 20 00000000 fine 3/20000 data 0 61'
  low 4294967295 10 welcome 1
  repeat 4294967295 20 3 20000
  end 4294967295 1 - -

Low is answered WELCOME, ACK and REFUSE.

  $ replay "low-session 4294967295 $rest 7 0" 'told 4294967295 20 00000000 fine - hello weather watch'
  low 4294967295 20 welcome 7
  end 4294967295 7 - -
  $ replay "low-session 4294967295 $rest 1 0" "$hello" \
  >   'told 4294967295 10 00000000 fine 1/0 data 0 61' \
  >   'told 4294967295 20 00000000 fine -'
  low 4294967295 10 welcome 1
  repeat 4294967295 10 1 0
  low 4294967295 20 ack 0
  end 4294967295 1 - -
  $ replay "low-session 4294967295 $rest 2 0" "$hello" 'told 4294967295 20 00000000 fine - data 3 61'
  low 4294967295 10 welcome 2
  low 4294967295 20 refuse 4 2
  end 4294967295 2 - -

Both processes are opened again where a message was accepted and passed on, so that none is in the low hand.

  $ replay "session 1 $rest" \
  >   'look 1 0 00000000 hello weather watch' \
  >   'look 1 100 00000000 data 0 -' \
  >   'look 1 100 00000000' \
  >   'restart 1 150'
  low 1 0 welcome 0
  stored 1 100 0
  passed 1 100 0 20000
  restart 1 150 1 0 0
  end 1 1 0 0

A message without bytes is shown with a dash.

  $ cat > table.toml <<'END'
  > [[session]]
  > id = 1
  > low = "weather"
  > high = "watch"
  > capacity = 3
  > message = 8
  > window = 2
  > start = 20000
  > longest = 100000
  > resend = 500000
  > low_port = 7001
  > high_port = 7002
  > END
  $ netpump show table.toml 1
  show 1 1 0 0
  live 1 0 -

# Faults

The device of low's disk fails, as the script tells.

  $ replay "low-session 1 $rest 0 0" \
  >   'told 1 10 00000000 fine - hello weather watch' \
  >   'told 1 20 00000000 fault - data 0 61' 2> sentence
  low 1 10 welcome 0
  low 1 20 refuse 5 0
  fault device 1 low
  [7]

A folder stands where high's disk of a session should be, and where the receiver's disk of another one should be.

  $ rm -rf *.low *.high *.recv
  $ mkdir 4294967295.high 0.recv
  $ echo "session 4294967295 $rest" | netpump replay
  fault device 4294967295 high
  netpump: what is called 4294967295.high in this folder is no regular file but a folder, a link, a device or a pipe; move it away, and put the disk of this name there
  [7]
  $ echo "session 0 $rest" | netpump replay
  fault device 0 recv
  netpump: what is called 0.recv in this folder is no regular file but a folder, a link, a device or a pipe; move it away, and put the disk of this name there
  [7]

Three messages are removed and one is accepted, so high's disk is refused. The register at 48 is the one that counts in new disks.

  $ replay "session 1 $rest"
  end 1 0 0 0
  $ byte 1.low 55 01
  $ byte 1.high 55 03
  $ echo "session 1 $rest" | netpump replay 2> sentence
  fault disk 1 high 5 3 1
  [8]

A receiver's disk is refused in the session with the greatest number, by the two greatest values.

  $ replay "session 4294967295 $rest"
  end 4294967295 0 0 0
  $ for place in {48..63}; do byte 4294967295.recv $place ff; done
  $ echo "session 4294967295 $rest" | netpump replay 2> sentence
  fault disk 4294967295 recv 4 18446744073709551615 18446744073709551615
  [8]

The receiver's disk is full for a message of eight bytes: its records end at 16777210, behind 16,351 messages of 1,024 bytes and
one of 1,002. All 16,352 (3fe0) are removed.

  $ rest='3 1024 2 20000 100000 500000 weather watch'
  $ replay "session 1 $rest"
  end 1 0 0 0
  $ for file in 1.low 1.high 1.recv; do byte $file 54 3f; byte $file 55 e0; done
  $ for change in 60:00 61:ff 62:ff 63:fa; do byte 1.recv ${change%:*} ${change#*:}; done
  $ { printf '\4\0'; head -c 1024 /dev/zero; } > records
  $ for doubling in {1..14}; do cat records records > more; mv more records; done
  $ { head -c $((16351 * 1026)) records; printf '\3\352'; head -c 1002 /dev/zero; } >> 1.recv
  $ wc -c < 1.recv
  16777210
  $ netpump replay <<END
  > session 1 $rest
  > look 1 0 00000000 hello weather watch
  > look 1 0 00000000 data 16352 0001020304050607
  > look 1 0 00000000
  > done 1 0 1
  > END
  low 1 0 welcome 16352
  stored 1 0 16352
  passed 1 0 0 20000
  sent 1 0 16352
  fault full 1 16777210 8 16777216
  netpump: a message of 8 bytes does not fit on the receiver's disk of session 1, whose records end at byte 16777210 of 16777216; replay fewer messages, or shorter ones
  [10]
