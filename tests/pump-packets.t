A whole session whose packets are lost or come again, and one that is coarse.

Each script is of this session, and begins with a HELLO and message 0, which is stored and passed on. Where it stopped, `show`
tells how many messages are accepted, removed and received.

  $ cat > table.toml <<'END'
  > [[session]]
  > id = 1
  > low = "weather"
  > high = "watch"
  > capacity = 3
  > message = 8
  > window = 2
  > start = 20000
  > longest = 100000
  > resend = 500000
  > low_port = 7001
  > high_port = 7002
  > END
  $ session='session 1 3 8 2 20000 100000 500000 weather watch'
  $ hello='look 1 10 00000000 hello weather watch'
  $ replay() { rm -f 1.*; printf '%s\n' "$session" "$@" | netpump replay; }

The receiver is opened again: its ATTACH brings back the TAKEN that was lost.

  $ replay "$hello" \
  >   'look 1 100 00000000 data 0 61' \
  >   'look 1 100 00000000' \
  >   'high 1 110' \
  >   'carry 1 0' \
  >   'receiver-restart 1 160'
  low 1 10 welcome 0
  stored 1 100 0
  passed 1 100 0 20000
  sent 1 110 0
  took 1 0
  attach 1 160 1
  removed 1 160 0 50
  end 1 1 1 1

It has nothing, so what is in the high hand is sent again; a moment that is over cannot be applied.

  $ replay "$hello" \
  >   'look 1 100 00000000 data 0 61' \
  >   'look 1 100 00000000' \
  >   'high 1 110' \
  >   'receiver-restart 1 160' \
  >   'receiver-restart 1 159' 2> sentence
  low 1 10 welcome 0
  stored 1 100 0
  passed 1 100 0 20000
  sent 1 110 0
  attach 1 160 0
  sent 1 160 0
  fault script 7
  [5]
  $ netpump show table.toml 1
  show 1 1 0 0
  live 1 0 61

A DATA is carried twice, so its TAKEN comes back twice; the second one finds nothing to remove.

  $ replay "$hello" \
  >   'look 1 100 00000000 data 0 61' \
  >   'look 1 100 00000000' \
  >   'high 1 110' \
  >   'carry 1 0' \
  >   'carry 1 0' \
  >   'return 1 160 1' \
  >   'return 1 170 0' \
  >   'look 1 178 00000000'
  low 1 10 welcome 0
  stored 1 100 0
  passed 1 100 0 20000
  sent 1 110 0
  took 1 0
  again 1 0
  removed 1 160 0 50
  low 1 178 ack 0
  end 1 1 1 1

The buffer is full for message 1, and room is made before the second look for it.

  $ replay "$hello" \
  >   'look 1 100 00000000 data 0 61' \
  >   'look 1 100 00000000' \
  >   'look 1 177 00000000' \
  >   'look 1 178 00000000' \
  >   'look 1 200 00000000 data 1 62' \
  >   'look 1 210 00000000' \
  >   'high 1 215' \
  >   'look 1 220 00000000' \
  >   'look 1 240 00000000' \
  >   'look 1 298 00000000' \
  >   'look 1 318 00000000'
  low 1 10 welcome 0
  stored 1 100 0
  passed 1 100 0 20000
  low 1 178 ack 0
  stored 1 200 1
  full 1 210
  sent 1 215 0
  passed 1 220 0 20000
  low 1 298 ack 1
  end 1 2 0 0

No packet was sent that could be carried.

  $ replay "$hello" \
  >   'look 1 100 00000000 data 0 61' \
  >   'look 1 100 00000000' \
  >   'carry 1 0' \
  >   'look 1 178 00000000' 2> sentence
  low 1 10 welcome 0
  stored 1 100 0
  passed 1 100 0 20000
  fault script 5
  [5]
  $ netpump show table.toml 1
  show 1 1 0 0
  live 1 0 61

In a coarse session the start 20000 comes down as its level, 32768, and the acknowledgement waits as long as that says.

  $ replay 'coarse 1' "$hello" \
  >   'look 1 100 00000000 data 0 61' \
  >   'look 1 100 00000000' \
  >   'look 1 227 00000000' \
  >   'look 1 228 00000000'
  low 1 10 welcome 0
  stored 1 100 0
  passed 1 100 0 32768
  low 1 228 ack 0
  end 1 1 0 0

There the time 100 comes down as 128.

  $ replay 'coarse 1' "$hello" \
  >   'look 1 10 00000000 data 0 61' \
  >   'look 1 10 00000000' \
  >   'look 1 138 00000000' \
  >   'done 1 200 100' \
  >   'look 1 400 00000000 data 1 62' \
  >   'look 1 400 00000000' \
  >   'look 1 400 00000000'
  low 1 10 welcome 0
  stored 1 10 0
  passed 1 10 0 32768
  low 1 138 ack 0
  sent 1 200 0
  took 1 0
  removed 1 300 0 100
  stored 1 400 1
  passed 1 400 1 128
  low 1 400 ack 1
  end 1 2 1 1
