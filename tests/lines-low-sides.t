The lines of a low side alone: which are read, what they mean, and which are no lines.

# The line that begins it

How many messages were accepted shows at the end, and that the last of them is in the low hand, by a full buffer.

  $ begins() { printf '%s\n' "$1" 'told 1 0 00000000 fine full' | netpump replay 2> sentence; }

  $ begins 'low-session 1 3 8 2 20000 100000 500000 weather watch 0 0'
  end 1 0 - -
  $ begins 'low-session 1 3 8 2 20000 100000 500000 weather watch 1 0'
  end 1 1 - -
  $ begins 'low-session 1 3 8 2 20000 100000 500000 weather watch 1 1'
  full 1 0
  end 1 1 - -
  $ begins 'low-session 1 3 8 2 20000 100000 500000 weather watch 281474976710656 1'
  full 1 0
  end 1 281474976710656 - -

Each field of its row is read: two records agree where all of them are the same, and differ where one is another.

  $ row='low-session 1 3 8 2 20000 100000 500000 weather watch 1 0'
  $ compared() { printf '%s\n' "$1" '# compare' "$2" | netpump compare 2> sentence; }
  $ compared "$row" "$row"
  agree 1
  $ compared "$row" 'low-session 2 3 8 2 20000 100000 500000 weather watch 1 0'
  differ 0 opening
  [16]
  $ compared "$row" 'low-session 1 4 8 2 20000 100000 500000 weather watch 1 0'
  differ 0 opening
  [16]
  $ compared "$row" 'low-session 1 3 9 2 20000 100000 500000 weather watch 1 0'
  differ 0 opening
  [16]
  $ compared "$row" 'low-session 1 3 8 3 20000 100000 500000 weather watch 1 0'
  differ 0 opening
  [16]
  $ compared "$row" 'low-session 1 3 8 2 20001 100000 500000 weather watch 1 0'
  differ 0 opening
  [16]
  $ compared "$row" 'low-session 1 3 8 2 20000 100001 500000 weather watch 1 0'
  differ 0 opening
  [16]
  $ compared "$row" 'low-session 1 3 8 2 20000 100000 500001 weather watch 1 0'
  differ 0 opening
  [16]
  $ compared "$row" 'low-session 1 3 8 2 20000 100000 500000 weathers watch 1 0'
  differ 0 opening
  [16]
  $ compared "$row" 'low-session 1 3 8 2 20000 100000 500000 weather watches 1 0'
  differ 0 opening
  [16]

What each field means shows in a whole session, whose line has the same nine: the names of the greeting, messages of eight bytes
at most, the start of 20000, an acknowledgement after 100000 at the latest, and a packet that is sent again after 500000.

  $ netpump replay <<'END'
  > session 1 3 8 2 20000 100000 500000 weather watch
  > look 1 0 ffffffff hello watch weather
  > gone 1 0
  > look 1 0 ffffffff hello weather watch
  > look 1 0 ffffffff data 0 000102030405060708
  > look 1 0 ffffffff data 0 0001020304050607
  > look 1 0 ffffffff
  > look 1 99999 ffffffff
  > look 1 100000 ffffffff
  > high 1 100000
  > high 1 599999
  > high 1 600000
  > END
  low 1 0 refuse 1 0
  low 1 0 welcome 0
  low 1 0 refuse 3 0
  stored 1 0 0
  passed 1 0 0 20000
  low 1 100000 ack 0
  sent 1 100000 0
  sent 1 600000 0
  end 1 1 0 0

There is room for three messages, and the average is that of two times.

  $ rm 1.*
  $ netpump replay <<'END'
  > session 1 3 8 2 20000 100000 500000 weather watch
  > look 1 0 00000000 hello weather watch
  > look 1 0 00000000 data 0 -
  > look 1 0 00000000
  > look 1 1000 00000000
  > high 1 1000
  > look 1 1000 00000000 data 1 -
  > look 1 1000 00000000
  > look 1 2000 00000000
  > look 1 2000 00000000 data 2 -
  > look 1 2000 00000000
  > done 1 2000 10
  > done 1 2010 20
  > look 1 2030 00000000
  > look 1 3000 00000000
  > done 1 3000 60
  > look 1 3060 00000000 data 3 -
  > look 1 3060 00000000
  > END
  low 1 0 welcome 0
  stored 1 0 0
  passed 1 0 0 20000
  low 1 1000 ack 0
  sent 1 1000 0
  stored 1 1000 1
  passed 1 1000 0 20000
  low 1 2000 ack 1
  stored 1 2000 2
  full 1 2000
  took 1 0
  removed 1 2010 0 1010
  sent 1 2010 1
  took 1 1
  removed 1 2030 1 20
  passed 1 2030 2 515
  low 1 3000 ack 2
  sent 1 3000 2
  took 1 2
  removed 1 3060 2 60
  stored 1 3060 3
  passed 1 3060 3 40
  end 1 4 3 3

These lines begin no low side: a message is in the hand where none is stored, there are more than 2^48 messages, the hand is
neither 0 nor 1, a field is missing, one is too many, and a whole session has none of these two.

  $ begins 'low-session 1 3 8 2 20000 100000 500000 weather watch 0 1'
  fault script 1
  [5]
  $ begins 'low-session 1 3 8 2 20000 100000 500000 weather watch 281474976710657 0'
  fault script 1
  [5]
  $ begins 'low-session 1 3 8 2 20000 100000 500000 weather watch 1 2'
  fault script 1
  [5]
  $ begins 'low-session 1 3 8 2 20000 100000 500000 weather watch 1'
  fault script 1
  [5]
  $ begins 'low-session 1 3 8 2 20000 100000 500000 weather watch 1 0 0'
  fault script 1
  [5]
  $ begins 'session 1 3 8 2 20000 100000 500000 weather watch 0 0'
  fault script 1
  [5]

# What a look is told

Message 0 is stored at 4, and the line under trial is the look at 5. A look at 6 lets the message pass where that did not; at
200000 it is acknowledged at the latest, and then message 1 is stored, unless the device was told to fail.

  $ told() {
  >   printf '%s\n' 'low-session 1 3 8 2 20000 100000 500000 weather watch 0 0' \
  >     'told 1 3 00000000 fine - hello weather watch' 'told 1 4 00000000 fine - data 0 61' "$1" \
  >     'told 1 6 00000000 fine 1/2' 'told 1 200000 00000000 fine -' 'told 1 200000 00000000 fine - data 1 62' |
  >     netpump replay 2> sentence | tail -n +3
  >   return ${PIPESTATUS[1]}
  > }

Told nothing, the look finds the buffer full.

  $ told 'told 1 5 0000000a fine -'
  full 1 5
  passed 1 6 1 2
  low 1 200000 ack 0
  stored 1 200000 1
  end 1 2 - -

So it does where the device is told to fail, which the next store finds. A word may be spelled with capital letters.

  $ told 'told 1 5 0000000A fault -'
  full 1 5
  passed 1 6 1 2
  low 1 200000 ack 0
  low 1 200000 refuse 5 0
  fault device 1 low
  [7]

The buffer is full.

  $ told 'told 1 5 0000000a fine full'
  full 1 5
  passed 1 6 1 2
  low 1 200000 ack 0
  stored 1 200000 1
  end 1 2 - -

The least count and average.

  $ told 'told 1 5 0000000a fine 0/0'
  passed 1 5 0 0
  low 1 6 ack 0
  stored 1 200000 1
  end 1 2 - -

The greatest ones, and a fault.

  $ told 'told 1 5 0000000a fault 4294967295/1000000000'
  passed 1 5 4294967295 1000000000
  low 1 200000 ack 0
  low 1 200000 refuse 5 0
  fault device 1 low
  [7]

The parts of such a line, as the comparison of two records tells them apart: the word, whose letters may be small or capital, the
moment, the outcome, and whether it was told of a full buffer or of nothing.

  $ looks() { printf '%s\n' "$row" "$1" '# compare' "$row" "$2" | netpump compare 2> sentence; }
  $ looks 'told 1 5 0000000a fault -' 'told 1 5 0000000A fault -'
  agree 2
  $ looks 'told 1 5 0000000a fine -' 'told 1 5 0000000b fine -'
  differ 1 word
  [16]
  $ looks 'told 1 5 0000000a fine -' 'told 1 6 0000000a fine -'
  differ 1 moment
  [16]
  $ looks 'told 1 5 0000000a fine -' 'told 1 5 0000000a fault -'
  differ 1 outcome
  [16]
  $ looks 'told 1 5 0000000a fine -' 'told 1 5 0000000a fine full'
  differ 1 feedback
  [16]

These are no looks. A number is past its bound:

  $ told 'told 1 5 0000000a fine 0/1000000001'
  fault script 4
  [5]
  $ told 'told 1 5 0000000a fine 4294967296/0'
  fault script 4
  [5]

A number has leading zeros:

  $ told 'told 1 5 0000000a fine 01/5'
  fault script 4
  [5]
  $ told 'told 1 5 0000000a fine 1/05'
  fault script 4
  [5]

There is no slash, no number on one side of it, or a second slash:

  $ told 'told 1 5 0000000a fine 15'
  fault script 4
  [5]
  $ told 'told 1 5 0000000a fine /5'
  fault script 4
  [5]
  $ told 'told 1 5 0000000a fine 1/'
  fault script 4
  [5]
  $ told 'told 1 5 0000000a fine 1/2/3'
  fault script 4
  [5]

The outcome or the feedback is another word:

  $ told 'told 1 5 0000000a none -'
  fault script 4
  [5]
  $ told 'told 1 5 0000000a fine Full'
  fault script 4
  [5]

A field is missing, or half of what comes:

  $ told 'told 1 5 0000000a fine'
  fault script 4
  [5]
  $ told 'told 1 5 0000000a -'
  fault script 4
  [5]
  $ told 'told 1 5 0000000a fine - hello weather'
  fault script 4
  [5]

# What comes with a look

Seven messages are accepted, and each look is told that the buffer is full. HELLO has the low name and then the high one.

  $ comes() {
  >   printf '%s\n' "low-session 1 3 $size 2 20000 100000 500000 weather watch 7 0" "$@" | netpump replay 2> sentence
  > }
  $ size=2
  $ comes 'told 1 5 0000000a fine full hello weather watch'
  low 1 5 welcome 7
  end 1 7 - -
  $ comes 'told 1 5 0000000a fine full hello watch weather'
  low 1 5 refuse 1 0
  end 1 7 - -

DATA has the number 7 and a payload of two bytes, which is stored where messages have two, and refused where they have one.

  $ comes 'told 1 5 0000000a fine full hello weather watch' 'told 1 5 0000000a fine full data 7 6162'
  low 1 5 welcome 7
  stored 1 5 7
  end 1 8 - -
  $ size=1
  $ comes 'told 1 5 0000000a fine full hello weather watch' 'told 1 5 0000000a fine full data 7 6162'
  low 1 5 welcome 7
  low 1 5 refuse 3 0
  end 1 7 - -

Raw bytes go to the reader of the connection: 00ff begins no frame, so Low is refused, and nothing behind it is read. Behind the
header of a DATA they are its payload.

  $ size=2
  $ comes 'told 1 5 0000000a fine full raw 00ff' 'told 1 5 0000000a fine full hello weather watch'
  low 1 5 refuse 2 0
  end 1 7 - -
  $ comes 'told 1 5 0000000a fine full hello weather watch' \
  >   'told 1 5 0000000a fine full raw 4e500103000000010000000000000007' \
  >   'told 1 5 0000000a fine full raw 0002' \
  >   'told 1 5 0000000a fine full raw 00ff'
  low 1 5 welcome 7
  stored 1 5 7
  end 1 8 - -

The bytes of a message and raw ones are kept as they are spelled, which shows in a whole session.

  $ cat > table.toml <<'END'
  > [[session]]
  > id = 1
  > low = "weather"
  > high = "watch"
  > capacity = 3
  > message = 8
  > window = 2
  > start = 20000
  > longest = 100000
  > resend = 500000
  > low_port = 7001
  > high_port = 7002
  > END
  $ rm -f 1.*
  $ netpump replay <<'END'
  > session 1 3 8 2 20000 100000 500000 weather watch
  > look 1 5 00000000 hello weather watch
  > look 1 5 00000000 data 0 6162
  > look 1 5 00000000
  > look 1 100 00000000
  > look 1 100 00000000 raw 4e5001030000000100000000000000010002
  > look 1 100 00000000 raw 00ff
  > END
  low 1 5 welcome 0
  stored 1 5 0
  passed 1 5 0 20000
  low 1 100 ack 0
  stored 1 100 1
  end 1 2 0 0
  $ netpump show table.toml 1
  show 1 2 0 0
  live 1 0 6162
  live 1 1 00ff
