Exercises: the messages of a number, and the line that sums them up.

  $ netpump() { command netpump "$@" 2>/dev/null; }

One message.

  $ netpump exercise 0 1
  exercise 0 1 looks 4 acks 1 full 0 removed 0 delay 5431

Each seventh message finds the buffer full once, and seven are removed with it.

  $ netpump exercise 7 2000
  exercise 7 2000 looks 6286 acks 2000 full 285 removed 1995 delay 4246988

A summary without room is cut: the file has 1,004 bytes already, and may have 1,024.

  $ head -c 1004 /dev/zero >cut
  $ (trap '' XFSZ; ulimit -f 1; netpump exercise 0 1 >>cut)
  [4]
  $ tail -c +1005 cut
  exercise 0 1 looks 4 (no-eol)
