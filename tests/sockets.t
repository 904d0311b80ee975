What the commands over sockets say on standard error, where a port, the record or a printed line stops them.

One port is in use, and two are free. Nobody listens at the ports 1 and 2.

  $ python3 -c '
  > import socket, time
  > ports = [socket.socket() for _ in range(3)]
  > for port in ports:
  >     port.bind(("127.0.0.1", 0))
  > print(*(port.getsockname()[1] for port in ports), flush=True)
  > ports[0].listen()
  > ports[1].close()
  > ports[2].close()
  > open("ready", "w").close()
  > time.sleep(50)' >ports &
  $ while [ ! -e ready ]; do sleep 0.01; done; read used low high <ports
  $ . $TESTDIR/helpers
  $ row message=8 low_port=$low high_port=$high >t.toml; row message=8 low_port=$used high_port=$high >low.toml
  $ row message=8 low_port=$low high_port=$used >high.toml; row message=8 >none.toml
  $ netpump format t.toml 1
  formatted 1

The low port is in use, or the high one.

  $ netpump serve low.toml 1 1
  fault link
  netpump: port * of 127.0.0.1, which is the low port of session 1, could not be listened at; see that no other program has it, such as another netpump that serves this session, and that it is yours to take (those below 1024 are root's), or give the session another low_port in low.toml (glob)
  [9]
  $ netpump serve high.toml 1 1
  fault link
  netpump: port * of 127.0.0.1, which is the high port of session 1, could not be listened at; see that no other program has it, such as another netpump that serves this session, and that it is yours to take (those below 1024 are root's), or give the session another high_port in high.toml (glob)
  [9]

Nobody answers.

  $ echo 61 | netpump send none.toml 1 1
  fault link
  netpump: nobody answers at port 1 of 127.0.0.1, which is the low port of session 1; start its relay in the folder of its disks by netpump serve none.toml 1 LOOKS, and try again while it runs
  [9]
  $ netpump receive none.toml 1 1
  fault link
  netpump: nobody answers at port 2 of 127.0.0.1, which is the high port of session 1; start its relay in the folder of its disks by netpump serve none.toml 1 LOOKS, and try again while it runs
  [9]

The record can't be written, nor what the sender and the receiver print. Then the relay ends while a sender is at its port.

  $ netpump serve t.toml 1 1 2>said >/dev/full; status=$?
  $ grep -e ' ended: ' -e '^netpump' said | sed 's/^[^ ]*Z //'; (exit $status)
  netpump: the low side of session 1 has ended: the record could not be written; see that its disk has room, or that its reader is there. Its port * is closed, and the high side goes on to its own end; stop this relay and start it again (glob)
  netpump: standard output could not be written; see that its reader is there, or that its disk has room, and start the relay again, with a new file for the record, since nothing was taken from Low any more. What was acknowledged is kept
  [4]
  $ netpump serve t.toml 1 4294967295 >record 2>said & relay=$!
  $ while [ ! -s record ]; do sleep 0.01; done
  $ echo 61 | netpump send t.toml 1 20000 >/dev/full
  netpump: standard output could not be written; see that its reader is there, or that its disk has room, and send all lines again: those that are stored are passed over
  [4]
  $ netpump receive t.toml 1 20000 >/dev/full
  netpump: standard output could not be written; see that its reader is there, or that its disk has room, and receive again. The message whose line could not be written is kept, and its line is not printed again
  [4]
  $ (sleep 1; kill $relay) & printf '61\n62\n' | (sleep 2; cat) | netpump send t.toml 1 20000
  fault unfinished 1
  netpump: message 1 and those after it are not acknowledged: the connection to the relay ended, or took no bytes for a second; see that the relay runs, has rounds left and can write its record, and send all lines again: those that are stored are passed over
  [12]
