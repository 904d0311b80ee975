Files from folder to folder over a relay: what `drop` and `collect` print and leave, and what they say where they stop.

Two ports are free. Nobody listens at the ports 1 and 2.

  $ . $TESTDIR/helpers
  $ read low high < <(free_ports 2)
  $ files() { row capacity=64 window=8 start=200 "$@"; }
  $ files message=200 low_port=$low high_port=$high >t.toml; files message=137 >short.toml; files message=138 >none.toml
  $ netpump format t.toml 1
  formatted 1
  $ mkdir out in; touch went came
  $ serve() {
  >   : >log
  >   netpump serve t.toml 1 $1 >record 2>>log & relay=$!
  >   until grep -q 'high side' log; do sleep 0.05; done
  > }

A row with messages that are too short, a folder that isn't there, one that is none, and a relay that isn't.

  $ netpump drop short.toml 1 1 out
  fault table 12 1
  netpump: the messages of session 1 have fewer than 138 bytes in the table short.toml, and the name of a file needs as many; name a session that has longer ones
  [6]
  $ netpump collect t.toml 2 1 in
  fault table 11 2
  netpump: no row of the table t.toml has id = 2; name a session that has one, or add it
  [6]
  $ netpump drop t.toml 1 1 gone
  fault folder 1
  netpump: the folder gone is not there, or a file of netpump in it is gone; make the folder in this one, or see who takes such files away, and start again
  [7]
  $ netpump collect t.toml 1 1 t.toml
  fault folder 1
  netpump: t.toml is no folder; name one that is in this folder
  [7]
  $ netpump drop none.toml 1 1 out
  fault link
  netpump: nobody answers at port 1 of 127.0.0.1, which is the low port of session 1; start its relay in the folder of its disks by netpump serve none.toml 1 LOOKS, and try again while it runs
  [9]
  $ netpump collect none.toml 1 1 in
  fault link
  netpump: nobody answers at port 2 of 127.0.0.1, which is the high port of session 1; start its relay in the folder of its disks by netpump serve none.toml 1 LOOKS, and try again while it runs
  [9]

A collector makes its register when it begins. One that is another's is not touched, and one whose mark a crash has torn is made again.

  $ od -A d -t x1 in/.1.files
  0000000 4e 50 44 31 43 01 00 00 00 00 00 00 00 00 00 00
  0000016 00 00 00 00 00 00 00 00 00 00 00 00 00 00 00 00
  *
  0000208 00 00 00 00 00 00 00 00 00 00 00 00
  0000220
  $ mkdir torn; (printf 'NPD\0C\1'; head -c 214 /dev/zero) >torn/.1.files
  $ netpump collect none.toml 1 1 torn 2>/dev/null
  fault link
  [9]
  $ cmp in/.1.files torn/.1.files
  $ mkdir other; head -c 220 /dev/zero | tr '\0' x >other/.1.files
  $ netpump collect t.toml 1 1 other
  fault register 1
  netpump: the file .1.files in the folder other is none that collect made, or is damaged; put back the one that belongs there
  [8]

Files go from one folder to the other, the one that was changed first before the others, and are removed behind their lines. One has no bytes, and two have one name. Names that can't go are left lying.

  $ serve 4294967295
  $ netpump collect t.toml 1 4294967295 in >came 2>said & high=$!
  $ printf 'hello, world' >out/a.txt; touch -d '10 minutes ago' out/a.txt
  $ : >out/e; touch -d '9 minutes ago' out/e
  $ head -c 5000 /dev/zero >out/zeros; touch -d '8 minutes ago' out/zeros
  $ echo not >'out/not~this'; mkdir out/folder
  $ netpump drop t.toml 1 4294967295 out >went 2>also & low_end=$!
  $ until [ "$(wc -l <went)" = 3 ]; do sleep 0.05; done
  $ cat went
  sent 1 1 12 09ca7e4eaa6e8ae9c7d261167129184883644d07dfba7cbfbc4c8a2e08360d5b a.txt
  sent 1 4 0 e3b0c44298fc1c149afbf4c8996fb92427ae41e4649b934ca495991b7852b855 e
  sent 1 6 5000 7ca5bd879f393d9dd05b14f38add9c0fc6b67928f7f2d261b2e47a32ee8219e3 zeros
  $ printf 'again' >out/a.txt; touch -d '10 minutes ago' out/a.txt
  $ until [ "$(wc -l <came)" = 4 ]; do sleep 0.05; done
  $ cat came
  file 1 3 12 09ca7e4eaa6e8ae9c7d261167129184883644d07dfba7cbfbc4c8a2e08360d5b a.txt
  file 1 5 0 e3b0c44298fc1c149afbf4c8996fb92427ae41e4649b934ca495991b7852b855 e
  file 1 33 5000 7ca5bd879f393d9dd05b14f38add9c0fc6b67928f7f2d261b2e47a32ee8219e3 zeros
  file 1 36 5 b4c9e14061c2fd453b36700e3b0da008db2189c711ac629f0f583089164e267d a.txt~36
  $ ls -A out; ls -A in; cat in/a.txt in/a.txt~*
  folder
  not~this
  .1.files
  a.txt
  a.txt~36
  e
  zeros
  hello, worldagain (no-eol)

Only one command is at work in a folder.

  $ netpump drop t.toml 1 1 out
  fault folder 1
  netpump: another netpump is at work in the folder out; end it, or wait until it has ended, and try again
  [7]
  $ netpump collect t.toml 1 1 in
  fault folder 1
  netpump: another netpump is at work in the folder in; end it, or wait until it has ended, and try again
  [7]

The relay ends, and so do both: nothing was awaited. What was left lying is told. More than one marked file, and one that the relay knows nothing of, are refused.

  $ kill $relay; wait $relay $high $low_end 2>/dev/null; cat said also
  netpump: 2 in number are not sent out of the folder out, since their names can't go or they are no regular files (docs/running.md, "Folders", says which names can)
  $ serve 3000
  $ mkdir two; touch two/.np-1-f-b two/.np-1-f-c
  $ netpump drop t.toml 1 4294967295 two
  fault marks 1
  netpump: more than one file in the folder two is marked as being sent: their names begin with .np-1-. Keep the one that the last drop had, give the others their own names again, which stand at the end of the marked ones, and drop again
  [8]
  $ mkdir far; touch far/.np-1-s-1000-200-0-e3b0c44298fc1c149afbf4c8996fb92427ae41e4649b934ca495991b7852b855-e
  $ netpump drop t.toml 1 4294967295 far
  fault step 1 1000 37
  netpump: the file that is being sent out of the folder far began with message 1000, and the relay has accepted 37 messages, so the folder and the disks of session 1 are not of one time, or somebody else sends to this session. Give the file, whose name begins with .np-1-, its own name again, which stands at the end of that one, and drop again: it is sent from its beginning
  [13]
  $ kill $relay; wait $relay 2>/dev/null || true

A folder of more files than one list keeps. At a terminal `drop` shows how far a file is, and takes that away before it says more.

  $ serve 4294967295
  $ netpump collect t.toml 1 4294967295 in >came & high=$!
  $ mkdir many; for i in $(seq 100 399); do echo $i >many/$i; done; touch -d '1 minute ago' many/*; touch -d '2 minutes ago' many/399
  $ python3 -c 'import pty, sys; pty.spawn(sys.argv[1:])' netpump drop t.toml 1 4294967295 many </dev/null >shown & low_end=$!
  $ until [ "$(wc -l <came)" = 300 ]; do sleep 0.05; done
  $ kill $relay; wait $relay $high $low_end 2>/dev/null
  $ cut -d ' ' -f 6 came | (read first; echo $first; cmp - <(seq 100 398))
  399
  $ sed 's/\x1b\[K/\n/g' shown | tr -d '\r' | head -n 4 | cut -d ' ' -f 1-5
  
  399: 0 of 4
  399: 4 of 4
  sent 1 38 4 864154b81b91ae782cd8fc7f265912aafa6c36078168f96951d452cab5d99dc7
