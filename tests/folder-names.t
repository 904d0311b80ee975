Which files `drop` takes out of a folder and in which order, and how `collect` shows them.

  $ . $TESTDIR/helpers
  $ read low high < <(free_ports 2)
  $ row message=200 low_port=$low high_port=$high >t.toml
  $ netpump format t.toml 1
  formatted 1
  $ serve() {
  >   : >log
  >   netpump serve t.toml 1 4294967295 >record 2>>log & relay=$!
  >   until grep -q 'high side' log; do sleep 0.05; done
  > }
  $ mkdir out elsewhere; ln -s elsewhere in; touch went came

The folder `in` is elsewhere, as one on another disk would be. The relay has room for three messages, so a longer file waits for its receiver. Meanwhile its name tells how it is sent.

  $ head -c 1000 /dev/zero | tr '\0' z >out/z; touch -d '1 hour ago' out/z
  $ serve
  $ netpump drop t.toml 1 4294967295 out >went & low_end=$!
  $ until ls -A out | grep -q -e -s-; do sleep 0.05; done; ls -A out
  .np-1-s-1-200-1000-950f88b09cf1d5e2cdbc5660c77dce3962265c548797950095629a0ea2daea46-z
  $ kill -9 $low_end; wait $low_end 2>/dev/null
  [137]

The next `drop` goes on with it. Then come the others: the one that was changed first goes first, and of two that were changed at once the one whose name comes first. What is hidden, a link, a pipe, a folder, a name that can't go, and a file that was changed within the last two seconds stay where they are.

  $ for name in a b '~' ends. .np-8-f-other; do echo $name >out/$name; touch -d '30 minutes ago' out/$name; done
  $ touch -r out/a out/b; ln -s a out/link; mkdir out/folder; mkfifo out/pipe; echo young >out/young; touch -d tomorrow out/young

A name at which a link stands is not free, also where the link leads to nothing.

  $ ln -s nothing in/b
  $ netpump drop t.toml 1 4294967295 out >went 2>left & low_end=$!
  $ netpump collect t.toml 1 4294967295 in >came 2>said & high_end=$!
  $ until [ "$(wc -l <came)" = 3 ]; do sleep 0.05; done
  $ cut -d ' ' -f 1-4,6 came
  file 1 8 1000 z
  file 1 11 2 a
  file 1 14 2 b~14
  $ until [ "$(wc -l <went)" = 3 ]; do sleep 0.05; done
  $ cut -d ' ' -f 1-4,6 went
  sent 1 1 1000 z
  sent 1 9 2 a
  sent 1 12 2 b
  $ ls -A out; stat -c '%a %N' in/*
  .np-8-f-other
  ends.
  folder
  link
  pipe
  young
  ~
  640 'in/a'
  777 'in/b' -> 'nothing'
  640 'in/b~14'
  640 'in/z'
  $ kill $low_end; wait $low_end 2>/dev/null
  [143]

A file is shown only out of the part that `collect` wrote. Here `append` sends the messages of a file one by one, and the part is taken away before the last one comes.

  $ printf '%s\n' 0201000000000000000263 006869 | netpump append t.toml 1 4294967295
  ack 15
  ack 16
  appended 1 2 17
  $ until [ "$(stat -c %s in/.1.part 2>/dev/null)" = 2 ]; do sleep 0.05; done; rm in/.1.part
  $ (printf 03; printf hi | sha256sum | cut -d ' ' -f 1) | netpump append t.toml 1 4294967295
  ack 17
  appended 1 1 18
  $ wait $high_end; tail -n 1 came; cat said
  fault folder 1
  netpump: the folder in is not there, or a file of netpump in it is gone; make the folder in this one, or see who takes such files away, and start again
  $ ls -A in
  .1.files
  a
  b
  b~14
  z
  $ kill $relay; wait $relay 2>/dev/null
  [143]
