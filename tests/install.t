`tools/install` puts the program and what belongs to it in their places, and the completion of bash knows the program's commands.

  $ export NETPUMP=$(command -v netpump)
  $ DESTDIR=$PWD/at "$TESTDIR/../tools/install" /opt/netpump | sed "s,$PWD,HERE,"
  installed below HERE/at/opt/netpump
  $ (cd at && find . -type f | sort)
  ./opt/netpump/bin/netpump
  ./opt/netpump/bin/netpump-pack
  ./opt/netpump/bin/netpump-serve
  ./opt/netpump/lib/systemd/system/netpump-collect@.service
  ./opt/netpump/lib/systemd/system/netpump-drop@.service
  ./opt/netpump/lib/systemd/system/netpump-receive@.service
  ./opt/netpump/lib/systemd/system/netpump-records.service
  ./opt/netpump/lib/systemd/system/netpump-records.timer
  ./opt/netpump/lib/systemd/system/netpump@.service
  ./opt/netpump/share/bash-completion/completions/netpump
  ./opt/netpump/share/man/man1/netpump.1
  $ grep -h -o '/[a-z/]*/bin/netpump[-a-z]*' at/opt/netpump/lib/systemd/system/*
  /opt/netpump/bin/netpump
  /opt/netpump/bin/netpump
  /opt/netpump/bin/netpump
  /opt/netpump/bin/netpump-pack
  /opt/netpump/bin/netpump-serve

A folder that is no whole name, and a program that is not there, are refused.

  $ "$TESTDIR/../tools/install" here
  usage: tools/install [PREFIX]: a folder whose name begins with a slash; /usr/local where none is named
  [2]
  $ NETPUMP=/nowhere "$TESTDIR/../tools/install" $PWD/there; ls
  tools/install: there is no program at /nowhere: examples/program builds it
  at

What is completed, where the last word is the one that is being typed.

  $ source at/opt/netpump/share/bash-completion/completions/netpump
  $ completed() {
  >   COMP_WORDS=("$@") COMP_CWORD=$(($# - 1)) COMPREPLY=()
  >   _netpump
  >   printf '%s\n' "${COMPREPLY[@]}" | sort | paste -s -d' '
  > }
  $ printf '[[session]]\nid = 7\n[[session]]\nid = 12\n' >two.toml
  $ completed netpump ''
  append audit chain collect compare drop exercise format messages migrate race receive replay send serve show status unwrap wrap
  $ completed netpump re
  receive replay
  $ completed netpump serve tw
  two.toml
  $ completed netpump serve two.toml ''
  12 7
  $ completed netpump serve two.toml 7 ''
  4294967295
  $ completed netpump append two.toml 7 ''
  4294967295
  $ completed netpump messages two.toml ''
  12 7
  $ completed netpump migrate two.toml 7 two.toml 1
  12
  $ completed netpump audit ''
  

A copy of the examples finds the program in the PATH.

  $ cp -r "$TESTDIR/../examples" copied
  $ env -u NETPUMP copied/program | sed 's,.*/bin/,BIN/,'
  BIN/netpump
  $ env -u NETPUMP PATH=/usr/bin:/bin copied/program
  examples/program: there is no netpump in the PATH, and no repository here to build it from
  [2]
