Session tables that are refused, each for the first thing that is wrong with it, and what is said of it on standard error.

Two rows that are lawful: the example of docs/formats.md, and one with each number at an end of its range and the keys in another
order. `changed` takes them with one text changed to another.

  $ cat >first <<.
  > [[session]]
  > id = 1
  > low = "weather"
  > high = "watch"
  > capacity = 3
  > message = 8
  > window = 2
  > start = 20000
  > longest = 100000
  > resend = 500000
  > low_port = 7001
  > high_port = 7002
  > .
  $ cat >second <<.
  > [[session]]
  > high_port = 0x1b5c
  > low_port = 65_535
  > resend = 1
  > longest = 1_000_000_000
  > start = 0
  > window = 256
  > message = 1024
  > capacity = 256
  > coarse = true
  > high = "-"
  > low = "a-name-of-thirty-two-bytes-00009"
  > id = 4294967295
  > .
  $ both=$(cat first second; echo .)
  $ changed() {
  >   local text=${both//"$1"/"$2"}
  >   printf %s "${text%.}" >t.toml
  >   netpump show t.toml 1
  > }

A number is no whole number or out of its range, an id is there twice, a key is missing, a name is none.

  $ changed 'id = 1' 'id = 1.0'
  fault table 4 1
  netpump: in the file t.toml: row 1 of the table has no whole number as its id; give it a whole number from 0 to 4294967295
  [6]
  $ changed '4294967295' '4294967296'
  fault table 4 2
  netpump: in the file t.toml: row 2 of the table has id = 4294967296; give it a whole number from 0 to 4294967295
  [6]
  $ changed 'id = 4294967295' 'id = 1'
  fault table 6 2
  netpump: in the file t.toml: row 2 of the table has id = 1, as an earlier row has; give it an id of its own
  [6]
  $ changed $'low = "weather"\n' ''
  fault table 2 1
  netpump: in the file t.toml: row 1 of the table has no low; give it a name in quotes, 1 to 32 of a to z, 0 to 9 and -
  [6]
  $ changed '"weather"' '"Weather"'
  fault table 5 1
  netpump: in the file t.toml: row 1 of the table has no name as its low; give it a name in quotes, 1 to 32 of a to z, 0 to 9 and -
  [6]
  $ changed '"weather"' '""'
  fault table 5 1
  netpump: in the file t.toml: row 1 of the table has no name as its low; give it a name in quotes, 1 to 32 of a to z, 0 to 9 and -
  [6]
  $ changed '00009"' '000009"'
  fault table 5 2
  netpump: in the file t.toml: row 2 of the table has no name as its low; give it a name in quotes, 1 to 32 of a to z, 0 to 9 and -
  [6]
  $ changed '"watch"' '7'
  fault table 5 1
  netpump: in the file t.toml: row 1 of the table has no name as its high; give it a name in quotes, 1 to 32 of a to z, 0 to 9 and -
  [6]

Capacities: the key is missing, which comes before a wrong message size, or its value is out of its range or no whole number.

  $ changed $'capacity = 3\nmessage = 8' 'message = 0'
  fault table 2 1
  netpump: in the file t.toml: row 1 of the table has no capacity; give it a whole number from 3 to 256
  [6]
  $ changed 'capacity = 3' 'capacity = 2'
  fault table 4 1
  netpump: in the file t.toml: row 1 of the table has capacity = 2; give it a whole number from 3 to 256
  [6]
  $ changed 'capacity = 256' 'capacity = 257'
  fault table 4 2
  netpump: in the file t.toml: row 2 of the table has capacity = 257; give it a whole number from 3 to 256
  [6]
  $ changed 'capacity = 3' 'capacity = -1'
  fault table 4 1
  netpump: in the file t.toml: row 1 of the table has capacity = -1; give it a whole number from 3 to 256
  [6]
  $ changed 'capacity = 3' 'capacity = 3.0'
  fault table 4 1
  netpump: in the file t.toml: row 1 of the table has no whole number as its capacity; give it a whole number from 3 to 256
  [6]
  $ changed 'capacity = 3' 'capacity = "3"'
  fault table 4 1
  netpump: in the file t.toml: row 1 of the table has no whole number as its capacity; give it a whole number from 3 to 256
  [6]

The other numbers.

  $ changed 'message = 8' 'message = 0'
  fault table 4 1
  netpump: in the file t.toml: row 1 of the table has message = 0; give it a whole number from 1 to 1024
  [6]
  $ changed 'message = 1024' 'message = 1025'
  fault table 4 2
  netpump: in the file t.toml: row 2 of the table has message = 1025; give it a whole number from 1 to 1024
  [6]
  $ changed $'window = 2\n' $'window = 0\n'
  fault table 4 1
  netpump: in the file t.toml: row 1 of the table has window = 0; give it a whole number from 1 to 256
  [6]
  $ changed 'window = 256' 'window = 257'
  fault table 4 2
  netpump: in the file t.toml: row 2 of the table has window = 257; give it a whole number from 1 to 256
  [6]
  $ changed 'start = 20000' 'start = 1000000001'
  fault table 4 1
  netpump: in the file t.toml: row 1 of the table has start = 1000000001; give it a whole number from 0 to 1000000000
  [6]
  $ changed 'longest = 100000' 'longest = 1000000001'
  fault table 4 1
  netpump: in the file t.toml: row 1 of the table has longest = 1000000001; give it a whole number from 0 to 1000000000
  [6]
  $ changed 'resend = 500000' 'resend = 0'
  fault table 4 1
  netpump: in the file t.toml: row 1 of the table has resend = 0; give it a whole number from 1 to 1000000000
  [6]
  $ changed 'low_port = 7001' 'low_port = 0'
  fault table 4 1
  netpump: in the file t.toml: row 1 of the table has low_port = 0; give it a whole number from 1 to 65535
  [6]
  $ changed 'low_port = 7001' 'low_port = 65536'
  fault table 4 1
  netpump: in the file t.toml: row 1 of the table has low_port = 65536; give it a whole number from 1 to 65535
  [6]

A port is missing, or there twice.

  $ changed $'high_port = 7002\n' ''
  fault table 2 1
  netpump: in the file t.toml: row 1 of the table has no high_port; give it a whole number from 1 to 65535
  [6]
  $ changed 'high_port = 7002' 'high_port = 7001'
  fault table 7 1
  netpump: in the file t.toml: row 1 of the table has the port 7001, which it or an earlier row has already; give it ports of its own
  [6]
  $ changed 'low_port = 65_535' 'low_port = 7002'
  fault table 7 2
  netpump: in the file t.toml: row 2 of the table has the port 7002, which it or an earlier row has already; give it ports of its own
  [6]
  $ changed 'high_port = 0x1b5c' 'high_port = 7001'
  fault table 7 2
  netpump: in the file t.toml: row 2 of the table has the port 7001, which it or an earlier row has already; give it ports of its own
  [6]

A key that is not known.

  $ changed $'id = 1\n' $'identity = 1\n'
  fault table 3 1
  netpump: in the file t.toml: row 1 of the table has a key that is none of id, low, high, capacity, message, window, start, longest, resend, low_port, high_port and coarse; take it out or mend its name
  [6]

`coarse` is no truth value; a missing key comes before that.

  $ changed '= true' '= "yes"'
  fault table 4 2
  netpump: in the file t.toml: row 2 of the table has no truth value as its coarse; give it true or false, without quotes
  [6]
  $ changed '= true' '= 1'
  fault table 4 2
  netpump: in the file t.toml: row 2 of the table has no truth value as its coarse; give it true or false, without quotes
  [6]
  $ changed 'high_port = 7002' 'coarse = 1'
  fault table 2 1
  netpump: in the file t.toml: row 1 of the table has no high_port; give it a whole number from 1 to 65535
  [6]

A key that is there twice, and a number of more than 64 bits, are no TOML.

  $ changed 'capacity = 3' $'capacity = 3\ncapacity = 3'
  fault table 1 0
  netpump: in the file t.toml: the table is no TOML document; mend how it is written, and give no key twice
  [6]
  $ changed 'capacity = 3' 'capacity = 9223372036854775808'
  fault table 1 0
  netpump: in the file t.toml: the table is no TOML document; mend how it is written, and give no key twice
  [6]

A row that stands alone.

  $ sed 's/^capacity = 3/capacity = 2/' first >t.toml; netpump show t.toml 1
  fault table 4 1
  netpump: in the file t.toml: row 1 of the table has capacity = 2; give it a whole number from 3 to 256
  [6]

A document is refused for its top level first. `document` takes its word as the whole table.

  $ document() { printf "$1" >t.toml; netpump show t.toml 1; }
  $ document ''
  fault table 2 0
  netpump: in the file t.toml: the table has no session; begin each with a line [[session]]
  [6]
  $ document 'sessions = []'
  fault table 3 0
  netpump: in the file t.toml: the table has a key at its top level that is not session; take it out or mend its name
  [6]
  $ document 'other = 1\nsession = 7'
  fault table 3 0
  netpump: in the file t.toml: the table has a key at its top level that is not session; take it out or mend its name
  [6]
  $ document 'session = 7'
  fault table 4 0
  netpump: in the file t.toml: session is no array of tables; begin each session of the table with a line [[session]]
  [6]
  $ document '[session]'
  fault table 4 0
  netpump: in the file t.toml: session is no array of tables; begin each session of the table with a line [[session]]
  [6]
  $ document 'session = [{}, 7]'
  fault table 4 0
  netpump: in the file t.toml: session is no array of tables; begin each session of the table with a line [[session]]
  [6]
  $ document 'session = [{}, {}, {}, {}, {}, {}, {}, {}, {}, {}, {}, {}, {}, {}, {}, {}]'
  fault table 2 1
  netpump: in the file t.toml: row 1 of the table has no id; give it a whole number from 0 to 4294967295
  [6]
  $ document 'session = [{}, {}, {}, {}, {}, {}, {}, {}, {}, {}, {}, {}, {}, {}, {}, {}, {}]'
  fault table 8 0
  netpump: in the file t.toml: the table has 17 rows, and 16 are the most; take the others out
  [6]
  $ document 'session = [{}, {}, {}, {}, {}, {}, {}, {}, {}, {}, {}, {}, {}, {}, {}, {}, 7]'
  fault table 4 0
  netpump: in the file t.toml: session is no array of tables; begin each session of the table with a line [[session]]
  [6]
  $ document 'session = ['
  fault table 1 0
  netpump: in the file t.toml: the table is no TOML document; mend how it is written, and give no key twice
  [6]
  $ document '\xff'
  fault table 1 0
  netpump: in the file t.toml: the table is no TOML document; mend how it is written, and give no key twice
  [6]

What else is said, of each kind of refusal that none above shows: what is wrong, and what to do.

  $ changed $'id = 4294967295\n' ''
  fault table 2 2
  netpump: in the file t.toml: row 2 of the table has no id; give it a whole number from 0 to 4294967295
  [6]
  $ changed $'high = "watch"\n' ''
  fault table 2 1
  netpump: in the file t.toml: row 1 of the table has no high; give it a name in quotes, 1 to 32 of a to z, 0 to 9 and -
  [6]
  $ sed 's/^id = 1/id = 3/; s/^\(.*\)_port = 700/\1_port = 800/' first | cat first second - >t.toml; echo name = 1 >>t.toml; netpump show t.toml 1
  fault table 3 3
  netpump: in the file t.toml: row 3 of the table has a key that is none of id, low, high, capacity, message, window, start, longest, resend, low_port, high_port and coarse; take it out or mend its name
  [6]
  $ changed 'low_port = 7001' 'low_port = "7001"'
  fault table 4 1
  netpump: in the file t.toml: row 1 of the table has no whole number as its low_port; give it a whole number from 1 to 65535
  [6]
  $ changed 'capacity = 3' $'capacity = 3\ncoarse = 1'
  fault table 4 1
  netpump: in the file t.toml: row 1 of the table has no truth value as its coarse; give it true or false, without quotes
  [6]
  $ sed 's/^id = .*/id = 7/' first second >t.toml; netpump show t.toml 1
  fault table 6 2
  netpump: in the file t.toml: row 2 of the table has id = 7, as an earlier row has; give it an id of its own
  [6]
