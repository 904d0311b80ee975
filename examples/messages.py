#!/usr/bin/env python3
"""messages.py FILE [FROM]: prints the messages on a receiver's disk, such as 1.recv, a line of hexadecimal digits each, `-` for a
message without bytes. FROM is the number of the first one to print, 0 where no other is given.

It only reads the file, so it may run beside `netpump receive`. It prints what the disk had at one moment. docs/formats.md,
"Disks", has the bytes."""
import os
import sys

HEADER = 80


def register(file, name):
    """How many messages there are, and where they end, at one moment."""
    while (header := os.pread(file.fileno(), HEADER, 0)) != os.pread(file.fileno(), HEADER, 0):
        pass
    if len(header) < HEADER or header[:5] != b"NPD1R":
        sys.exit(f"{name} is no receiver's disk of netpump")
    cell = 48 + 16 * (header[32] % 2)
    return int.from_bytes(header[cell : cell + 8], "big"), int.from_bytes(header[cell + 8 : cell + 16], "big")


def messages(file, name):
    count, end = register(file, name)
    file.seek(HEADER)
    for _ in range(count):
        yield file.read(int.from_bytes(file.read(2), "big"))
    if file.tell() != end:
        sys.exit(f"the records of {name} do not end where its register says")


def main():
    if len(sys.argv) not in (2, 3):
        sys.exit("usage: messages.py FILE [FROM], as in: messages.py 1.recv")
    name, first = sys.argv[1], int(sys.argv[2]) if len(sys.argv) > 2 else 0
    with open(name, "rb") as file:
        for number, message in enumerate(messages(file, name)):
            if number >= first:
                print(message.hex() or "-")


main()
