#!/usr/bin/env python3
"""high.py PORT SESSION FILE: High's receiver in plain Python, with no part of netpump. It connects to the relay at this port of
127.0.0.1, appends each message to FILE, syncs FILE, and only then answers. It prints `took N` for each message that is new.
It ends when the connection does. Start it again with the same FILE and it goes on behind the last message there.

high.py FILE: prints the messages of FILE, a line of hexadecimal digits each, `-` for a message without bytes.

FILE is a list of records: the length of the message (4 bytes), a checksum (4 bytes), and the message. A kill or a crash in the
middle of a write leaves part of a record at the end. It was never answered, so it is cut off at the start and the relay sends
the message again. docs/protocol.md tells the exchange."""
import fcntl
import os
import socket
import struct
import sys
import zlib

DATA, ATTACH, TAKEN = 3, 6, 7
HEAD = struct.Struct(">II")
LONGEST = 1024


def frame(kind, session, number):
    return struct.pack(">2sBBIQH", b"NP", 1, kind, session, number, 0)


def record(number, message):
    """A message as it stands in the file. The checksum covers its number too, so that zeros are no record."""
    return HEAD.pack(len(message), zlib.crc32(number.to_bytes(8, "big") + message)) + message


def messages(file):
    """The messages at the beginning of the file that are whole, each with the offset behind it."""
    number, end = 0, 0
    while len(head := file.read(HEAD.size)) == HEAD.size:
        length, _ = HEAD.unpack(head)
        message = file.read(length) if length <= LONGEST else b""
        if head + message != record(number, message):
            return
        number, end = number + 1, end + HEAD.size + length
        yield message, end


def sync_folder(name):
    """The file's name outlives a crash, too."""
    folder = os.open(os.path.dirname(os.path.abspath(name)), os.O_RDONLY)
    os.fsync(folder)
    os.close(folder)


def opened(name):
    """The file, locked and cut behind its last whole record, and how many messages it has."""
    file = open(name, "a+b")
    try:
        fcntl.flock(file, fcntl.LOCK_EX | fcntl.LOCK_NB)
    except BlockingIOError:
        sys.exit(f"{name} is in use by another receiver")
    file.seek(0)
    count, end = 0, 0
    for count, (_, end) in enumerate(messages(file), 1):
        pass
    torn = file.seek(0, os.SEEK_END) - end
    if torn:
        file.truncate(end)
        print(f"the last {torn} bytes of {name} are no whole record and were cut off", file=sys.stderr)
    os.fsync(file.fileno())
    sync_folder(name)
    return file, count


def connected(port):
    try:
        link = socket.create_connection(("127.0.0.1", port))
    except ConnectionRefusedError:
        sys.exit(f"nobody listens at port {port} of 127.0.0.1")
    link.setsockopt(socket.IPPROTO_TCP, socket.TCP_NODELAY, 1)
    return link


def read(link, size):
    """So many bytes, or None where the connection ends."""
    data = b""
    while len(data) < size:
        try:
            piece = link.recv(size - len(data))
        except ConnectionError:
            piece = b""
        if not piece:
            return None
        data += piece
    return data


def data_frames(link, session):
    """Each DATA of the session that comes, until the connection ends."""
    while (head := read(link, 18)) is not None:
        _, _, kind, of, number, length = struct.unpack(">2sBBIQH", head)
        message = read(link, length)
        if message is None:
            return
        if kind == DATA and of == session:
            yield number, message


def store(file, number, message):
    file.write(record(number, message))
    file.flush()
    os.fsync(file.fileno())


def receive(link, session, file, count):
    """Takes messages until the connection ends, and says how many there are then."""
    link.sendall(frame(ATTACH, session, count))
    for number, message in data_frames(link, session):
        if number > count:
            sys.exit(f"message {number} comes, and {count} are here: this is not the file that the relay knows")
        if number == count:
            store(file, number, message)
            count += 1
            print(f"took {number}", flush=True)
        link.sendall(frame(TAKEN, session, number))
    return count


def main():
    if len(sys.argv) == 2:
        with open(sys.argv[1], "rb") as file:
            for message, _ in messages(file):
                print(message.hex() or "-")
        return
    port, session, name = int(sys.argv[1]), int(sys.argv[2]), sys.argv[3]
    file, count = opened(name)
    with file, connected(port) as link:
        count = receive(link, session, file, count)
    print(f"the relay has ended the connection; {count} messages are in {name}", file=sys.stderr)


main()
