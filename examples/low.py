#!/usr/bin/env python3
"""low.py PORT SESSION LOW HIGH: a low party in plain Python, with no part of netpump. It hands in the lines of standard input,
a message each and as they are, to the relay at this port of 127.0.0.1, and prints `ack N` for each. A line ends with a newline,
the last one too, and no other byte ends one.

The lines are one list, the first with the number 0: those that the relay has already are passed over, by their number alone.
After a kill or a lost connection start it again with the same list from its first line on. docs/protocol.md tells the
exchange."""
import socket
import struct
import sys

HELLO, WELCOME, DATA, ACK, REFUSE = 1, 2, 3, 4, 5
LONGEST = 1024


def frame(kind, session, number=0, payload=b""):
    return struct.pack(">2sBBIQH", b"NP", 1, kind, session, number, len(payload)) + payload


def connected(port):
    try:
        link = socket.create_connection(("127.0.0.1", port))
    except ConnectionRefusedError:
        sys.exit(f"nobody listens at port {port} of 127.0.0.1")
    link.setsockopt(socket.IPPROTO_TCP, socket.TCP_NODELAY, 1)
    return link


def read(link, size):
    data = b""
    while len(data) < size:
        try:
            piece = link.recv(size - len(data))
        except ConnectionError:
            piece = b""
        if not piece:
            sys.exit("the relay has ended the connection; start again with the same lines")
        data += piece
    return data


def answer(link, session, wanted):
    """The number of the next frame of this kind; a refusal ends the program."""
    while True:
        _, _, kind, of, number, length = struct.unpack(">2sBBIQH", read(link, 18))
        payload = read(link, length)
        if of != session:
            continue
        if kind == REFUSE:
            sys.exit(f"the relay refuses with code {payload[0]}, number {number}")
        if kind == wanted:
            return number


def message_of(number, line):
    """The message of a line; a line that can't be sent ends the program."""
    if not line.endswith(b"\n"):
        sys.exit(f"line {number + 1} has no newline at its end and is not sent")
    if len(line) - 1 > LONGEST:
        sys.exit(f"line {number + 1} has more than {LONGEST} bytes and is not sent")
    return line[:-1]


def main():
    port, session, low, high = int(sys.argv[1]), int(sys.argv[2]), sys.argv[3], sys.argv[4]
    with connected(port) as link:
        link.sendall(frame(HELLO, session, 0, f"{low}:{high}".encode()))
        accepted = answer(link, session, WELCOME)
        passed = 0
        # A binary stream is cut at newlines alone.
        for number, line in enumerate(sys.stdin.buffer):
            if number < accepted:
                passed += 1
                continue
            link.sendall(frame(DATA, session, number, message_of(number, line)))
            while answer(link, session, ACK) != number:
                pass
            print(f"ack {number}", flush=True)
    if accepted:
        print(f"the relay had {accepted} messages; {passed} lines were passed over", file=sys.stderr)


main()
