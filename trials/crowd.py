"""crowd: a crowd of hostile connections at one port of a relay, for trials/hostile, and the frames that they send. It
is a module: run by itself it does nothing.

One thread serves all connections. What one of them does is its plan, a generator: it sends, and yields for how many
seconds it waits for the next frame. It gets the frame, CLOSED, or None where nothing came in that time."""
import collections
import heapq
import itertools
import selectors
import socket
import struct
import time

HELLO, WELCOME, DATA, ACK, REFUSE, ATTACH, TAKEN = range(1, 8)
SESSION, MESSAGE, NAMES = 1, 64, b"weather:watch"
AT_ONCE, PATIENCE, CLOSED = 64, 20, "closed"
# So many waves have one slow connection: a slow one keeps all others waiting for four seconds.
SLOW_EVERY = 120


def frame(kind, number=0, payload=b"", session=SESSION):
    return struct.pack(">2sBBIQH", b"NP", 1, kind, session, number, len(payload)) + payload


def every_kind(number):
    """A frame of each kind that a low party has no cause to send, and one DATA of another session."""
    yield frame(WELCOME, number)
    yield frame(ACK, number)
    yield frame(REFUSE, number, b"\x02")
    yield frame(ATTACH, number)
    yield frame(TAKEN, number)
    yield frame(DATA, number, b"x", session=SESSION + 1)


def first_frame(held):
    """The first whole frame of these bytes, its kind, number and payload, and what is behind it. None where there is
    none."""
    if len(held) < 18:
        return None, held
    _, _, kind, _, number, length = struct.unpack(">2sBBIQH", held[:18])
    if len(held) < 18 + length:
        return None, held
    return (kind, number, held[18 : 18 + length]), held[18 + length :]


def refusal(code, number=0):
    return REFUSE, number, bytes([code])


GREETING = frame(HELLO, 0, NAMES)


class Visitor:
    """A connection of the crowd, and what came of it."""

    def __init__(self, run, port, plan, cut):
        self.run, self.name, self.cut = run, plan.__name__.replace("_", " "), cut
        self.least, self.held, self.until = run.acknowledged, b"", 0
        self.came, self.end = "left before an answer", "closed by the relay"
        self.is_connected = self.is_closed = False
        self.plan = plan(self)
        self.link = socket.socket()
        self.link.setblocking(False)
        self.link.setsockopt(socket.SOL_SOCKET, socket.SO_LINGER, struct.pack("ii", 1, 0))
        self.link.connect_ex(("127.0.0.1", port))

    def send(self, data):
        try:
            self.link.send(data)
        except OSError:
            pass  # The relay has ended the connection, as the next read tells.

    def close_politely(self):
        """The connection is to end as others do, and not by a reset."""
        self.link.setsockopt(socket.SOL_SOCKET, socket.SO_LINGER, struct.pack("ii", 0, 0))

    def take_in(self):
        """Reads what is there."""
        try:
            data = self.link.recv(65536)
        except BlockingIOError:
            return
        except OSError:
            data, self.end = b"", "reset by the relay"
        self.held += data
        self.is_closed = not data

    def next(self):
        """The next frame, CLOSED, or None where nothing is there."""
        heard, self.held = first_frame(self.held)
        if heard:
            self.came = "answered"
        elif self.is_closed and self.came != "answered":
            self.came = self.end
        return heard or (CLOSED if self.is_closed else None)

    def say(self, answered, wanted):
        self.run.wrong.append(f"crowd: {self.name}: the relay answered {answered} in place of {wanted}")

    # What a plan hears.

    def hears(self, *wanted):
        for one in wanted:
            answered = yield PATIENCE
            if answered != one:
                self.say(answered, one)

    def is_welcomed(self):
        self.send(GREETING)
        return (yield from self.hears_welcome())

    def hears_welcome(self):
        """The relay counts the messages that were acknowledged, and those at most that were handed in."""
        answered = yield PATIENCE
        fits = answered not in (None, CLOSED) and answered[0] == WELCOME and self.least <= answered[1] <= self.run.handed_in
        if not fits:
            self.say(answered, f"WELCOME {self.least} to {self.run.handed_in}")
        return answered[1] if fits else 0

    def is_ended(self):
        """The relay ends the connection, past messages that it may send before."""
        answered = yield PATIENCE
        while answered not in (None, CLOSED) and answered[0] == DATA and answered[2] == self.run.sent[answered[1]]:
            answered = yield PATIENCE
        if answered != CLOSED:
            self.say(answered, CLOSED)


# ---- what hostile low parties do ----


def nothing_at_all(v):
    yield 0


def a_piece_of_a_frame(v):
    v.send(v.run.draw.choice([GREETING, frame(DATA, 0, b"x")])[: v.run.draw.randrange(1, 18)])
    yield 0


def a_greeting(v):
    yield from v.is_welcomed()


def a_greeting_and_its_end(v):
    v.send(GREETING)
    v.link.shutdown(socket.SHUT_WR)
    v.close_politely()
    yield from v.hears_welcome()
    yield from v.hears(CLOSED)


def a_piece_of_a_message(v):
    number = yield from v.is_welcomed()
    v.send(frame(DATA, number, bytes(MESSAGE))[: v.run.draw.randrange(1, 18 + MESSAGE)])
    yield 0


def a_message_again(v):
    yield from v.is_welcomed()
    v.send(frame(DATA, 0, b"x"))
    yield from v.hears((ACK, 0, b""))


def bad_bytes(v):
    v.send(b"NQ")
    yield from v.hears(refusal(2), CLOSED)


def noise(v):
    v.send(b"\xff" + v.run.draw.randbytes(3000))
    yield from v.hears(refusal(2), CLOSED)


def bad_bytes_later(v):
    yield from v.is_welcomed()
    v.send(b"NP\x01\x00")
    yield from v.hears(refusal(2), CLOSED)


def kinds_before_a_greeting(v):
    kinds = [*every_kind(0), frame(DATA, 0, b"x")]
    v.send(b"".join(kinds))
    yield from v.hears(*[refusal(2)] * len(kinds))


def kinds_after_a_greeting(v):
    number = yield from v.is_welcomed()
    kinds = list(every_kind(number))
    v.send(b"".join(kinds))
    yield from v.hears(*[refusal(2)] * len(kinds))


def other_names(v):
    v.send(frame(HELLO, 0, b"weather:other") + frame(HELLO, 0, NAMES, session=SESSION + 1))
    yield from v.hears(refusal(1), refusal(1))


def too_long_and_too_far(v):
    number = yield from v.is_welcomed()
    v.send(frame(DATA, number, bytes(MESSAGE + 1)) + frame(DATA, number + 1, b"x") + frame(DATA, 2**48 - 1, b"x"))
    yield from v.hears(refusal(3), refusal(4, number), refusal(4, number))


def much_unread(v):
    v.send(GREETING + frame(TAKEN) * 60)
    yield 0


def silent(v):
    yield 0.02


def slow_greeting(v):
    for byte in GREETING[:4]:
        v.send(bytes([byte]))
        yield 1
    v.send(GREETING[4:])
    yield from v.hears_welcome()


# ---- what hostile receivers do ----


def attach(v):
    v.send(frame(ATTACH, len(v.run.received)))


def a_piece_of_an_attach(v):
    v.send(frame(ATTACH, 0)[: v.run.draw.randrange(1, 18)])
    yield 0


def another_kind_first(v):
    kind = v.run.draw.choice([HELLO, WELCOME, DATA, ACK, REFUSE, TAKEN])
    v.send(frame(kind, 0, {HELLO: NAMES, REFUSE: b"\x01"}.get(kind, b"")))
    yield from v.hears(CLOSED)


def bad_bytes_first(v):
    v.send(v.run.draw.choice([b"NQ", b"\x00", b"NP\x02"]))
    yield from v.hears(CLOSED)


def an_attach(v):
    attach(v)
    yield 0.001


def an_attach_and_its_end(v):
    attach(v)
    v.link.shutdown(socket.SHUT_WR)
    v.close_politely()
    yield from v.is_ended()


def an_attach_and_bad_bytes(v):
    attach(v)
    v.send(b"NQ")
    yield from v.is_ended()


def an_attach_ahead(v):
    v.send(frame(ATTACH, v.run.draw.choice([len(v.run.sent) + 2, 2**48])))
    yield from v.hears(CLOSED)


def an_attach_behind(v):
    v.send(frame(ATTACH, 0))
    yield from v.hears(CLOSED)


def a_taken_ahead(v):
    attach(v)
    v.send(frame(TAKEN, v.run.draw.choice([len(v.run.sent) + 1, 2**48 - 1])))
    yield from v.is_ended()


def a_taken_behind(v):
    attach(v)
    v.send(frame(TAKEN, 0) * 20 + b"NQ")
    yield from v.is_ended()


def other_kinds(v):
    attach(v)
    v.send(GREETING + frame(WELCOME) + frame(ACK) + frame(REFUSE, 0, b"\x02") + frame(TAKEN, 2**47, session=SESSION + 1) + b"NQ")
    yield from v.is_ended()


def another_session(v):
    v.send(frame(ATTACH, 2**48, session=SESSION + 1) + b"NQ")
    yield from v.is_ended()


def slow_attach(v):
    first = frame(ATTACH, len(v.run.received))
    for byte in first[:4]:
        v.send(bytes([byte]))
        yield 1
    v.send(first[4:] + b"NQ")
    yield from v.is_ended()


COMMON = {
    "low": [nothing_at_all, a_piece_of_a_frame, a_greeting, a_greeting_and_its_end, a_piece_of_a_message, bad_bytes, noise,
            bad_bytes_later, kinds_before_a_greeting, kinds_after_a_greeting, other_names, too_long_and_too_far, much_unread],
    "high": [nothing_at_all, a_piece_of_an_attach, another_kind_first, bad_bytes_first, an_attach, an_attach_and_its_end,
             an_attach_and_bad_bytes, an_attach_ahead, an_attach_behind, a_taken_ahead, a_taken_behind, other_kinds, another_session],
}
# One of each wave; the slow one comes first in some; the last one of each is answered when all before it are done with.
RARE = {"low": [a_message_again, silent], "high": [silent]}
SLOW = {"low": slow_greeting, "high": slow_attach}
LAST = {"low": bad_bytes, "high": bad_bytes_first}


class Crowd:
    """The connections at one port, wave after wave."""

    def __init__(self, run, side, port):
        self.run, self.side, self.port = run, side, port
        self.selector, self.live, self.turns, self.order = selectors.DefaultSelector(), set(), [], itertools.count()
        self.made, self.came, self.met = 0, collections.Counter(), collections.Counter()

    def come(self, count, limit):
        """So many connections in waves, or until the clock is at the limit."""
        for number in itertools.count():
            size = min(AT_ONCE, count - self.made)
            if size <= 0 or time.monotonic() > limit:
                return
            self.wave(list(self.plans(number, size)))

    def plans(self, number, size):
        """The plans of a wave, each with the step at which it is cut off by a reset, or None."""
        draw = self.run.draw
        for place in range(size):
            if place == 0 and number % SLOW_EVERY == 1:
                yield SLOW[self.side], None
            elif place == 1:
                yield draw.choice(RARE[self.side]), None
            elif place == size - 1:
                yield LAST[self.side], None
            else:
                yield draw.choice(COMMON[self.side]), draw.choice([None, None, 0, 1, 2, 3])

    def wave(self, plans):
        for plan, cut in plans:
            visitor = Visitor(self.run, self.port, plan, cut)
            self.made += 1
            self.met[visitor.name] += 1
            self.live.add(visitor)
            self.selector.register(visitor.link, selectors.EVENT_WRITE, visitor)
        while self.live:
            self.turn()

    def turn(self):
        """What is ready goes on, and what has waited for long enough."""
        now = time.monotonic()
        for key, _ in self.selector.select(max(0, self.turns[0][0] - now) if self.turns else 1):
            self.ready(key.data)
        now = time.monotonic()
        while self.turns and self.turns[0][0] <= now:
            until, _, visitor = heapq.heappop(self.turns)
            if visitor in self.live and visitor.until == until:
                self.go_on(visitor, None)

    def ready(self, visitor):
        if not visitor.is_connected:
            if visitor.link.getsockopt(socket.SOL_SOCKET, socket.SO_ERROR):
                visitor.came = "refused"
                return self.leave(visitor)
            visitor.is_connected = True
            self.selector.modify(visitor.link, selectors.EVENT_READ, visitor)
            return self.go_on(visitor, None)
        visitor.take_in()
        while visitor in self.live and (heard := visitor.next()):
            self.go_on(visitor, heard)

    def go_on(self, visitor, heard):
        """Lets a plan go on to its next wait, or to its end."""
        try:
            seconds = visitor.plan.send(heard)
        except StopIteration:
            return self.leave(visitor)
        if visitor.cut == 0:
            return self.leave(visitor)
        visitor.cut = visitor.cut and visitor.cut - 1
        visitor.until = time.monotonic() + seconds
        heapq.heappush(self.turns, (visitor.until, next(self.order), visitor))

    def leave(self, visitor):
        self.came[visitor.came] += 1
        self.live.remove(visitor)
        self.selector.unregister(visitor.link)
        visitor.plan.close()
        visitor.link.close()

    def told(self):
        ends = ", ".join(f"{count} {end}" for end, count in self.came.most_common())
        return f"{self.made} connections at the {self.side} port: {ends}"
