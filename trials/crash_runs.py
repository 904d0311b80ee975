"""The runs of trials/crash-images: how each finds its files, what is started and killed in it, and what its calls
promise.

A run is prepared, played under strace, and read off as a list of events."""
import os
import random
import signal
import subprocess
import sys
import time

from common import MOST_LOOKS, ROLES, Refused, Row, count, free_ports, read, received, slot, till
from crash_disks import KNOWN, STRANGE, Folder, Trace, is_none, lines_of, messages_in, new_disk, stands_for, write_file

HERE = os.path.dirname(os.path.realpath(__file__))
LIMIT = 20
# Capacities and message sizes.
SHAPES = [(3, 8), (4, 40), (64, 16), (3, 1024), (256, 300), (5, 1)]
TABLE = """[[session]]
id = {row.session}
low = "weather"
high = "watch"
capacity = {row.capacity}
message = {row.message}
window = 2
start = 100
longest = 1000
resend = 20000
low_port = {ports[0]}
high_port = {ports[1]}
"""


def run(program, words, folder, source=b""):
    """The status of a command, and what it prints."""
    done = subprocess.run([program, *words], cwd=folder, input=source, stdout=subprocess.PIPE, stderr=subprocess.DEVNULL, timeout=60)
    return done.returncode, done.stdout


# ---- what was promised ----


class Promise:
    """How many messages of a session must be there, and how many may."""

    def __init__(self, row, messages):
        self.row, self.messages = row, messages
        self.accepted = self.removed = self.received = 0
        self.most_accepted = self.most_removed = len(messages)

    def __str__(self):
        accepted, removed = f"{self.accepted} to {self.most_accepted}", f"{self.removed} to {self.most_removed}"
        return f"session {self.row.session}: {accepted} accepted, {removed} removed, {self.received} or more received"

    def raise_to(self, accepted=0, removed=0, received=0):
        """Says whether this is more than was promised before."""
        before = self.accepted, self.removed, self.received
        self.accepted = max(self.accepted, accepted)
        self.removed = max(self.removed, removed)
        self.received = max(self.received, received)
        return before != (self.accepted, self.removed, self.received)

    def wrong(self, images):
        """What is wrong with these images now, or nothing."""
        try:
            found = stands_for(self.row, images)
        except Refused as fault:
            return f"the disks are refused: {fault}"
        if messages_in(found) != self.messages[: found.accepted]:
            return "the messages are not the first ones that Low sent"
        if not self.accepted <= found.accepted <= self.most_accepted:
            return f"{found.accepted} messages are accepted"
        if len(found.received) < self.received:
            return f"the receiver has {len(found.received)} messages"
        if not self.removed <= found.removed <= self.most_removed:
            return f"{found.removed} messages are removed"
        return None

    def settled(self, images):
        """What has settled is not lost any more."""
        found = stands_for(self.row, images)
        self.raise_to(found.accepted, found.removed, len(found.received))


class Case:
    """A run in a folder: how its files were found, and what its events promise."""

    # How many runs there are for few images and for 100,000, and whether all was synced before.
    least, share, is_synced = 1, 6, True
    # What reads its trace.
    reader = Trace

    def __init__(self, program, folder, draw, number):
        self.program, self.folder, self.promises, self.whole = program, folder, [], set()
        self.prepare(draw, SHAPES[number % len(SHAPES)])

    def at_first(self):
        """Its disks before its first event."""
        return Folder(self)

    def table(self, *rows):
        ports = free_ports(2 * len(rows))
        return "".join(TABLE.format(row=row, ports=ports[2 * place :]) for place, row in enumerate(rows)).encode()

    def format(self, row):
        """Makes the disks of a session."""
        if run(self.program, ["format", "t.toml", str(row.session)], self.folder)[0] != 0:
            sys.exit("the disks could not be made")

    def found(self, *sessions):
        return {f"{session}.{role}": read(f"{self.folder}/{session}.{role}") for session in sessions for role in ROLES}

    def hear(self, event):
        """Says whether more is promised than before."""
        return False

    def begins(self, event):
        """A session begins when its three disks were written and synced."""
        if event.kind == "synced":
            self.whole.add(event.name)
            self.promises = [promise for promise in self.waiting if all(f"{promise.row.session}.{role}" in self.whole for role in ROLES)]

    def wrong(self, images):
        return next(filter(None, (promise.wrong(images) for promise in self.promises)), None)

    def settled(self, images):
        for promise in self.promises:
            promise.settled(images)

    def can_show(self, images):
        """Whether the program can say something of these images."""
        return bool(self.promises) and None not in images.values()

    def is_wanted(self, images):
        """Whether the program has to say something of these images, and not of a share of them alone."""
        return False

    def is_shown(self, folder, images, draw):
        """Whether the program says of these images what the reader says."""
        rows = [promise.row for promise in self.promises]
        return all(run(self.program, ["show", "t.toml", str(row.session)], folder) == lines_of(row, images) for row in rows)


def payload(draw, row):
    """The length is often the least, the greatest or one byte away from it."""
    return draw.randbytes(draw.choice([0, 1, row.message - 1, row.message, draw.randrange(row.message + 1)]))


class Player:
    """Runs under strace: starts commands, and kills them now and then."""

    def __init__(self, program, folder, draw):
        self.program, self.folder, self.draw = program, folder, draw
        self.running, self.snapshots, self.end = {}, 0, time.monotonic() + LIMIT / 2

    def path(self, name):
        return f"{self.folder}/{name}"

    def start(self, name, words, source=subprocess.DEVNULL, way="ab"):
        words = [self.program, *words]
        with open(self.path(name), way) as out:
            self.running[name] = subprocess.Popen(words, cwd=self.folder, stdin=source, stdout=out, stderr=subprocess.DEVNULL)
        return self.running[name]

    def is_running(self, name):
        return name in self.running and self.running[name].poll() is None

    def kill(self, name, disks):
        """Kills a command, and keeps what is read of its disks then."""
        self.running[name].kill()
        self.running[name].wait()
        for disk in disks:
            if os.path.exists(self.path(disk)):
                self.snapshots += 1
                write_file(self.path(f"snapshots/{self.snapshots}-{disk}"), read(self.path(disk)))

    def pause(self, longest, disks):
        """Waits for a random time, or until the selector of one of these disks is written and not yet synced."""
        time.sleep(self.draw.uniform(0, longest))
        disks = [disk for disk in disks if os.path.exists(self.path(disk))]
        if not disks or self.draw.randrange(2):
            return
        with open(self.path(self.draw.choice(disks)), "rb") as file:
            before, end = os.pread(file.fileno(), 1, 32), time.monotonic() + longest
            while os.pread(file.fileno(), 1, 32) == before and time.monotonic() < end:
                time.sleep(0.0001)

    def await_size(self, name, size):
        """Waits until a file has so many bytes."""
        while not (os.path.exists(self.path(name)) and os.path.getsize(self.path(name)) >= size) and time.monotonic() < self.end:
            time.sleep(0.001)

    def wait(self, name, disks):
        """Waits for a command that has to do all that it is for."""
        status = self.running[name].wait(max(1, self.end - time.monotonic()))
        self.kill(name, disks)
        if status != 0:
            sys.exit(f"{name} ended with status {status}")


# ---- a relay ----


class Relay(Case):
    """A relay, its receiver and its sender over formatted disks."""

    kind, least, share, count, kills = "relay", 6, 12, 40, 6
    disks = {"serve": ["1.low", "1.high"], "receive": ["1.recv"], "send": []}
    names = ["1.low", "1.high", "1.recv"]

    def prepare(self, draw, shape):
        row = Row(1, *shape)
        self.promises = [Promise(row, [payload(draw, row) for _ in range(self.count)])]
        write_file(f"{self.folder}/t.toml", self.table(row))
        write_file(f"{self.folder}/lines", b"".join(text.hex().encode() + b"\n" if text else b"-\n" for text in self.promises[0].messages))
        self.format(row)
        self.contents = self.found(1)
        if row.capacity <= 64 and draw.randrange(3) == 0:
            self.make_old()
        self.promises[0].most_accepted = self.promises[0].most_removed = 0

    def make_old(self):
        """Gives the disks version 1."""
        for name, content in self.contents.items():
            self.contents[name] = content[:5] + b"\x01" + content[6:]
            write_file(f"{self.folder}/{name}", self.contents[name])

    def hear(self, event):
        """A frame is about to go out, or what the receiver took is about to be printed."""
        promise = self.promises[0]
        if event.kind == "said" and event.name == "receive" and event.data.startswith(b"took"):
            return promise.raise_to(received=int(event.data.split()[2]) + 1)
        if event.kind != "sent" or event.data[:2] != b"NP":
            return False
        kind, number = event.data[3], int.from_bytes(event.data[8:16], "big")
        if kind == 3:
            promise.most_accepted = max(promise.most_accepted, number + 1)
        if kind in (6, 7):
            promise.most_removed = max(promise.most_removed, number + (kind == 7))
            return promise.raise_to(received=number + (kind == 7))
        return kind in (2, 4) and promise.raise_to(accepted=number + (kind == 4))

    @classmethod
    def play(cls, player):
        kills = 0
        while not cls.is_done(player) and time.monotonic() < player.end:
            cls.start(player)
            name = player.draw.choice(["serve", "serve", "receive", "receive", "send"])
            player.pause(0.03, cls.disks[name])
            if kills < cls.kills and not cls.is_done(player):
                player.kill(name, cls.disks[name])
                kills += 1
        cls.start(player)
        time.sleep(0.2)
        till(lambda: cls.is_done(player), player.end - time.monotonic())
        for name in cls.disks:
            player.kill(name, cls.disks[name])
        if not cls.is_done(player):
            sys.exit("not all messages were acknowledged in time")

    @staticmethod
    def is_done(player):
        """Whether the sender has an ACK for each message."""
        return "send" in player.running and player.running["send"].poll() == 0

    @classmethod
    def start(cls, player):
        """Starts those that do not run, the relay first."""
        for name in cls.disks:
            if not player.is_running(name):
                with open(player.path("lines"), "rb") as lines:
                    player.start(name, [name, "t.toml", "1", MOST_LOOKS], lines, "wb")
            if name == "serve":
                player.await_size(name, 1)


class Copied(Relay):
    """The same over disks of which no sync covers the bytes and the names."""

    kind, least, share, is_synced = "copied", 1, 2, False

    def hear(self, event):
        if event.kind == "synced":
            self.whole.add(event.name)
        return super().hear(event)

    def wrong(self, images):
        """A disk is the program's own matter from its first sync on, and its name from the first promise of its process
        on."""
        accepted, received = self.promises[0].accepted, self.promises[0].received
        unpromised = {name for name, count in zip(self.names, (accepted, accepted, received)) if count == 0}
        foreign = {name for name in unpromised if name not in self.whole or images[name] is None}
        return super().wrong({**images, **{name: self.contents[name] for name in foreign}})


class Again(Relay):
    """The same over an image that another run may have left."""

    kind, least, share = "again", 1, 6

    def prepare(self, draw, shape):
        first = recorded("relay", self.program, f"{self.folder}/first", draw, SHAPES.index(shape))
        self.contents, self.promises = some_image(first, draw), first.promises
        for name in ("t.toml", "lines"):
            write_file(f"{self.folder}/{name}", read(f"{first.folder}/{name}"))
        for name, content in self.contents.items():
            write_file(f"{self.folder}/{name}", content)
        try:
            self.settled(self.contents)
        except Refused as fault:
            sys.exit(f"an image of another run is refused: {fault}")
        promise = self.promises[0]
        promise.most_accepted, promise.most_removed = promise.accepted, promise.received


def some_image(case, draw):
    """What a crash may leave at some moment of the first two thirds of a run."""
    folder, at = Folder(case), draw.randrange(2 * len(case.events) // 3)
    for event in case.events[:at]:
        folder.goes_on(event)
    return folder.images(draw)


# ---- a replay ----


def message_lines(draw, row, number, text, moment):
    """The lines of one message, and the moment behind them."""
    look = f"look {row.session} {moment} {draw.randrange(2**32):08x}"
    lines = [f"{look} data {number} {text.hex() or '-'}", look]
    if draw.randrange(3):
        lines.append(f"done {row.session} {moment} 5")
    lines.append(f"look {row.session} {moment + 1100} 00000000")
    return lines, moment + 1100


def pause_lines(draw, row, moment):
    """The buffer is emptied, and then a party begins again."""
    lines = []
    for _ in range(4):
        lines.append(f"done {row.session} {moment} 5")
        lines += [f"look {row.session} {moment + later} 00000000" for later in (5, 1100)]
        moment += 1100
    lines.append(f"{draw.choice(['gone', 'restart', 'receiver-restart'])} {row.session} {moment}")
    return lines + [f"look {row.session} {moment} 00000000 hello weather watch"], moment


def session_line(row):
    return f"session {row.session} {row.capacity} {row.message} 2 100 1000 20000 weather watch"


def script(draw, promises, has_carry):
    """All messages of these sessions, with pauses between them."""
    moment, lines = 0, [session_line(promise.row) for promise in promises]
    lines += [f"look {promise.row.session} 0 00000000 hello weather watch" for promise in promises]
    for number in range(len(promises[0].messages)):
        for promise in promises:
            more, moment = message_lines(draw, promise.row, number, promise.messages[number], moment)
            lines += more
            if has_carry and draw.randrange(2):
                lines += [f"high {promise.row.session} {moment}", f"carry {promise.row.session} 0"]
            if draw.randrange(8) == 0:
                more, moment = pause_lines(draw, promise.row, moment)
                lines += more
    return lines


def joined(lines):
    return "".join(line + "\n" for line in lines).encode()


class Replay(Case):
    """A script on new disks, killed, and another one over what it left."""

    kind, share, count, words = "replay", 8, 25, "replay"
    names = [f"{session}.{role}" for session in (1, 2) for role in ROLES]

    def prepare(self, draw, shape):
        rows = self.rows(draw, shape)
        promises = self.make_promises(draw, rows)
        self.waiting, self.said, self.contents = promises, "", {}
        write_file(f"{self.folder}/t.toml", self.table(*rows))
        for number in range(2):
            write_file(f"{self.folder}/script{number}", joined(self.script(draw, promises, number)))

    def rows(self, draw, shape):
        return [Row(session, *shape) for session in range(1, draw.randint(2, 3))]

    def make_promises(self, draw, rows):
        return [Promise(row, [payload(draw, row) for _ in range(self.count)]) for row in rows]

    def script(self, draw, promises, number):
        return script(draw, promises, number == 0)

    def hear(self, event):
        """The lines of the transcript promise."""
        self.begins(event)
        if event.kind != "said":
            return False
        *lines, self.said = (self.said + event.data.decode()).split("\n")
        return any([self.says(*line.split()) for line in lines])

    def is_shown(self, folder, images, draw):
        """Now and then the second script goes on over what is left, to its end."""
        if not super().is_shown(folder, images, draw):
            return False
        if draw.randrange(4) or len(self.promises) < len(self.waiting):
            return True
        status, lines = run(self.program, [self.words], folder, read(f"{self.folder}/script1"))
        after = {name: read(f"{folder}/{name}") for name in images}
        return status == 0 and lines.splitlines()[-1].startswith(b"end ") and self.wrong(after) is None

    def says(self, word, session="", *rest):
        """A line of the transcript is about to be written."""
        if word in ("stored", "low", "took", "again", "removed", "attach"):
            promise = self.waiting[int(session) - 1]
            if promise not in self.promises:
                self.promises.append(promise)
            number = int(rest[-2] if word == "removed" else rest[-1])
            if word in ("took", "again", "attach"):
                return promise.raise_to(received=number + (word != "attach"))
            if word == "removed":
                return promise.raise_to(removed=number + 1)
            if word == "stored" or rest[1] in ("ack", "welcome"):
                return promise.raise_to(accepted=number + (rest[1:2] != ("welcome",)))
        return False

    @classmethod
    def play(cls, player):
        for number in range(2):
            lines = read(player.path(f"script{number}")).splitlines(True)
            running = player.start("replay", [cls.words], subprocess.PIPE, "wb")
            end = player.draw.randrange(len(lines) // 2, len(lines)) if number == 0 else len(lines)
            for line in lines[:end]:
                running.stdin.write(line)
                running.stdin.flush()
                time.sleep(0.0005)
            if number == 0:
                # Once a line is printed the disks are formatted, as a killed format may leave what no command opens.
                player.await_size("replay", 1)
                player.pause(0.01, cls.names)
                player.kill("replay", cls.names)
            else:
                running.stdin.close()
                player.wait("replay", cls.names)


def step_lines(draw, row, moment):
    """The second pump takes a message, if there is one, and the moment behind that."""
    step = f"step {row.session} {moment} {draw.randrange(2**32):08x}"
    lines = [step] * draw.randint(1, 3)
    if draw.randrange(3):
        lines.append(f"done {row.session} {moment} 5")
    return [*lines, f"step {row.session} {moment + 1100} 00000000"], moment + 1100


class Chain(Replay):
    """Two pumps in a row, killed, and begun again over what it left."""

    kind, share, words = "chain", 6, "chain"

    def rows(self, draw, shape):
        return [Row(1, *shape), Row(2, min(256, shape[0] + 1), min(1024, shape[1] + 2))]

    def make_promises(self, draw, rows):
        messages = [payload(draw, rows[0]) for _ in range(self.count)]
        return [Promise(row, messages) for row in rows]

    def script(self, draw, promises, number):
        first, second = promises
        lines, moment = [session_line(promise.row) for promise in promises], 0
        lines.append("look 1 0 00000000 hello weather watch")
        for number, text in enumerate(first.messages):
            more, moment = message_lines(draw, first.row, number, text, moment)
            steps, moment = step_lines(draw, second.row, moment)
            lines += more + steps
            if draw.randrange(8) == 0:
                more, moment = pause_lines(draw, first.row, moment)
                lines += [*more, f"{draw.choice(['gone', 'restart', 'receiver-restart'])} 2 {moment}"]
        return lines

    def wrong(self, images):
        """The second pump never has more than the first receiver."""
        wrong = super().wrong(images)
        if not wrong and len(self.promises) == 2:
            first, second = [stands_for(promise.row, images) for promise in self.promises]
            wrong = "the second pump is ahead of the first receiver" if second.accepted > len(first.received) else None
        return wrong


# ---- a format ----


class Format(Case):
    """New disks beside those of another session."""

    kind, share = "format", 20
    names = [f"1.{role}" for role in ROLES]

    def prepare(self, draw, shape):
        self.row, self.is_said = Row(1, *shape), False
        write_file(f"{self.folder}/t.toml", self.table(self.row, Row(2, *shape)))
        self.format(Row(2, *shape))
        self.contents = self.found(2)

    def hear(self, event):
        self.is_said = self.is_said or event.kind == "said"
        return event.kind == "said"

    def wrong(self, images):
        if any(images[name] != content for name, content in self.contents.items()):
            return "another session's disk was changed"
        if self.is_said and any(images[f"1.{role}"] != new_disk(self.row, role) for role in ROLES):
            return "a new disk is not whole"
        return None

    def can_show(self, images):
        return True

    def is_shown(self, folder, images, draw):
        """Where a disk has bytes, `format` refuses; once all are emptied it does not."""
        words = ["format", "t.toml", "1"]
        if any(images.get(name) for name in self.names) and run(self.program, words, folder)[0] != 8:
            return False
        for name in self.names:
            write_file(f"{folder}/{name}", b"")
        status = run(self.program, words, folder)[0]
        return status == 0 and all(read(f"{folder}/1.{role}") == new_disk(self.row, role) for role in ROLES)

    @classmethod
    def play(cls, player):
        player.start("format", ["format", "t.toml", "1"])
        player.wait("format", cls.names)


# ---- a move ----


def plain_script(row, messages, live):
    """All messages are accepted, all but so many are removed, and the receiver has one of these."""
    yield session_line(row)
    yield f"look {row.session} 0 00000000 hello weather watch"
    for number, text in enumerate(messages):
        look = f"look {row.session} {2000 * number} 00000000"
        yield from (f"{look} data {number} {text.hex() or '-'}", look, f"look {row.session} {2000 * number + 1100} 00000000")
        if number + live < len(messages):
            yield f"done {row.session} {2000 * number + 1100} 5"
    yield f"high {row.session} {2000 * len(messages)}"
    yield f"carry {row.session} 0"


class Migrate(Case):
    """A session that is moved to new disks."""

    kind, share, count = "migrate", 20, 60
    names = [f"{session}.{role}" for session in (1, 2) for role in ROLES]

    def prepare(self, draw, shape):
        self.old, self.new, self.is_said = Row(1, *shape), Row(2, min(256, shape[0] + 2), min(1024, shape[1] + 3)), False
        write_file(f"{self.folder}/t.toml", self.table(self.old))
        write_file(f"{self.folder}/u.toml", self.table(self.new))
        messages = [payload(draw, self.old) for _ in range(self.count)]
        lines = plain_script(self.old, messages, draw.randrange(min(shape[0], 6)))
        if run(self.program, ["replay"], self.folder, joined(lines))[0] != 0:
            sys.exit("the disks could not be made")
        self.contents = self.found(1)
        self.wanted = stands_for(self.old, self.contents)

    def hear(self, event):
        self.is_said = self.is_said or event.kind == "said"
        return event.kind == "said"

    def wrong(self, images):
        if any(images[name] != content for name, content in self.contents.items()):
            return "an old disk was changed"
        try:
            unfit = [role for role in ROLES if not self.is_fine(role, images.get(f"2.{role}"))]
        except Refused as fault:
            return f"a new disk is refused: {fault}"
        return f"2.{unfit[0]} is neither no disk nor has all" if unfit else None

    def is_fine(self, role, disk):
        """Whether this new disk is no disk yet, or has all."""
        if is_none(disk):
            return not self.is_said
        found = self.wanted
        if role == "recv":
            return received(self.new, disk) == found.received
        size = 80 + (self.new.capacity * (2 + self.new.message) if role == "low" else 0)
        total = count(self.new, role, disk, size)
        if role == "high":
            return total == found.removed
        return total == found.accepted and [slot(self.new, disk, number)[1] for number in range(found.removed, total)] == found.live

    def can_show(self, images):
        return True

    def is_shown(self, folder, images, draw):
        """What is left can be shown, and what is emptied can be moved again."""
        shown = run(self.program, ["show", "u.toml", "2"], folder)
        if all(images.get(name) is not None for name in self.names) and shown != lines_of(self.new, images):
            return False
        for role in ROLES:
            write_file(f"{folder}/2.{role}", b"")
        moved = run(self.program, ["migrate", "t.toml", "1", "u.toml", "2"], folder)[0]
        return moved == 0 and all(self.is_fine(role, read(f"{folder}/2.{role}")) for role in ROLES)

    @classmethod
    def play(cls, player):
        player.start("migrate", ["migrate", "t.toml", "1", "u.toml", "2"])
        player.wait("migrate", cls.names)


# ---- a file ----


def wrapped(content, size):
    """The messages of a file."""
    pieces = [b"\x00" + content[at : at + size - 1] for at in range(0, len(content), size - 1)]
    return [*pieces, b"\x01" + len(content).to_bytes(8, "big")]


class Wrap(Case):
    """A file that is sent over formatted disks or over none, with kills."""

    kind, kills = "wrap", 3
    names = [f"1.{role}" for role in ROLES]

    def prepare(self, draw, shape):
        row = Row(1, shape[0], max(9, shape[1]))
        self.content = draw.randbytes(draw.randrange(20 * row.message, 30 * row.message))
        self.waiting, self.contents = [Promise(row, wrapped(self.content, row.message))], {}
        write_file(f"{self.folder}/t.toml", self.table(row))
        write_file(f"{self.folder}/file", self.content)
        if draw.randrange(2):
            self.format(row)
            self.promises, self.contents, self.whole = self.waiting, self.found(1), set(self.names)

    def hear(self, event):
        """Once it has said that all is sent, all is there."""
        self.begins(event)
        count = len(self.waiting[0].messages)
        return event.kind == "said" and self.waiting[0].raise_to(count, count, count)

    def is_shown(self, folder, images, draw):
        """Now and then the file is sent again over what is left."""
        if not super().is_shown(folder, images, draw):
            return False
        if draw.randrange(4):
            return True
        is_sent = run(self.program, ["wrap", "t.toml", "1"], folder, self.content)[0] == 0
        return is_sent and run(self.program, ["unwrap", "t.toml", "1"], folder) == (0, self.content)

    @classmethod
    def play(cls, player):
        for number in range(cls.kills + 1):
            with open(player.path("file"), "rb") as file:
                player.start("wrap", ["wrap", "t.toml", "1"], file)
            if number < cls.kills:
                player.await_size("1.recv", 80)
                player.pause(0.1, cls.names)
                player.kill("wrap", cls.names)
            else:
                player.wait("wrap", cls.names)


# ---- runs and draws ----

KINDS = {kind.kind: kind for kind in (Relay, Again, Copied, Replay, Chain, Format, Migrate, Wrap)}


def watch(words, trace):
    """Runs something under strace."""
    calls = ",".join((*KNOWN, *STRANGE))
    # A sync takes a millisecond more, so that a kill is likely to come before its end.
    strace = ["strace", "-f", "-qq", "-y", "-xx", "-s", "1000000", "--seccomp-bpf", "-e", "signal=none", "-e", f"trace={calls}",
              "-e", "inject=fdatasync:delay_enter=1000", "-o", trace]
    with open(f"{trace}.said", "wb") as said:
        process = subprocess.Popen([*strace, *words], start_new_session=True, stdin=subprocess.DEVNULL, stderr=said)
    try:
        if process.wait(LIMIT) != 0:
            sys.exit(f"a run ended with a fault: {read(said.name).decode()}")
    except subprocess.TimeoutExpired:
        os.killpg(process.pid, signal.SIGKILL)
        sys.exit("a run did not come to its end")


def recorded(kind, program, folder, draw, number):
    """A run of this kind, with its events."""
    os.makedirs(f"{folder}/snapshots")
    case = KINDS[kind](program, folder, draw, number)
    watch([sys.executable, f"{HERE}/crash-images", "--inside", kind, program, folder, str(draw.randrange(2**32))], f"{folder}/trace")
    case.events = case.reader(f"{folder}/trace", folder).events
    case.last = {name: read(f"{folder}/{name}") for name in case.names if os.path.exists(f"{folder}/{name}")}
    return case
