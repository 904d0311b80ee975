"""The runs of trials/crash-images in which files go from folder to folder: Low's folder `out`, High's folder `in`, and
the relay's disks.

Of a folder's names an image has those that were synced and a prefix of the changes since then, in their order; of each
file what an image of a disk has. All is drawn by itself: each file, each folder, each disk. What an image stands for is
read by this script's own reader, which goes by docs/formats.md and by the specs of file_messages, file_collector and
file_dropper. It says what both ends would do with it, and whether each file would come just once. What a writer puts
into Low's folder is synced before, and each of its changes behind itself; nobody takes a file away from High's."""
import collections
import hashlib
import json
import os
import re
import sys
import time
import types

import common
from common import MOST_LOOKS, Refused, Row, count, read, register, slot, till
from crash_disks import PLACE, TEXT, Disk, Folder, Trace, text_in, torn, unescaped, write_file
from crash_runs import Case, recorded, run

LOW, HIGH = "out", "in"
# By the model a crash may leave any bytes of the mark of a new register, which is written last. Whether `collect` makes
# such a register anew; otherwise it is to refuse it, until it is removed.
MAKES_TORN = True
# How many images had something.
STATES = collections.Counter()
REGISTER, PART = ".1.files", ".1.part"


def folder_of(name):
    """The folder that a name of the trial is in, or is, if it is one of the two."""
    return next((folder for folder in (LOW, HIGH) if name == folder or name.startswith(f"{folder}/")), None)


def digest_of(content):
    return hashlib.sha256(content).hexdigest()


# ---- what strace saw ----


class FolderTrace(Trace):
    """The events of such a run. Those on names are create, rename (with the new name), unlink, and undone where the
    call failed."""

    def begin(self, number, call, rest):
        texts = [os.fsdecode(unescaped(text)) for text, _ in TEXT.findall(rest)]
        if call in ("rename", "unlink") and texts and folder_of(texts[0]):
            return self.add(number, call, texts[0], 0, texts[-1])
        if call == "openat" and texts and folder_of(texts[0]):
            return self.add(number, "create" if "O_CREAT" in rest else "taken", texts[0])
        name = self.inside(rest)
        if name and "/" in name and folder_of(name) and not name.endswith(" (deleted)"):
            return self.on_file(number, call, name, rest)
        return super().begin(number, call, rest)

    def on_file(self, number, call, name, rest):
        """A call on a file of a folder."""
        place = PLACE.search(rest)
        if call in ("fsync", "fdatasync"):
            return self.add(number, "syncing", name)
        if call == "pwrite64":
            text = text_in(rest)
            return text and place and self.add(number, "write", name, int(place.group(1)), text)
        if call == "ftruncate" and place:
            return self.add(number, "cut", name, int(place.group(1)))
        return sys.exit(f"line {number} of the trace has a call that this script does not know: {call}")

    def end(self, number, event, result):
        if event.kind in ("create", "rename", "unlink", "cut") and result.startswith("-"):
            self.add(number, "undone", event.name, event.line)
        super().end(number, event, result)


# ---- the folders and their images ----


class Inode(Disk):
    """A file of a folder. A write without bytes cuts it."""

    def __init__(self, content):
        super().__init__(content, True)

    def reading(self):
        image = bytearray(self.synced)
        for _, at, data in self.writes:
            if data is None:
                del image[at:]
                image.extend(bytes(at - len(image)))
            else:
                image.extend(bytes(max(0, at - len(image))))
                image[at : at + len(data)] = data
        return bytes(image)

    def interrupt(self, reading):
        if self.writes and self.writes[-1][2] is None and self.reading() != reading:
            self.writes.pop()
        super().interrupt(reading)

    def image(self, draw):
        image, size = bytearray(self.synced), len(self.synced)
        for _, at, data in self.writes:
            if data is None:
                if draw.randrange(2):
                    del image[at:]
                    size = min(size, at)
                continue
            end = at + len(data)
            image.extend(bytes(max(0, end - len(image))))
            image[at:end] = torn(bytes(image[at:end]), data, b"", draw)
        if len(image) > size:
            del image[draw.choice([size, len(image), draw.randint(size, len(image))]) :]
        return bytes(image)


def changed(names, change):
    """The names behind a change of them."""
    _, kind, name, what = change
    if kind == "create":
        names[name] = what
    elif name in names:
        inode = names.pop(name)
        if kind == "rename":
            names[what] = inode


class Names:
    """A folder: its synced names with their files, and the changes since, each with its line."""

    def __init__(self, contents):
        self.synced = {name: Inode(content) for name, content in contents.items()}
        self.now, self.changes, self.known = dict(self.synced), [], dict(self.synced)

    def change(self, *change):
        self.changes.append(change)
        changed(self.now, change)
        self.known.update(self.now)

    def file(self, name):
        """The file of a name, which it may have lost just now: a change of names counts from its beginning on."""
        return self.now.get(name) or self.known[name]

    def after(self, count):
        names = dict(self.synced)
        for change in self.changes[:count]:
            changed(names, change)
        return names

    def undo(self, line):
        self.changes = [change for change in self.changes if change[0] != line]
        self.now = self.after(len(self.changes))

    def settle(self, line):
        """The changes before this line are synced."""
        count = sum(change[0] < line for change in self.changes)
        self.synced, self.changes = self.after(count), self.changes[count:]

    def is_settled(self):
        return not self.changes and all(inode.is_settled() for inode in self.now.values())

    def reconcile(self, found):
        """The process that changed it was killed, maybe in its last call, and this is what is there now."""
        if self.changes and set(self.now) != set(found):
            self.undo(self.changes[-1][0])
        if set(self.now) != set(found):
            sys.exit(f"the trace does not explain the names of a folder: {sorted(self.now)}, {sorted(found)}")
        for name, content in found.items():
            self.now[name].interrupt(content)

    def images(self, draw):
        count = draw.choice([0, len(self.changes), draw.randint(0, len(self.changes))])
        return {name: inode.image(draw) for name, inode in self.after(count).items()}


class World:
    """The two folders and the relay's disks of a run, moved on event by event."""

    def __init__(self, case):
        disks = {name: content for name, content in case.contents.items() if not folder_of(name)}
        self.path = case.folder
        self.relay = Folder(types.SimpleNamespace(folder=case.folder, last=case.last, contents=disks, is_synced=True))
        self.folders = {where: Names({name: text for name, text in case.contents.items() if folder_of(name) == where}) for where in (LOW, HIGH)}

    def goes_on(self, event):
        where = folder_of(event.name)
        if event.kind == "snapshot":
            where = event.name.partition("-")[2]
            return self.reconcile(where, event) if where in self.folders else self.relay.goes_on(event)
        if event.kind in ("said", "sent") or not where:
            return self.relay.goes_on(event)
        return getattr(self, "on_" + event.kind)(self.folders[where], event)

    def reconcile(self, where, event):
        found = json.loads(read(f"{self.path}/{event.name}"))
        self.folders[where].reconcile({f"{where}/{name}": bytes.fromhex(text) for name, text in found.items()})
        return False

    def on_create(self, folder, event):
        folder.change(event.line, "create", event.name, Inode(b""))
        return True

    def on_rename(self, folder, event):
        folder.change(event.line, event.kind, event.name, event.data)
        return True

    on_unlink = on_rename

    def on_undone(self, folder, event):
        folder.undo(event.at)
        return False

    def on_taken(self, folder, event):
        return False

    def on_write(self, folder, event):
        folder.file(event.name).writes.append((event.line, event.at, event.data))
        return True

    def on_cut(self, folder, event):
        folder.file(event.name).writes.append((event.line, event.at, None))
        return True

    def on_wrote(self, folder, event):
        writes = folder.file(event.name).writes
        if any(line == event.at and data is not None and len(data) != event.data for line, _, data in writes):
            folder.file(event.name).shorten(event.at, event.data)
        return False

    def on_syncing(self, folder, event):
        return False

    def on_synced(self, folder, event):
        if event.name in (LOW, HIGH):
            folder.settle(event.at)
        else:
            folder.file(event.name).settle(event.at)
        return True

    def is_settled(self):
        return self.relay.is_settled() and all(folder.is_settled() for folder in self.folders.values())

    def images(self, draw):
        found = self.relay.images(draw)
        for folder in self.folders.values():
            found.update(folder.images(draw))
        return found


# ---- what messages make ----

# A file that has begun: its name, its size and its bytes so far.
Begun = collections.namedtuple("Begun", "name size content")
# What some messages lead to: the file that has begun, if one has, and those that came, each with the number of its last
# message.
State = collections.namedtuple("State", "begun came")
NAME = re.compile(rb"[A-Za-z0-9](?:[A-Za-z0-9 ._,+=@%()-]{0,126}[A-Za-z0-9_,+=@%()-])?")


def start_of(message):
    """The file that begins with this message, if one does."""
    if len(message) < 11 or message[:2] != b"\2\1" or int.from_bytes(message[2:10], "big") >= 2**48 or not NAME.fullmatch(message[10:]):
        return None
    return Begun(message[10:].decode(), int.from_bytes(message[2:10], "big"), b"")


def step(state, message, number):
    """What one message more leads to."""
    begun, came = state
    if begun is None:
        return State(start_of(message), came)
    if message[:1] == b"\0" and len(message) > 1 and len(begun.content) + len(message) - 1 <= begun.size:
        return State(begun._replace(content=begun.content + message[1:]), came)
    is_whole = message[:1] == b"\3" and len(begun.content) == begun.size and message[1:] == hashlib.sha256(begun.content).digest()
    return State(None, came + ((begun.name, number, begun.content),) if is_whole else came)


class Messages:
    """The messages of a session by their numbers, and what each prefix of them leads to."""

    def __init__(self, messages=()):
        self.list, self.states = list(messages), [State(None, ())]

    def put(self, number, message):
        """The message of a number. An earlier one of it was not accepted."""
        if number < len(self.list) and self.list[number] == message:
            return
        del self.list[number:], self.states[number + 1 :]
        if number != len(self.list):
            sys.exit(f"message {number} is sent and {len(self.list)} is not")
        self.list.append(message)

    def after(self, count):
        while len(self.states) <= count:
            number = len(self.states) - 1
            self.states.append(step(self.states[-1], self.list[number], number))
        return self.states[count]


# ---- what images stand for ----


class Wrong(Exception):
    """What is wrong with an image."""


# What a relay's disks hold: how many messages are accepted and removed, and the others.
Relay = collections.namedtuple("Relay", "accepted removed live")
# What High's folder holds as it is opened: how many messages are counted, in how many of them it was shown, and the
# file that has begun.
High = collections.namedtuple("High", "counted opened begun")
MARK = re.compile(r"\.np-1-(?:(f)|(s)-(\d+)-(\d+)-(\d+)-([0-9a-f]{64})|(a)-(\d+))-(.+)")
# A marked file: how far it is, the number of its first message, the message size, its size and SHA-256, and its name.
Mark = collections.namedtuple("Mark", "stage start message size digest name")


def read_relay(row, images):
    for role in ("low", "high"):
        if images.get(f"1.{role}") is None:
            raise Wrong(f"the disk {role} is missing")
    low, high = images["1.low"], images["1.high"]
    accepted, removed = count(row, "low", low, 80 + row.capacity * (2 + row.message)), count(row, "high", high, 80)
    if not removed <= accepted <= removed + row.capacity:
        raise Wrong(f"{removed} messages are removed of {accepted}")
    return Relay(accepted, removed, {number: slot(row, low, number)[1] for number in range(removed, accepted)})


def is_torn(disk):
    """Whether this is a new register whose mark was not written whole."""
    return disk is not None and len(disk) == 220 and disk[4:] == b"C\1".ljust(216, b"\0") and disk[:4] not in (bytes(4), common.MAGIC)


def read_high(disk, part):
    """What `collect` finds when it opens its folder."""
    if disk is None or len(disk) < 220 or disk[:4] == bytes(4):
        return High(0, 0, None)
    if is_torn(disk):
        return High(0, 0, None)
    if len(disk) > 220 or disk[:32] != b"NPD1C\1".ljust(32, b"\0"):
        raise Wrong("the register is another one")
    counted, held = register(disk)
    if held == 0:
        return High(counted, counted, None)
    begun = start_of(disk[82 : 82 + common.number(disk, 80, 2)])
    if begun is None or held - 1 > begun.size:
        raise Wrong("the register is damaged")
    if part is not None and len(part) >= held - 1:
        return High(counted, counted, begun._replace(content=part[: held - 1]))
    if held - 1 != begun.size:
        raise Wrong(f"the part of {begun.name} is lost")
    return High(counted, counted + 1, None)


def read_mark(name):
    found = MARK.fullmatch(name)
    if not found:
        raise Wrong(f"a name is no mark: {name}")
    fresh, _, start, message, size, digest, stopped, at, rest = found.groups()
    if fresh:
        return Mark("fresh", 0, 0, 0, "", rest)
    return Mark("stopped", int(at), 0, 0, "", rest) if stopped else Mark("sending", int(start), int(message), int(size), digest, rest)


def count_of(mark):
    """How many messages the marked file is."""
    return -(-mark.size // (mark.message - 1)) + 2


# ---- runs ----


class Folders(Case):
    """`drop`, a relay and `collect`, killed now and then, while some files change."""

    kind, least, share, kills = "folders", 4, 30, 6
    names, reader = ["1.low", "1.high"], FolderTrace
    domains = {"serve": None, "collect": HIGH, "drop": LOW}

    def prepare(self, draw, shape):
        self.row = Row(1, shape[0], draw.choice([138, 139, 200, 1024]))
        names = draw.sample(["a.txt", "b", "c c", "Z-(1)", "n" * 128, "0", "e=f"], draw.randint(4, 6))
        self.put = {name: draw.randbytes(self.some_size(draw)) for name in names}
        self.foreign = {draw.choice(names): b"of somebody else"}
        self.messages, self.gone, self.least_taken, self.least_accepted = Messages(), set(), 0, 0
        write_file(f"{self.folder}/t.toml", self.table(self.row))
        self.format(self.row)
        self.contents = {name: read(f"{self.folder}/{name}") for name in self.names}
        self.lay({**{f"{LOW}/{name}": text for name, text in self.put.items()}, **{f"{HIGH}/{name}": text for name, text in self.foreign.items()}})

    def some_size(self, draw):
        piece = self.row.message - 1
        return draw.choice([0, 1, piece - 1, piece, piece + 1, 2 * piece, draw.randrange(4 * piece)])

    def lay(self, contents):
        """Writes the files of the two folders, old ones, in the order in which they are to be sent."""
        self.contents.update(contents)
        lay_folders(self.folder, contents, list(self.put))

    def at_first(self):
        if not hasattr(self, "versions"):
            self.versions = self.find_versions()
        return World(self)

    def find_versions(self):
        """What was ever in each file of Low's folder, by a walk over the run."""
        found, world = {}, World(self)
        names = {id(inode): own_name(name) for name, inode in world.folders[LOW].now.items()}
        kept = list(world.folders[LOW].now.values())
        for event in [None, *self.events]:
            if event:
                world.goes_on(event)
            if event is None or event.kind in ("write", "snapshot") and folder_of(event.name) != HIGH:
                for inode in kept:
                    found.setdefault(names[id(inode)], {})[digest_of(inode.reading())] = None
        return found

    def hear(self, event):
        """Frames are about to go out, or lines."""
        if event.kind == "said" and event.name in ("drop", "collect"):
            return any([self.says(*line.split(" ", 5)) for line in event.data.decode().splitlines()])
        if event.kind != "sent" or event.data[:2] != b"NP":
            return False
        kind, number = event.data[3], int.from_bytes(event.data[8:16], "big")
        if kind == 3:
            self.messages.put(number, event.data[18:])
        before = self.least_taken, self.least_accepted
        if kind in (6, 7):
            self.least_taken = max(self.least_taken, number + (kind == 7))
        if kind in (2, 4):
            self.least_accepted = max(self.least_accepted, number + (kind == 4))
        return before != (self.least_taken, self.least_accepted)

    def says(self, word, session="", number="0", *rest):
        if word == "sent":
            self.gone.add(rest[-1])
        elif word in ("file", "odd"):
            self.least_taken = max(self.least_taken, int(number) + 1)
        elif word == "dropped" and rest[0].split()[0] not in ("abandoned", "toolong"):
            sys.exit(f"a file was dropped: {word} {number} {rest}")
        return word == "sent"

    def __str__(self):
        return f"{self.least_accepted} or more accepted, {self.least_taken} or more taken; sent: {sorted(self.gone)}"

    def wrong(self, images):
        """What is wrong with these images, or nothing."""
        self.promises = [self]
        try:
            relay = read_relay(self.row, images)
            high = self.high_in(images)
            self.judge_counts(relay, high)
            self.judge_high(high, images)
            self.judge_low(relay, images)
            STATES["the mark of a new register is torn"] += is_torn(images.get(f"{HIGH}/{REGISTER}"))
            STATES["a file is shown and not counted" if high.opened > high.counted else "a file has begun" if high.begun else "between files"] += 1
        except (Wrong, Refused) as fault:
            return str(fault)
        return None

    def judge_counts(self, relay, high):
        if not max(relay.removed, self.least_taken) <= high.opened <= relay.accepted:
            raise Wrong(f"High has taken {high.opened}; {self.least_taken} or more are told as taken, {relay.removed} are removed, "
                        f"{relay.accepted} accepted")
        if relay.accepted < self.least_accepted:
            raise Wrong(f"{relay.accepted} messages are accepted")
        if [relay.live[number] for number in sorted(relay.live)] != self.messages.list[relay.removed : relay.accepted]:
            raise Wrong("the relay's messages are not those that were sent")

    def shown(self, state):
        """The files that are to be in High's folder."""
        names = {name: f"{name}~{number}" if name in self.foreign else name for name, number, _ in state.came}
        return {**self.foreign, **{names[name]: content for name, _, content in state.came}}

    def judge_high(self, high, images):
        state = self.messages.after(high.opened)
        if high.begun != state.begun:
            raise Wrong(f"the file that has begun is {high.begun}, and is to be {state.begun}")
        there = {name[len(HIGH) + 1 :]: text for name, text in images.items() if folder_of(name) == HIGH}
        if {name: text for name, text in there.items() if name not in (REGISTER, PART)} != self.shown(state):
            raise Wrong(f"in High's folder there are {sorted(there)}, and {sorted(self.shown(state))} are to be there")

    def judge_low(self, relay, images):
        there = {name[len(LOW) + 1 :]: text for name, text in images.items() if folder_of(name) == LOW}
        marks = [name for name in there if name[0] == "."]
        if len(marks) > 1:
            raise Wrong(f"{len(marks)} files are marked")
        left = {name: text for name, text in there.items() if name[0] != "."}
        state = self.messages.after(relay.accepted)
        for name in marks:
            mark = read_mark(name)
            STATES[f"marked {mark.stage}"] += 1
            if mark.name in left:
                raise Wrong(f"{mark.name} is there twice")
            if not self.is_sent(mark, there[name], relay.accepted, state):
                left[mark.name] = there[name]
            elif mark.name in self.gone:
                raise Wrong(f"{mark.name} is told as sent, and is still there")
        self.judge_files(left, state.came)

    def is_sent(self, mark, content, accepted, state):
        """Whether the marked file was sent whole. Where its sending goes on, it has to go on behind what was accepted
        of it."""
        if mark.stage != "sending":
            return False
        if not mark.start <= accepted <= mark.start + count_of(mark):
            raise Wrong(f"step {mark.start} {accepted}")
        if accepted == mark.start + count_of(mark):
            STATES["sent and not removed"] += 1
            return True
        if mark.message != self.row.message or (len(content), digest_of(content)) != (mark.size, mark.digest):
            STATES["changed since its mark"] += 1
            return False
        sent = (accepted - mark.start - 1) * (mark.message - 1)
        begun = Begun(mark.name, mark.size, content[:sent]) if accepted > mark.start else None
        if state.begun != begun:
            raise Wrong(f"{mark.name} would go on behind {state.begun}")
        return False

    def judge_files(self, left, came):
        """Each file is left or has come, once, and as it was at some time; and they came in order."""
        names = [name for name, _, _ in came]
        if sorted([*names, *left]) != sorted(self.put):
            raise Wrong(f"{sorted(names)} have come, {sorted(left)} are left, and {sorted(self.put)} were put")
        for name, _, content in came:
            if digest_of(content) not in self.versions[name]:
                raise Wrong(f"{name} came with other bytes than it ever had")
        for name, content in left.items():
            if name in self.gone:
                raise Wrong(f"{name} is told as sent, and is still there")
            if len(self.versions[name]) == 1 and digest_of(content) not in self.versions[name]:
                raise Wrong(f"{name} has other bytes")
        alone = [name for name in self.put if len(self.versions[name]) == 1]
        if [name for name in names if name in alone] != alone[: len(set(names) & set(alone))]:
            raise Wrong(f"{names} came, in another order than {list(self.put)}")

    def settled(self, images):
        relay = read_relay(self.row, images)
        self.least_accepted = max(self.least_accepted, relay.accepted)
        self.least_taken = max(self.least_taken, self.high_in(images).counted)

    def can_show(self, images):
        return True

    def is_wanted(self, images):
        """Torn marks are few, and all of them are shown."""
        return is_torn(images.get(f"{HIGH}/{REGISTER}"))

    def is_shown(self, folder, images, draw):
        """Whether `collect` makes of its folder what this script does, and, now and then, whether all files come where
        all three start again."""
        lay_folders(folder, images, list(self.put))
        write_file(f"{folder}/t.toml", self.table(self.row))
        before, is_refused = self.high_in(images), is_torn(images.get(f"{HIGH}/{REGISTER}")) and not MAKES_TORN
        if run(self.program, ["collect", "t.toml", "1", "9", HIGH], folder) != ((8, b"fault register 1\n") if is_refused else (9, b"fault link\n")):
            return False
        after = self.high_in({f"{HIGH}/{name}": read(f"{folder}/{HIGH}/{name}") for name in os.listdir(f"{folder}/{HIGH}")})
        if after != before._replace(counted=before.opened):
            return False
        return is_refused or draw.randrange(4) > 0 or self.all_come(folder, images)

    def high_in(self, images):
        return read_high(images.get(f"{HIGH}/{REGISTER}"), images.get(f"{HIGH}/{PART}"))

    def all_come(self, folder, images):
        """Whether all three, started over images, bring each file once."""
        running = []
        for name, where in self.domains.items():
            with open(f"{folder}/{name}", "wb") as out:
                running.append(common.start(self.program, name, "t.toml", "1", MOST_LOOKS, *([where] if where else []), cwd=folder, stdout=out))
            if name == "serve":
                till(lambda: os.path.getsize(f"{folder}/serve"), 10)
        has_come = till(lambda: is_over(folder), 30)
        is_fine = has_come and all(process.poll() is None for process in running)
        common.end(*running)
        there = {name: read(f"{folder}/{HIGH}/{name}") for name in os.listdir(f"{folder}/{HIGH}") if name != REGISTER}
        came = [(name.partition("~")[0], digest_of(text)) for name, text in there.items() if self.foreign.get(name) != text]
        last = {(own_name(name), digest_of(text)) for name, text in images.items() if folder_of(name) == LOW}
        return is_fine and sorted(name for name, _ in came) == sorted(self.put) and all(
            one in last or one[1] in self.versions[one[0]] for one in came)

    # ---- under strace ----

    @classmethod
    def play(cls, player):
        kills, changes = 0, player.draw.randint(0, 4)
        while not is_over(player.folder) and time.monotonic() < player.end:
            cls.start(player)
            name = player.draw.choice(["serve", "collect", "collect", "drop", "drop"])
            player.pause(0.15, [f"{HIGH}/{REGISTER}"] if name == "collect" else cls.names)
            if changes > 0 and player.draw.randrange(2):
                changes -= change(player)
            if kills < cls.kills and not is_over(player.folder):
                cls.kill(player, name)
                kills += 1
        cls.start(player)
        till(lambda: is_over(player.folder), player.end - time.monotonic())
        for name in cls.domains:
            cls.kill(player, name)
        if not is_over(player.folder):
            sys.exit("not all files came in time")

    @classmethod
    def kill(cls, player, name):
        """Kills a command, and keeps what is read of its disks or its folder then."""
        player.kill(name, cls.names if name == "serve" else [])
        where = cls.domains[name]
        if where:
            there = {name: read(player.path(f"{where}/{name}")).hex() for name in os.listdir(player.path(where))}
            player.snapshots += 1
            write_file(player.path(f"snapshots/{player.snapshots}-{where}"), json.dumps(there).encode())

    @classmethod
    def start(cls, player):
        """Starts those that do not run, the relay first."""
        for name, where in cls.domains.items():
            if not player.is_running(name):
                player.start(name, [name, "t.toml", "1", MOST_LOOKS, *([where] if where else [])], way="wb")
                if name == "serve":
                    player.await_size(name, 1)


class FoldersAgain(Folders):
    """The same over an image that another run may have left."""

    kind, least, share = "folders-again", 2, 12

    def prepare(self, draw, shape):
        first = recorded("folders", self.program, f"{self.folder}/first", draw, 0)
        self.row, self.put, self.foreign = first.row, first.put, first.foreign
        world, at = first.at_first(), draw.randrange(2 * len(first.events) // 3)
        for event in first.events[:at]:
            world.goes_on(event)
            first.hear(event)
        images = world.images(draw)
        wrong = first.wrong(images)
        if wrong:
            sys.exit(f"an image of another run is wrong: {wrong}")
        relay = read_relay(self.row, images)
        self.messages, self.gone = Messages(first.messages.list[: relay.accepted]), set(first.gone)
        self.least_accepted, self.least_taken = relay.accepted, first.least_taken
        self.earlier = first.versions
        write_file(f"{self.folder}/t.toml", self.table(self.row))
        self.contents = {name: images[name] for name in self.names}
        for name in self.names:
            write_file(f"{self.folder}/{name}", images[name])
        self.lay({name: text for name, text in images.items() if folder_of(name)})

    def find_versions(self):
        found = super().find_versions()
        return {name: {**self.earlier[name], **found.get(name, {})} for name in self.put}


# ---- on the machine ----


def own_name(path):
    """The name that a file of Low's folder has of its own."""
    name = path.rpartition("/")[2]
    return read_mark(name).name if name[0] == "." else name


def lay_folders(folder, contents, order):
    """Writes the files of the two folders, those of Low as old as their order says."""
    for where in (LOW, HIGH):
        os.makedirs(f"{folder}/{where}", exist_ok=True)
    for path, text in contents.items():
        if folder_of(path):
            write_file(f"{folder}/{path}", text)
        if folder_of(path) == LOW:
            os.utime(f"{folder}/{path}", (1000 + order.index(own_name(path)),) * 2)


def is_over(folder):
    """Whether Low's folder is empty, and High's has all that was accepted."""
    path = f"{folder}/{HIGH}/{REGISTER}"
    if os.listdir(f"{folder}/{LOW}") or not os.path.exists(path) or os.path.getsize(path) < 220:
        return False
    return register(read(path)) == (register(read(f"{folder}/1.low"))[0], 0)


def change(player):
    """Changes some bytes of a file of Low's folder, most often of the one that is sent, and syncs it. Says whether it
    did."""
    names = sorted(os.listdir(player.path(LOW)))
    if not names:
        return False
    name = names[0] if player.draw.randrange(4) else player.draw.choice(names)
    try:
        handle = os.open(player.path(f"{LOW}/{name}"), os.O_RDWR)
    except FileNotFoundError:
        return False
    found = os.fstat(handle)
    at = player.draw.randrange(found.st_size + 1)
    text = player.draw.randbytes(16 if player.draw.randrange(3) == 0 else min(16, found.st_size - at))
    if text:
        os.pwrite(handle, text, at)
        os.utime(handle, ns=(found.st_mtime_ns, found.st_mtime_ns))
        os.fsync(handle)
    os.close(handle)
    return bool(text)


KINDS = {kind.kind: kind for kind in (Folders, FoldersAgain)}
