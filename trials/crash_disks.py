"""Disks for trials/crash-images: what strace saw of them, and what a crash may leave of them by docs/model.md,
"Disks"."""
import collections
import os
import re
import sys

import common
from common import ROLES, Refused, read


def write_file(path, content):
    with open(path, "wb") as file:
        file.write(content)


# ---- what disks stand for ----


def is_none(disk):
    """Whether this is no disk of a relay."""
    return disk is None or len(disk) < 80 or disk[:4] != common.MAGIC


def stands_for(row, images):
    """What the three disks of a session stand for. The number of a refusal is 0 if there is no file."""
    disks = {role: images.get(f"{row.session}.{role}") for role in ROLES}
    for role, disk in disks.items():
        if disk is None:
            raise Refused(row, role, 0, 0)
    return common.stands_for(row, *disks.values())


def messages_in(found):
    """All messages of a session that its disks still have, from number 0 on."""
    return found.received + found.live[len(found.received) - found.removed :]


def lines_of(row, images):
    """The status of `show`, and what it prints."""
    try:
        lines = common.shown(row, stands_for(row, images))
    except Refused as fault:
        return 8, f"{fault}\n".encode()
    return 0, "".join(line + "\n" for line in lines).encode()


def new_disk(row, role):
    """The bytes of a new disk."""
    head = common.MAGIC + bytes([ROLES[role], 2, 0, 0]) + b"".join(number.to_bytes(4, "big") for number in row)
    body = row.capacity * (2 + row.message) if role == "low" else 0
    return head.ljust(63, b"\0") + bytes([80 if role == "recv" else 0]) + bytes(16 + body)


# ---- what strace saw ----

KNOWN = ("openat", "pwrite64", "write", "fdatasync", "fsync", "sendto")
# No command makes one of these on a file of its folder. Were one made, this could not say what a crash leaves.
STRANGE = ("ftruncate", "fallocate", "pwritev", "pwritev2", "writev", "rename", "renameat", "renameat2", "unlink", "unlinkat", "link", "linkat",
           "copy_file_range", "sendmsg")
LINE = re.compile(r"(\d+) +(?:<\.\.\. (\w+) resumed>|(\w+)\()(.*)")
RESULT = re.compile(r"\) += (-?\d+|\?)[^=]*$")
TEXT = re.compile(r'"((?:\\x[0-9a-f]{2})*)"(\.\.\.)?')
FILE = re.compile(r"\d+<((?:\\x[0-9a-f]{2})*)>")
PLACE = re.compile(r", (\d+)(?:\) +=| <unfinished)")
Event = collections.namedtuple("Event", "line kind name at data", defaults=("", 0, b""))


def unescaped(text):
    return bytes.fromhex(text.replace("\\x", ""))


def text_in(rest):
    """The bytes that a call was given, or none where its process was killed as it began: such a call does nothing."""
    found = TEXT.search(rest)
    if found and found.group(2):
        sys.exit(f"a line of strace is cut short: {rest[:200]}")
    return unescaped(found.group(1)) if found else None


class Trace:
    """The events of a run in a folder, in their order."""

    def __init__(self, path, folder):
        self.folder, self.events, self.open = os.path.realpath(folder), [], {}
        with open(path, encoding="ascii") as lines:
            for number, line in enumerate(lines, 1):
                found = LINE.match(line)
                if found:
                    self.read(number, *found.groups())

    def read(self, number, pid, resumed, name, rest):
        if name:
            self.open[pid] = self.begin(number, name, rest)
        result = RESULT.search(rest)
        if result and self.open.get(pid):
            self.end(number, self.open.pop(pid), result.group(1))

    def inside(self, rest):
        """The name, within the folder, of the file of this call."""
        found = FILE.match(rest)
        path = os.fsdecode(unescaped(found.group(1))) if found else ""
        return path[len(self.folder) + 1 :] if path.startswith(self.folder + "/") else "." if path == self.folder else None

    def add(self, *event):
        self.events.append(Event(*event))
        return self.events[-1]

    def begin(self, number, call, rest):
        """A call begins: its bytes may be out, or on a disk, from now on."""
        name, text = self.inside(rest), text_in(rest)
        if call in STRANGE or call == "openat" and "O_TRUNC" in rest and b"/" not in (text or b"/"):
            return self.strange(number, call, name, text)
        if call == "openat":
            return text and self.opened(number, os.fsdecode(text), "O_CREAT" in rest)
        if call == "sendto":
            return text and self.add(number, "sent", "", 0, text)
        if name is None or "/" in name:
            return None
        if call in ("fsync", "fdatasync"):
            return self.add(number, "syncing", name)
        if call == "write":
            return text and self.add(number, "said", name, 0, text)
        place = PLACE.search(rest)
        ended = RESULT.search(rest)
        if not place and ended and ended.group(1) != "?":
            sys.exit(f"line {number} of the trace has a write without a place")
        # A write that has neither a place nor a result is one that a kill cut off.
        return text and place and self.add(number, "write", name, int(place.group(1)), text)

    def opened(self, number, path, is_made):
        """A command gives names without a folder; the files of this script have whole paths."""
        if path.startswith(self.folder + "/snapshots/"):
            return self.add(number, "snapshot", path[len(self.folder) + 1 :])
        if is_made and "/" not in path:
            return self.add(number, "made", path)
        return self.add(number, "taken", path) if re.fullmatch(r"\d+\.(low|high|recv)", path) else None

    def strange(self, number, call, name, text):
        if name or text and b"/" not in text:
            sys.exit(f"line {number} of the trace has a call that this script does not know: {call}")

    def end(self, number, event, result):
        """A call has ended: what was synced outlives a crash from now on."""
        if event.kind == "syncing" and result == "0":
            self.add(number, "synced", event.name, event.line)
        # What is read behind a write that failed, or was cut off by a kill, shows when the process has ended.
        if event.kind == "write" and result.isdigit():
            self.add(number, "wrote", event.name, event.line, int(result))


# ---- the disks and their images ----


def mixed(old, new, draw):
    """Each byte, or of many bytes each sector, is the old one or the new one."""
    step = 1 if len(new) <= 64 else 64 if len(new) <= 4096 else 512
    return b"".join(draw.choice((old, new))[at : at + step] for at in range(0, len(new), step))


def torn(old, new, last, draw):
    """What a crash may leave where new bytes were written over old ones, and other ones come there last."""
    way, cut = draw.randrange(9), draw.randrange(len(new) + 1)
    if way == 0:
        return old
    if way == 1:
        return new
    if way == 2:
        return new[:cut] + old[cut:]
    if way == 3:
        return old[:cut] + new[cut:]
    if way == 4:
        return mixed(old, new, draw)
    if way == 5:
        return last + bytes(len(new) - len(last))
    if way == 6:
        return bytes(len(new))
    noise = draw.randbytes(len(new))
    return noise if way == 7 else new[:cut] + noise[cut:]


class Disk:
    """A file as it was last synced, and the writes since then."""

    def __init__(self, content, is_synced):
        self.synced, self.is_named, self.writes = (content, True, []) if is_synced else (b"", False, [(0, 0, content)])

    def is_settled(self):
        return self.is_named and not self.writes

    def reading(self):
        image = bytearray(self.synced)
        for _, at, data in self.writes:
            image.extend(bytes(max(0, at - len(image))))
            image[at : at + len(data)] = data
        return bytes(image)

    def settle(self, line):
        """What was written before this line is synced."""
        later = [write for write in self.writes if write[0] > line]
        self.writes = [write for write in self.writes if write[0] < line]
        self.synced, self.writes = self.reading(), later

    def shorten(self, line, count):
        """The write of this line wrote so many bytes."""
        self.writes = [(n, at, data[:count]) if n == line else (n, at, data) for n, at, data in self.writes]

    def interrupt(self, reading):
        """The process was killed, maybe in its last write, and this is what is read now."""
        if self.writes and self.reading() != reading:
            line, at, data = self.writes[-1]
            self.writes[-1] = (line, at, reading[at : at + len(data)])
        if self.reading() != reading:
            sys.exit("the trace does not explain what a file holds")

    def image(self, last, draw):
        """What a crash may leave; at the end of the run the file has these last bytes."""
        if not self.is_named and draw.randrange(2):
            return None
        if not self.writes:
            return self.synced
        image, size = bytearray(self.synced), len(self.synced)
        for _, at, data in self.writes:
            end = at + len(data)
            image.extend(bytes(max(0, end - len(image))))
            image[at:end] = torn(bytes(image[at:end]), data, last[at:end], draw)
        del image[draw.choice([size, len(image), draw.randint(size, len(image))]) :]
        return bytes(image)


class Folder:
    """The disks of a run, moved on event by event."""

    def __init__(self, case):
        self.path, self.last = case.folder, case.last
        self.disks = {name: Disk(content, case.is_synced) for name, content in case.contents.items()}
        self.unnamed = {}

    def goes_on(self, event):
        """Does what the event does, and says whether a crash may leave something else now."""
        return getattr(self, "on_" + event.kind)(event)

    def on_made(self, event):
        is_new = event.name not in self.disks
        if is_new:
            self.disks[event.name] = Disk(b"", False)
        return is_new

    def on_taken(self, event):
        return False

    def on_write(self, event):
        self.disks[event.name].writes.append((event.line, event.at, event.data))
        return True

    def on_wrote(self, event):
        self.disks[event.name].shorten(event.at, event.data)
        return False

    def on_syncing(self, event):
        if event.name == ".":
            self.unnamed[event.line] = list(self.disks)
        return False

    def on_synced(self, event):
        if event.name != ".":
            self.disks[event.name].settle(event.at)
            return True
        names = [name for name in self.unnamed.pop(event.at) if not self.disks[name].is_named]
        for name in names:
            self.disks[name].is_named = True
        return bool(names)

    def on_snapshot(self, event):
        self.disks[event.name.partition("-")[2]].interrupt(read(f"{self.path}/{event.name}"))
        return False

    def on_sent(self, event):
        return False

    on_said = on_sent

    def is_settled(self):
        return all(disk.is_settled() for disk in self.disks.values())

    def images(self, draw):
        return {name: disk.image(self.last.get(name, b""), draw) for name, disk in self.disks.items()}
