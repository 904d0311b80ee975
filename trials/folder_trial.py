"""folder_trial: what trials/folders shares between its parts: a session whose files go from folder to folder, a writer
that puts files into Low's folder, a reader that takes them away from High's, and what has to hold of the two lists at
the end. It is a module: run by itself it does nothing."""
import collections
import hashlib
import os
import random
import re
import threading
import time

import common

LOW, HIGH, TAKEN, BESIDE = "out", "in", "taken", "beside"
LARGE = int(os.environ.get("LARGE", 100_000))
# The names of files come again and again.
NAMES = ["a.txt", "b", "c.tar.gz", "Z (1).x,y", "9", "e=f@g%h+i", "n" * 128, "with space", "x-", "report.pdf"]
# What the reader saw: the name as shown, when it was shown, and what was in it.
Shown = collections.namedtuple("Shown", "name at size digest")


def digest_of(content):
    return hashlib.sha256(content).hexdigest()


def make(program, folder, **values):
    """A session in a folder with two more for files, and the words of its three commands."""
    low_port, high_port = common.free_ports()
    row = {"capacity": 8, "message": 1024, "window": 4, "start": 100, "longest": 500, "resend": 50000, **values}
    common.make_session(program, folder, low_port=low_port, high_port=high_port, **row)
    for name in (LOW, HIGH, TAKEN, BESIDE):
        os.mkdir(f"{folder}/{name}")
    serve = [program, "serve", "t.toml", "1", common.MOST_LOOKS]
    ends = {name: [program, name, "t.toml", "1", common.MOST_LOOKS, where] for name, where in (("collect", HIGH), ("drop", LOW))}
    return {"serve": serve, **ends}


def counts(folder):
    """How many messages are accepted, how many of them High's folder counts, and its bytes of a file that has begun,
    and one."""
    accepted = common.register(common.read(f"{folder}/1.low"))[0]
    path = f"{folder}/{HIGH}/.1.files"
    return accepted, *(common.register(common.read(path)) if os.path.exists(path) and os.path.getsize(path) == 220 else (0, 0))


def is_done(folder):
    """Whether nothing is left in Low's folder, and High has all that was accepted."""
    accepted, taken, held = counts(folder)
    return not os.listdir(f"{folder}/{LOW}") and (accepted, 0) == (taken, held)


# ---- the writer ----


class File:
    """A file that was put into Low's folder: its name, when it was there, and all that was in it at some time, the
    newest last."""

    def __init__(self, name, way, content):
        self.name, self.way, self.content, self.versions = name, way, bytearray(content), []
        self.handle, self.changes, self.put, self.stamp = None, 0, 0.0, 0
        self.note()

    def note(self):
        self.versions.append((len(self.content), digest_of(self.content)))

    def is_ordered(self):
        """Whether it was left alone, and is as old as its place in the list says."""
        return self.way in ("moved", "written")


class Writer(threading.Thread):
    """Puts files into Low's folder until it is told to stop, so that at most MOST wait there. Each is 3 seconds old but
    a few, and each that is not changed later has an older time than the one behind it."""

    MOST = 8

    def __init__(self, folder, seed):
        super().__init__(daemon=True)
        self.folder, self.draw, self.files, self.goes_on, self.last, self.open = folder, random.Random(seed), [], True, 0, []

    def run(self):
        while self.goes_on:
            waiting = len(os.listdir(f"{self.folder}/{LOW}"))
            if waiting < self.MOST:
                self.put_one()
            self.change_some()
            time.sleep(self.draw.uniform(0, 0.02 if waiting < self.MOST else 0.05))
        while self.open:
            self.change_some()

    def path(self, name):
        return f"{self.folder}/{LOW}/{name}"

    def age(self, handle, file):
        """Sets the time of a file back, and keeps the order of all times."""
        if not file.stamp:
            self.last = file.stamp = max(self.last + 1, time.time_ns() - 3_000_000_000)
        os.utime(handle, ns=(file.stamp, file.stamp))

    def put_one(self):
        free = [name for name in NAMES if not os.path.lexists(self.path(name))]
        if not free:
            return
        way = self.draw.choices(["moved", "written", "changed", "young"], [20, 4, 3, 0.5])[0]
        is_large = way == "changed" or self.draw.random() < 0.05
        file = File(self.draw.choice(free), way, self.draw.randbytes(self.large() if is_large else self.small()))
        self.write(file) if way == "written" else self.move_in(file)
        file.put = time.monotonic()
        self.files.append(file)

    def small(self):
        return self.draw.choice([0, 0, 1, 1022, 1023, 1024, 2046, self.draw.randrange(5000)])

    def large(self):
        """Up to ten times as large as the least large one, and seldom so large."""
        return int(LARGE * 10 ** (self.draw.random() ** 3))

    def move_in(self, file):
        """Writes it elsewhere and moves it in. One that is to change is kept open."""
        beside = f"{self.folder}/{BESIDE}/new"
        handle = os.open(beside, os.O_RDWR | os.O_CREAT | os.O_EXCL)
        os.write(handle, file.content)
        if file.way != "young":
            self.age(handle, file)
        os.rename(beside, self.path(file.name))
        if file.way == "changed":
            file.handle, file.changes = handle, self.draw.randint(1, 6)
            self.open.append(file)
        else:
            os.close(handle)

    def write(self, file):
        """Writes it where it is, a part at a time. Only the whole counts, unless this took so long that a part may have
        been sent."""
        begun, whole = time.monotonic(), file.versions.pop()
        handle = os.open(self.path(file.name), os.O_RDWR | os.O_CREAT | os.O_EXCL)
        cut, parts = 0, self.draw.randint(1, 4)
        for part in range(1, parts + 1):
            end = len(file.content) * part // parts
            os.write(handle, file.content[cut:end])
            cut = end
            file.versions.append((cut, digest_of(file.content[:cut])))
            time.sleep(self.draw.uniform(0, 0.01))
        self.age(handle, file)
        os.close(handle)
        if time.monotonic() - begun < 1.5:
            file.versions = [whole]
        else:
            file.way = "changed"

    def is_marked(self, file):
        return any(name.startswith(".np-") and name.endswith(f"-{file.name}") for name in os.listdir(f"{self.folder}/{LOW}"))

    def change_some(self):
        """Changes one of the open files, now and then, most often while it is sent: each time some bytes of a page
        become new ones, or come, or the last ones go."""
        if not self.open or self.goes_on and self.draw.random() < 0.4:
            return
        file = self.draw.choice(self.open)
        if self.goes_on and not self.is_marked(file) and self.draw.random() < 0.97:
            return
        self.change(file)
        file.changes -= 1
        if file.changes == 0:
            os.close(file.handle)
            self.open.remove(file)

    def change(self, file):
        size, way = len(file.content), self.draw.randrange(8)
        if way == 0:
            size -= self.draw.randrange(min(size, 3000))
            del file.content[size:]
            os.ftruncate(file.handle, size)
        else:
            at = size if way == 1 else self.draw.randrange(size // 512) * 512
            new = self.draw.randbytes(self.draw.choice([16, 500]))
            file.content[at : at + len(new)] = new
            os.pwrite(file.handle, new, at)
        self.age(file.handle, file)
        file.note()


# ---- the reader ----


class Reader(threading.Thread):
    """Takes files away from High's folder. Some lie there for a while, so that their names are in use when they come
    again."""

    def __init__(self, folder, seed):
        super().__init__(daemon=True)
        self.folder, self.draw, self.shown, self.goes_on = folder, random.Random(seed), [], True
        self.waits = {}

    def run(self):
        while self.goes_on:
            self.look(False)
            time.sleep(self.draw.uniform(0, 0.01))

    def look(self, takes_all):
        now = time.monotonic()
        for name in os.listdir(f"{self.folder}/{HIGH}"):
            if name[0] == ".":
                continue
            until = self.waits.setdefault(name, now + (0 if self.draw.random() < 0.5 else self.draw.uniform(0, 2)))
            if takes_all or now >= until:
                del self.waits[name]
                self.take(name)

    def take(self, name):
        """The time at which its inode was changed last is that of its rename."""
        path, to = f"{self.folder}/{HIGH}/{name}", f"{self.folder}/{TAKEN}/{len(self.shown)}"
        at = os.stat(path).st_ctime_ns
        os.rename(path, to)
        content = common.read(to)
        os.unlink(to)
        self.shown.append(Shown(name, at, len(content), digest_of(content)))


# ---- what has to hold ----


class Verdict:
    """Compares what was put into Low's folder with what came into High's."""

    def __init__(self, files, shown):
        self.wrong, self.files = [], files
        self.shown = sorted(shown, key=lambda one: one.at)
        self.places = self.match()
        self.overtaken = self.order()

    def match(self):
        """Gives each shown file that which was put; of equal ones the earlier to the earlier."""
        waiting = collections.defaultdict(collections.deque)
        for place, file in enumerate(self.files):
            for version in dict.fromkeys(file.versions):
                waiting[file.name, *version].append(place)
        places, used = [], set()
        for one in self.shown:
            key = one.name.partition("~")[0], one.size, one.digest
            while waiting[key] and waiting[key][0] in used:
                waiting[key].popleft()
            if waiting[key]:
                places.append(waiting[key].popleft())
                used.add(places[-1])
            else:
                places.append(None)
                self.wrong.append(f"{one.name} of {one.size} bytes was shown, and is not to come (again)")
        lost = [file for place, file in enumerate(self.files) if place not in used]
        self.wrong += [f"{file.name} ({file.way}, {file.versions[-1][0]} bytes) did not come" for file in lost]
        return places

    def order(self):
        """How many came before one that was put at most half a second earlier: a list of a folder may lack a file that
        comes meanwhile."""
        greatest, overtaken = None, 0
        for place in self.places:
            if place is None or not self.files[place].is_ordered():
                continue
            if greatest is not None and place < greatest:
                overtaken += 1
                if self.files[greatest].put - self.files[place].put > 0.5:
                    self.wrong.append(f"{self.files[place].name} came behind a file that was put later")
            else:
                greatest = place
        return overtaken

    def left(self, folder):
        """Nothing may be left but the register."""
        for where, names in ((LOW, []), (HIGH, [".1.files"])):
            found = sorted(os.listdir(f"{folder}/{where}"))
            if found != names:
                self.wrong.append(f"{where} has {found}")

    def lines(self, printed):
        """Each line tells a file that came, under its name; the numbers grow."""
        shown = collections.Counter((one.name, str(one.size), one.digest) for one in self.shown)
        sent = collections.Counter((one.name.partition("~")[0], str(one.size), one.digest) for one in self.shown)
        for word, there in (("file", shown), ("sent", sent)):
            told = printed[word]
            numbers = [int(line[1]) for line in told]
            if numbers != sorted(set(numbers)):
                self.wrong.append(f"the numbers of the lines {word} do not grow")
            more = collections.Counter((line[4], line[2], line[3]) for line in told) - there
            self.wrong += [f"a line {word} tells a file that did not come: {key}" for key in more]
        for line in printed["file"]:
            if "~" in line[4] and line[4].rpartition("~")[2] != line[1]:
                self.wrong.append(f"a name has another number than its line: {line}")
        changed = {file.name for file in self.files if file.way == "changed"}
        self.wrong += [f"again tells a file that was left alone: {line}" for line in printed["again"] if line[2] not in changed]
        for line in printed["dropped"]:
            # One that grew may go past its size before it is given up.
            if line[2] not in ("abandoned", "toolong") or line[2] == "toolong" and line[3] not in changed:
                self.wrong.append(f"a file was dropped: {line}")


# The fields behind the word, of which the last is a name.
FIELDS = {"sent": 5, "file": 5, "again": 3, "dropped": 4, "odd": 2}


def printed(folder):
    """The lines that the two commands printed, by their words."""
    found = {word: [] for word in (*FIELDS, "fault")}
    for name in ("drop", "collect"):
        for line in common.read(f"{folder}/{name}.out").decode().split("\n")[:-1]:
            word, _, rest = line.partition(" ")
            if word not in found or word in FIELDS and not re.match(r"1 \d+", rest):
                found["fault"].append(line)
            else:
                found[word].append(rest.split(" ", FIELDS.get(word, 9) - 1))
    return found
