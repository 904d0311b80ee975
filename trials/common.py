"""common: what the scripts of this folder share: finding the program and running it, a session table, free ports, the
commands of a page, a reader of the three disks, processes that are started and ended, and a count of what was tried. It
is a module: run by itself it does nothing.

The reader goes by docs/formats.md, "Disks", and has nothing of netpump's own code."""
import atexit
import collections
import json
import os
import re
import signal
import socket
import subprocess
import sys
import textwrap
import time

HERE = os.path.dirname(os.path.realpath(__file__))
TOP = os.path.dirname(HERE)
EXAMPLES = f"{TOP}/examples"
MOST_LOOKS = "4294967295"


# ---- the words of a script, and its time ----


def word(place, otherwise=None):
    """The word at this place behind the script's name, counted from 1, or the other one where there is none."""
    return sys.argv[place] if len(sys.argv) > place else otherwise


def give_up_after(seconds):
    """Ends this script with status 1 when so many seconds have passed, or when it is told to end. What it started ends
    too."""
    def too_long(*_):
        sys.exit(f"{os.path.basename(sys.argv[0])} gives up: it was not done after {seconds} seconds")

    signal.signal(signal.SIGALRM, too_long)
    signal.signal(signal.SIGTERM, lambda *_: sys.exit(1))
    signal.alarm(seconds)


def till(holds, seconds):
    """Whether it holds before so many seconds have passed."""
    limit = time.monotonic() + seconds
    while not (is_so := holds()) and time.monotonic() < limit:
        time.sleep(0.05)
    return is_so


# ---- the program, a table and ports ----


def find_program(path=None):
    """The program of this path; where none is given, the one that the variable NETPUMP names, or the built one. Without
    a program the script ends."""
    program = os.path.realpath(path or os.environ.get("NETPUMP") or f"{TOP}/crates/netpump/out/netpump")
    if not os.access(program, os.X_OK):
        sys.exit(f"there is no program at {program}: examples/program builds it")
    return program


def run(*words, **options):
    """One run to its end, which has a minute where nothing else is said: its status and what it wrote, as text. What
    one complains of that has to succeed, by check=True, is seen."""
    complaint = None if options.get("check") else subprocess.PIPE
    return subprocess.run(words, **{"stdout": subprocess.PIPE, "stderr": complaint, "text": True, "timeout": 60, **options})


def generate(path, *words):
    """Writes the script of bench/generate with these words."""
    with open(path, "wb") as out:
        subprocess.run([f"{TOP}/bench/generate", *words], stdout=out, check=True, timeout=60)


def table(**values):
    """The text of a table with one row: examples/weather.toml with the values that are given."""
    with open(f"{EXAMPLES}/weather.toml") as weather:
        text = weather.read()
    for key, value in values.items():
        line = f"{key} = {json.dumps(value)}"
        text, found = re.subn(f"^{key} = .*$", lambda _: line, text, flags=re.M)
        text += "" if found else f"{line}\n"
    return text


def make_session(program, folder, **values):
    """Writes such a table to t.toml in this folder, and formats the disks of its session."""
    with open(f"{folder}/t.toml", "w") as out:
        out.write(table(**values))
    run(program, "format", "t.toml", str(values.get("id", 1)), cwd=folder, check=True)


def free_ports(count=2):
    """Ports of 127.0.0.1 at which nobody listens now."""
    doors = [socket.socket() for _ in range(count)]
    for door in doors:
        door.bind(("127.0.0.1", 0))
    ports = [door.getsockname()[1] for door in doors]
    for door in doors:
        door.close()
    return ports


# ---- the commands of a page ----

FENCE = re.compile(r"^( *)```(\w*)\n(.*?)^ *```$", re.M | re.S)


def sections(page="docs/running.md"):
    """The sections of a page, each by its title and its text."""
    with open(f"{TOP}/{page}", encoding="utf-8") as text:
        for section in re.split(r"^## ", text.read(), flags=re.M)[1:]:
            yield section.split("\n", 1)[0], section


def blocks(section):
    """Each block of commands of a section, and each of what the commands before it print, in order: whether it is
    commands, and its text."""
    has_run = False
    for _, language, body in FENCE.findall(section):
        has_run = has_run or language == "sh"
        if has_run and language in ("sh", ""):
            yield language == "sh", textwrap.dedent(body)


def key_words(port):
    """What running.md writes before the key that may reach this port alone."""
    with open(f"{TOP}/docs/running.md", encoding="utf-8") as page:
        found = re.search(r'restrict,\S*permitopen="127\.0\.0\.1:7001"\S*?command="/bin/false"', page.read())
        return found.group(0).replace("7001", str(port))


# ---- a reader of the three disks ----

ROLES = {"low": 0x4C, "high": 0x48, "recv": 0x52}
MAGIC, MOST_MESSAGES, LARGEST_LOG = b"NPD1", 2**48, 16_777_216

# What a row of a table says of the disks of its session.
Row = collections.namedtuple("Row", "session capacity message")
# What three disks stand for: how many messages are accepted and removed, the live ones, and those of the receiver.
Found = collections.namedtuple("Found", "accepted removed live received")


class Refused(Exception):
    """The first thing that is wrong with the disks, as the fault line has it."""

    def __init__(self, row, role, number, first, second=0):
        super().__init__(f"fault disk {row.session} {role} {number} {first} {second}")
        self.number = number


def read(path):
    with open(path, "rb") as file:
        return file.read()


def number(disk, at, size):
    return int.from_bytes(disk[at : at + size], "big")


def register(disk):
    """The two numbers of the register. Nothing is checked."""
    cell = 48 + 16 * (disk[32] % 2)
    return number(disk, cell, 8), number(disk, cell + 8, 8)


def checked_register(row, role, disk, size=None):
    """The two numbers of the register of a disk whose header is right, and its size where one is wanted."""
    if len(disk) < 80 or disk[:4] != MAGIC:
        raise Refused(row, role, 2, len(disk), number(disk, 0, 4) if len(disk) >= 4 else 0)
    versions = [2, 1] if row.capacity <= 64 else [2]
    fields = [(4, 1, [ROLES[role]]), (5, 1, versions), (8, 4, [row.session]), (12, 4, [row.capacity]), (16, 4, [row.message])]
    for at, length, fine in fields:
        if number(disk, at, length) not in fine:
            raise Refused(row, role, 3, number(disk, at, length), fine[0])
    if size is not None and len(disk) != size:
        raise Refused(row, role, 3, len(disk), size)
    return register(disk)


def count(row, role, disk, size):
    """How many messages a disk of the relay counts."""
    first, second = checked_register(row, role, disk, size)
    if first > MOST_MESSAGES or second != 0:
        raise Refused(row, role, 4, first, second)
    return first


def slot(row, disk, message):
    """The length and the bytes of a message's slot on the low disk."""
    at = 80 + message % row.capacity * (2 + row.message)
    length = number(disk, at, 2)
    return length, disk[at + 2 : at + 2 + length]


def received(row, disk):
    """The messages of a receiver's disk, whose register has to count them and to know where they end."""
    total, end_of_log = checked_register(row, "recv", disk)
    at, messages = 80, []
    if total <= MOST_MESSAGES and 80 <= end_of_log <= min(len(disk), LARGEST_LOG):
        while len(messages) < total and at + 2 <= end_of_log and number(disk, at, 2) <= row.message:
            length = number(disk, at, 2)
            messages.append(disk[at + 2 : at + 2 + length])
            at += 2 + length
    if total != len(messages) or at != end_of_log:
        raise Refused(row, "recv", 4, total, end_of_log)
    return messages


def stands_for(row, low, high, recv):
    """What the bytes of three disks stand for. It raises Refused with the first thing that is wrong."""
    accepted = count(row, "low", low, 80 + row.capacity * (2 + row.message))
    removed = count(row, "high", high, 80)
    if not removed <= accepted <= removed + row.capacity:
        raise Refused(row, "high", 5, removed, accepted)
    slots = [slot(row, low, message) for message in range(removed, accepted)]
    for message, (length, _) in enumerate(slots, removed):
        if length > row.message:
            raise Refused(row, "low", 6, message, length)
    live, messages = [payload for _, payload in slots], received(row, recv)
    if not removed <= len(messages) <= accepted:
        raise Refused(row, "recv", 7, len(messages), removed if len(messages) < removed else accepted)
    for message in range(removed, len(messages)):
        if live[message - removed] != messages[message]:
            raise Refused(row, "recv", 8, message)
    return Found(accepted, removed, live, messages)


def shown(row, found):
    """The lines that `show` has to print of what the disks stand for."""
    lines = [f"show {row.session} {found.accepted} {found.removed} {len(found.received)}"]
    return lines + [f"live {row.session} {message} {payload.hex() or '-'}" for message, payload in enumerate(found.live, found.removed)]


def record(payload):
    """A message as it stands in a receiver's log, and in a slot that it fills."""
    return len(payload).to_bytes(2, "big") + payload


FILE_MESSAGE = 1024  # the row's message size for a file


def file_messages(file):
    """The file as messages: each piece behind a byte 0, and then a byte 1 and its length."""
    for at in range(0, len(file), FILE_MESSAGE - 1):
        yield b"\0" + file[at : at + FILE_MESSAGE - 1]
    yield b"\1" + len(file).to_bytes(8, "big")


def fill(path, first, second=0, body=b""):
    """Gives a formatted disk this register, and these bytes behind it."""
    with open(path, "r+b") as disk:
        disk.seek(48)
        disk.write(first.to_bytes(8, "big") + second.to_bytes(8, "big"))
        disk.seek(80)
        disk.write(body)


# ---- processes beside this one ----

started = []


def start(*words, **options):
    """A process that ends with this script at the latest. What it writes goes nowhere where nothing else is said."""
    process = subprocess.Popen(words, **{"stdout": subprocess.DEVNULL, "stderr": subprocess.DEVNULL, **options})
    started.append(process)
    return process


def end(*processes):
    """Ends processes with signal 9."""
    for process in processes:
        process.kill()
        process.wait()


atexit.register(lambda: end(*started))


class Group:
    """Processes by name, in one folder. Each is started again as often as it is wanted; what it prints is added to
    NAME.out."""

    def __init__(self, folder, words, inputs):
        self.folder, self.words, self.inputs, self.running = folder, words, inputs, {}

    def start(self, name):
        """Starts a process that does not run. It reads the file that the inputs name for it, or nothing."""
        if name in self.running and self.running[name].poll() is None:
            return
        source = os.path.join(self.folder, self.inputs.get(name, os.devnull))
        with open(source, "rb") as lines, open(f"{self.folder}/{name}.out", "ab") as out:
            self.running[name] = start(*self.words[name], cwd=self.folder, stdin=lines, stdout=out)

    def kill(self, name):
        """Kills a process with signal 9, and says whether it ran until then."""
        did_run = self.running[name].poll() is None
        end(self.running[name])
        return did_run

    def kill_all(self):
        end(*self.running.values())

    def kill_in_turn(self, draw, kills, least, most, limit):
        """Lets all run between two kills, for a random time, and kills one after the other in turn: so many in all, or
        until the clock is at the limit. The relay, by the name serve, has a moment before the others start. Gives the
        turn and the name of each that was killed."""
        names, turn = list(self.words), 0
        while kills > 0 and time.monotonic() < limit:
            for name in names:
                self.start(name)
                if name == "serve":
                    time.sleep(0.02)
            time.sleep(draw.uniform(least, most))
            name = names[turn % len(names)]
            if self.kill(name):
                kills -= 1
                yield turn, name
            turn += 1


def acknowledged(path):
    """The numbers of the whole lines `ack NUMBER` that a sender printed."""
    return {int(line[4:]) for line in read(path).split(b"\n")[:-1] if line.startswith(b"ack ")}


# ---- what was tried ----


class Tries:
    """Counts what was tried, and how much of it came out as it should."""

    def __init__(self):
        self.count = self.right = 0

    def add(self, is_right):
        self.count += 1
        self.right += bool(is_right)

    def say(self, is_right, what):
        """Counts a try, and prints a line of it."""
        self.add(is_right)
        print(f"{'yes' if is_right else 'NO':3} {what}", flush=True)

    def finish(self, what):
        """Prints the last line of the script, and gives its status."""
        print(f"{self.right} of {self.count} {what}", flush=True)
        return 0 if self.right == self.count > 0 else 1
