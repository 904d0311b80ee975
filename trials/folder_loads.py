"""folder_loads: the loads of trials/folders: many files through one session, messages that no `drop` sent, how fast a
file goes, and how much memory that takes. It is a module: run by itself it does nothing."""
import hashlib
import os
import random
import re
import sys
import tempfile
import time

import common
import crash_folders
import folder_trial
from folder_trial import HIGH, LOW

MESSAGE = 1024


def start_all(program, folder, others):
    """A relay in a folder, with the other commands to start."""
    common.give_up_after(3 * 3600)
    words = folder_trial.make(program, folder, message=MESSAGE, capacity=64, start=0, longest=0)
    group = common.Group(folder, {**words, **others}, {"send": "lines"})
    group.start("serve")
    if not common.till(lambda: os.path.getsize(f"{folder}/serve.out"), 10):
        sys.exit("the relay did not start")
    return group


def put(folder, name, content, place):
    """Writes a file, which is taken as soon as it has got an old time: the later its place, the later."""
    handle = os.open(f"{folder}/{LOW}/{name}", os.O_WRONLY | os.O_CREAT | os.O_EXCL)
    os.write(handle, content)
    os.utime(handle, ns=(10**9 * 10**9, 10**9 * 10**9 + place))
    os.close(handle)


def run_through(group, limit):
    """Waits until all files have come, and says how long that took; nothing may end by itself."""
    begun = time.monotonic()
    group.start("collect")
    group.start("drop")
    while not folder_trial.is_done(group.folder):
        ended = [name for name, process in group.running.items() if process.poll() is not None]
        if ended or time.monotonic() - begun > limit:
            sys.exit(f"{ended} ended by themselves" if ended else f"it was not done after {limit} seconds")
        yield time.monotonic() - begun
    yield time.monotonic() - begun


# ---- many files ----


class Feed:
    """Small files, each with its number as its bytes and every seventh empty, and one of 20 MB in their middle. All lie
    there at once."""

    LARGE = 20_000_000

    def __init__(self, folder, count):
        self.folder, self.count, self.large = folder, count, random.Random(1).randbytes(self.LARGE)

    def content(self, place):
        return self.large if place == self.count // 2 else b"" if place % 7 == 0 else b"%d" % place

    def name(self, place):
        return f"{place}.txt"

    def fill(self):
        for place in range(self.count):
            put(self.folder, self.name(place), self.content(place), place)

    def wrong(self):
        """The places whose files are not there, and whether the lines tell all in order."""
        path = f"{self.folder}/{HIGH}"
        names = set(os.listdir(path)) - {".1.files"}
        lost = [place for place in range(self.count)
                if self.name(place) not in names or common.read(f"{path}/{self.name(place)}") != self.content(place)]
        told = [line[4] for line in folder_trial.printed(self.folder)["file"]]
        return lost, len(names) - (self.count - len(lost)), told == [self.name(place) for place in range(self.count)]


def many(program, room, count=100_000):
    with tempfile.TemporaryDirectory(dir=room) as folder:
        group = start_all(program, folder, {})
        feed = Feed(folder, count)
        feed.fill()
        for seconds in run_through(group, 3600 * 3):
            time.sleep(0.5)
        group.kill_all()
        messages, _, _ = folder_trial.counts(folder)
        lost, more, in_order = feed.wrong()
        print(f"{count} files, one of {Feed.LARGE} bytes, took {seconds:.0f} seconds and {messages} messages: {len(lost)} are lost, "
              f"{more} are too many, they came {'in' if in_order else 'OUT OF'} order")
        return 1 if lost or more or not in_order else 0


# ---- messages that no drop sent ----


def some_message(draw, begun):
    """A message at random, of which one in two goes on with the file that has begun, if one has."""
    if begun is not None and draw.random() < 0.5:
        if len(begun.content) == begun.size:
            return b"\3" + hashlib.sha256(begun.content).digest()
        return b"\0" + draw.randbytes(draw.randint(1, min(40, begun.size - len(begun.content))))
    name = draw.choice([b"a", b"b.txt", b"Z 9", bytes(draw.choices(b"ab./~-_ Z\0", k=draw.randint(0, 6)))])
    size = draw.choice([0, 1, 2, 30, 2**48 - 1, 2**48]).to_bytes(8, "big")
    start = draw.choice([b"\2\1", b"\2\1", b"\2\2"]) + size + name
    return draw.choice([start, start, start, start, b"\4", b"\3" + draw.randbytes(32), b"\0" + draw.randbytes(5), draw.randbytes(draw.randint(0, 40))])


def some_messages(draw, count):
    """So many messages, and what they lead to."""
    messages = crash_folders.Messages()
    for number in range(count):
        messages.put(number, some_message(draw, messages.after(number).begun))
    return messages


def odd(program, room, count=10_000):
    """Low sends messages at random by `send`, and a file by `drop` behind them."""
    with tempfile.TemporaryDirectory(dir=room) as folder:
        group = start_all(program, folder, {"send": [program, "send", "t.toml", "1", common.MOST_LOOKS]})
        messages = some_messages(random.Random(1), count)
        with open(f"{folder}/lines", "w") as out:
            out.writelines(f"{message.hex() or '-'}\n" for message in messages.list)
        begun = time.monotonic()
        group.start("collect")
        group.start("send")
        status = group.running.pop("send").wait()
        put(folder, "last", b"hello, world", 0)
        for _ in run_through(group, 600):
            time.sleep(0.05)
        seconds = time.monotonic() - begun
        group.kill_all()
        came = messages.after(count).came
        told = [line[4] for line in folder_trial.printed(folder)["file"]]
        found = [common.read(f"{folder}/{HIGH}/{name}") for name in told]
        is_right = found == [content for _, _, content in came] + [b"hello, world"] and set(os.listdir(f"{folder}/{HIGH}")) - set(told) <= {".1.files", ".1.part"}
        print(f"{count} messages at random took {seconds:.0f} seconds and gave {len(came)} files, and a file behind them came whole: "
              f"{'all is right' if is_right and status == 0 else 'WRONG'}")
        return 0 if is_right and status == 0 else 1


# ---- speed ----


def messages_of(name, content):
    """The messages of a file, by docs/formats.md."""
    yield b"\2\1" + len(content).to_bytes(8, "big") + name.encode()
    for at in range(0, len(content), MESSAGE - 1):
        yield b"\0" + content[at : at + MESSAGE - 1]
    yield b"\3" + hashlib.sha256(content).digest()


def time_of_folders(program, folder, content):
    group = start_all(program, folder, {})
    put(folder, "file", content, 0)
    for seconds in run_through(group, 3600):
        time.sleep(0.01)
    group.kill_all()
    if common.read(f"{folder}/{HIGH}/file") != content:
        sys.exit("the file did not come whole")
    return seconds


def time_of_messages(program, folder, content):
    words = {name: [program, name, "t.toml", "1", common.MOST_LOOKS] for name in ("receive", "send")}
    group = start_all(program, folder, words)
    messages = list(messages_of("file", content))
    with open(f"{folder}/lines", "w") as out:
        out.writelines(f"{message.hex()}\n" for message in messages)
    begun = time.monotonic()
    group.start("receive")
    group.start("send")
    status = group.running["send"].wait()
    has_all = common.till(lambda: common.register(common.read(f"{folder}/1.recv"))[0] == len(messages), 10)
    seconds = time.monotonic() - begun
    group.kill_all()
    if status != 0 or not has_all:
        sys.exit(f"send ended with status {status}, and {'all' if has_all else 'not all'} messages came")
    return seconds


def in_room(room, measured, *words):
    with tempfile.TemporaryDirectory(dir=room) as folder:
        return measured(words[0], folder, *words[1:])


def speed(program, room, size=16_000_000):
    content, ratios = random.Random(1).randbytes(size), []
    for _ in range(3):
        folders, messages = in_room(room, time_of_folders, program, content), in_room(room, time_of_messages, program, content)
        ratios.append(folders / messages)
        print(f"{size} bytes took {folders:.2f} seconds from folder to folder, and {messages:.2f} as messages of send and receive: {ratios[-1]:.2f} "
              "times as long", flush=True)
    print(f"the middle ratio is {sorted(ratios)[1]:.2f}")
    return 0


# ---- memory ----


def greatest(process):
    """The most memory that a process ever had, in kilobytes."""
    return int(re.search(r"VmHWM:\s+(\d+)", common.read(f"/proc/{process.pid}/status").decode()).group(1))


def memory_for(program, folder, size):
    group = start_all(program, folder, {})
    put(folder, "file", random.Random(1).randbytes(size), 0)
    for seconds in run_through(group, 3600):
        time.sleep(0.01)
    found = [greatest(group.running[name]) for name in ("drop", "collect")]
    group.kill_all()
    return seconds, *found


def memory(program, room, megabytes=64):
    for size in (1_000_000, megabytes * 1_000_000):
        seconds, dropping, collecting = in_room(room, memory_for, program, size)
        print(f"a file of {size} bytes took {seconds:.1f} seconds; drop had {dropping} KB at most, collect {collecting} KB", flush=True)
    return 0
