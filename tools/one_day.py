#!/usr/bin/env python3
"""Runs one command of the program on some folders, one after the other, for tools/days, and keeps their texts there.

usage: tools/one_day.py ROOM NUMBER

ROOM/NUMBER.days says what is to be run, and ROOM/NUMBER.log gets a line for each day. Beside each text stands what it
was made by: the words, the sha256 of the program and of each file that was read, and of the text. A text counts as whole
only where all of these are those of now. It is written under another name and gets its own once the exit code says that
it is whole; what it was made by is written last. So a text that is cut off never counts.
"""

import contextlib
import fcntl
import hashlib
import json
import os
import select
import signal
import stat
import subprocess
import sys
import time

MARKET = [f"{name}.csv" for name in ("day", "zones", "borders", "bids", "links", "runs", "demands", "limits")]
# Of each command the text that is kept, the exit codes with which it is whole, and the files that it reads.
TEXTS = {
    "clear": ("publication.txt", (0, 1), MARKET),
    "check": ("check.txt", (0,), [*MARKET, "publication.txt"]),
    "feed": ("feed.jsonl", (0,), ["publication.txt"]),
    "split": ("split.txt", (0, 1), MARKET),
    "value": ("value.txt", (0,), [*MARKET, "publication.txt"]),
}
LOCK = b".days.lock"
MOST_OF_A_RECORD = 1 << 20
USAGE, NOT_STARTED, NOT_KEPT = 2, 127, 125
# What the program prints last is a line that says why, with these; with others it is a part of a text.
SAYS_WHY = (2, 3, 4, 7, 8, 9)


class Ended(BaseException):
    """Something that ends the work asked for the end, by this signal."""


class NotKept(Exception):
    """Why nothing can be kept in a folder."""


def to_bytes(name):
    """A name as it stands in a file of JSON, as the system has it."""
    return name.encode("utf-8", "surrogateescape")


def to_text(name):
    return name.decode("utf-8", "surrogateescape")


class NoFile(OSError):
    """What stands under a name is no plain file."""


def opened(path):
    """A plain file, to be read. Nothing waits for what a pipe or a device may bring."""
    file = os.open(path, os.O_RDONLY | os.O_NONBLOCK | os.O_CLOEXEC)
    if not stat.S_ISREG(os.fstat(file).st_mode):
        os.close(file)
        raise NoFile
    return open(file, "rb")


def sum_of(path):
    """The sha256 of a file; None where there is none, and a word where it is something else or can't be read."""
    try:
        with opened(path) as data:
            found = hashlib.sha256()
            while part := data.read(1 << 20):
                found.update(part)
            return found.hexdigest()
    except FileNotFoundError:
        return None
    except OSError:
        return "no file that can be read"


def is_sum(found):
    return found is None or len(found) == 64


def meaning_of(code):
    """The signal that killed a program, by its exit code, or nothing."""
    try:
        return f"killed by signal {code - 128}, {signal.Signals(code - 128).name}"
    except ValueError:
        return ""


class Folder:
    """The folder of a day, and what is kept there of one command: its text and what that was made by."""

    def __init__(self, path, verb):
        self.path, self.verb = path, verb
        name, self.whole, self.read = TEXTS[verb]
        self.text = os.path.join(path, name.encode())
        self.made_by = os.path.join(path, f".{name}.json".encode())
        self.part = os.path.join(path, f".{name}.part".encode())
        self.failed = os.path.join(path, f"{verb}.failed".encode())

    def sums(self):
        """The sha256 of each file that the command reads."""
        return {name: sum_of(os.path.join(self.path, name.encode())) for name in self.read}

    def record(self):
        """What the last call noted of itself, or None."""
        try:
            with opened(self.made_by) as data:
                record = json.loads(data.read(MOST_OF_A_RECORD))
            record = {key: record[key] for key in ("words", "program", "read", "text", "code", "said")}
            kinds = {"words": list, "program": str, "read": dict, "code": int, "said": str}
            is_right = all(isinstance(record[key], kind) for key, kind in kinds.items()) and list(record["read"]) == self.read
            return record if is_right else None
        except (OSError, ValueError, KeyError, TypeError, RecursionError):
            return None

    def changed(self, record):
        """The first file that isn't as it was when this record was made, or None: the text, or a file that was read."""
        for name, wanted in [*record["read"].items(), (TEXTS[self.verb][0], record["text"])]:
            is_text = name == TEXTS[self.verb][0]
            if is_text and record["code"] not in self.whole:
                continue
            found = sum_of(os.path.join(self.path, name.encode()))
            if found != wanted or not is_sum(found) or is_text and found is None:
                return name
        return None

    def whole_code(self, words, program):
        """The exit code of its text, where that is whole: made by these words and this program of the files as they are."""
        record = self.record()
        if not record or (record["words"], record["program"]) != (words, program):
            return None
        return record["code"] if record["code"] in self.whole and not self.changed(record) else None

    def write(self, path, text):
        """Puts a small text under a name, which it gets once it is whole."""
        part = self.made_by + b".part"
        remove(part)
        with open(os.open(part, os.O_WRONLY | os.O_CREAT | os.O_EXCL, 0o666), "w", encoding="utf-8", errors="backslashreplace") as file:
            file.write(text + "\n")
        os.replace(part, path)

    def note(self, record):
        """Writes what the text was made by, or why there is none."""
        self.write(self.made_by, json.dumps(record))

    def keep(self, record):
        """Gives the text its name, and notes what it was made by."""
        record["text"] = sum_of(self.part)
        os.replace(self.part, self.text)
        self.note(record)
        for path in (self.text + b".old", self.failed):
            with contextlib.suppress(OSError):
                remove(path)

    def give_up(self, record):
        """Notes why there is no text. That of an earlier call isn't the one that was asked for, and gets another name."""
        with contextlib.suppress(OSError):
            remove(self.part)
            if record["code"] != USAGE and not os.path.isdir(self.text) and os.path.lexists(self.text):
                os.replace(self.text, self.text + b".old")
        with contextlib.suppress(OSError):
            self.write(self.failed, record["said"])
        with contextlib.suppress(OSError):
            if record["code"] != USAGE:
                self.note(record)

    def is_locked(self):
        """Whether another call works on the folder now."""
        try:
            lock = os.open(os.path.join(self.path, LOCK), os.O_RDONLY | os.O_NONBLOCK | os.O_NOFOLLOW | os.O_CLOEXEC)
        except OSError:
            return False
        try:
            fcntl.flock(lock, fcntl.LOCK_SH | fcntl.LOCK_NB)
        except BlockingIOError:
            return True
        except OSError:
            pass
        finally:
            os.close(lock)
        return False


def remove(path):
    with contextlib.suppress(FileNotFoundError):
        os.unlink(path)


@contextlib.contextmanager
def locked(path, wait):
    """Holds the folder against other calls, and waits for one that has it. Where the file system has no locks, it goes on
    without."""
    name = os.path.join(path, LOCK)
    while True:
        lock = os.open(name, os.O_RDWR | os.O_CREAT | os.O_NOFOLLOW | os.O_CLOEXEC, 0o666)
        try:
            wait(lock)
            with contextlib.suppress(FileNotFoundError):
                if os.path.samestat(os.fstat(lock), os.lstat(name)):
                    break
        except BaseException:
            os.close(lock)
            raise
        os.close(lock)
    try:
        yield
    finally:
        with contextlib.suppress(OSError):
            os.unlink(name)
        os.close(lock)


class Runner:
    """Runs the days of one list."""

    def __init__(self, room, asked):
        self.room, self.verb, self.words = room, asked["verb"], asked["words"]
        self.program, self.sum = to_bytes(asked["program"]), asked["sha256"]
        # Where tools/days waits for the end, it holds the other end of this pipe while it lives.
        self.alive = None
        with contextlib.suppress(OSError):
            self.alive = os.open(os.path.join(room, b"alive"), os.O_RDONLY | os.O_NONBLOCK | os.O_CLOEXEC)

    def look(self, seconds=0.0):
        """Ends this where tools/days has ended; waits this long for it."""
        if self.alive is None:
            time.sleep(seconds)
            return
        if seconds:
            poll = select.poll()
            poll.register(self.alive, select.POLLIN)
            poll.poll(seconds * 1000)
        with contextlib.suppress(BlockingIOError):
            if not os.read(self.alive, 1):
                raise Ended(signal.SIGTERM)

    def wait(self, path, lock):
        """Waits for the lock of a folder."""
        said = False
        while True:
            try:
                fcntl.flock(lock, fcntl.LOCK_EX | fcntl.LOCK_NB)
                return
            except BlockingIOError:
                if not said:
                    print(f"tools/days: another call works on {ascii(to_text(path))}: waiting for it", file=sys.stderr, flush=True)
                said = True
                self.look(0.05)
            except OSError:
                return

    def call(self, path, part):
        """The exit code of the program, its text in this file, and the last line that says why."""
        command = [self.program, self.verb, path, *self.words[1:]]
        try:
            child = subprocess.Popen(command, stdin=subprocess.DEVNULL, stdout=part, stderr=subprocess.PIPE, start_new_session=True)
        except OSError as error:
            return NOT_STARTED, f"the program can't be started: {error.strerror}"
        try:
            said = self.listen(child.stderr)
            while child.poll() is None:
                self.look(0.02)
        except BaseException:
            end_group(child)
            raise
        finally:
            child.stderr.close()
        code = child.returncode if child.returncode >= 0 else 128 - child.returncode
        if code > 128 and meaning_of(code):
            return code, meaning_of(code)
        if not said.strip() and code in SAYS_WHY:
            size = os.fstat(part).st_size
            said = os.pread(part, 4096, max(0, size - 4096))
        lines = said.decode("utf-8", "backslashreplace").splitlines() or [""]
        return code, lines[-1][:200]

    def listen(self, pipe):
        """The last of what the program says on standard error."""
        said = b""
        poll = select.poll()
        poll.register(pipe, select.POLLIN)
        if self.alive is not None:
            poll.register(self.alive, select.POLLIN)
        while True:
            for file, _ in poll.poll():
                if file == self.alive:
                    self.look()
                elif part := os.read(file, 65536):
                    said = (said + part)[-4096:]
                else:
                    return said

    def run(self, path):
        """The exit code that a day comes to, and what is said of it. No fault of one day is one of the next."""
        try:
            with locked(path, lambda lock: self.wait(path, lock)):
                return self.make(Folder(path, self.verb))
        except NotKept as error:
            return NOT_KEPT, str(error)
        except OSError as error:
            return NOT_KEPT, f"nothing can be kept there: {error.strerror}"

    def make(self, folder):
        code = folder.whole_code(self.words, self.sum)
        if code is not None:
            return code, ""
        if os.path.isdir(folder.text):
            raise NotKept(f"{TEXTS[self.verb][0]} is a folder")
        read = folder.sums()
        remove(folder.part)
        part = os.open(folder.part, os.O_RDWR | os.O_CREAT | os.O_EXCL | os.O_CLOEXEC, 0o666)
        try:
            code, said = self.call(folder.path, part)
            record = {"words": self.words, "program": self.sum, "read": read, "text": None, "code": code, "said": said}
            if code in folder.whole:
                record["said"] = said = ""
                os.fsync(part)
                folder.keep(record)
            else:
                folder.give_up(record)
            return code, said
        finally:
            os.close(part)
            with contextlib.suppress(OSError):
                remove(folder.part)


def end_group(child):
    """Ends a process that runs, and those that it started."""
    for number in (signal.SIGTERM, signal.SIGKILL):
        if child.poll() is not None:
            return
        with contextlib.suppress(ProcessLookupError, PermissionError):
            os.killpg(child.pid, number)
        with contextlib.suppress(subprocess.TimeoutExpired):
            child.wait(5)


def end_by_signal():
    """Lets the signals that ask for the end raise Ended, once; one that is ignored, as by nohup, stays so."""
    asking = (signal.SIGHUP, signal.SIGINT, signal.SIGTERM)
    numbers = [it for it in asking if signal.getsignal(it) != signal.SIG_IGN]

    def end(number, _):
        for other in numbers:
            signal.signal(other, signal.SIG_IGN)
        raise Ended(number)

    for number in numbers:
        signal.signal(number, end)


def main():
    room, number = os.fsencode(sys.argv[1]), sys.argv[2]
    end_by_signal()
    try:
        # Held while this runs, so that tools/days knows when all have ended.
        running = os.open(os.path.join(room, b"running"), os.O_RDONLY | os.O_CLOEXEC)
        fcntl.flock(running, fcntl.LOCK_SH)
    except OSError:
        pass
    try:
        with open(os.path.join(room, f"{number}.days".encode()), encoding="ascii") as file:
            asked = json.load(file)
        os.chdir(to_bytes(asked["here"]))
        runner = Runner(room, asked)
        log = os.open(os.path.join(room, f"{number}.log".encode()), os.O_WRONLY | os.O_CREAT | os.O_APPEND | os.O_CLOEXEC, 0o666)
        is_same = sum_of(runner.program) == runner.sum
        for place, name in asked["days"]:
            runner.look()
            code, said = runner.run(to_bytes(name)) if is_same else (None, "the program was changed after the call began")
            os.write(log, (json.dumps([place, code, said]) + "\n").encode())
    except Ended as ended:
        return 128 + ended.args[0]
    except OSError as error:
        print(f"tools/days: {error}", file=sys.stderr)
        return 1
    return 0


if __name__ == "__main__":
    sys.exit(main())
