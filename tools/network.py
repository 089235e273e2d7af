"""What tools/carry, tools/cluster, tools/maelstrom and their checks share: the process of a node, its journal, datagrams, and chance.

A `Process` is the program tapestry_node, to which lines are handed in one after the other (docs/NETWORK.md, "Lines"). A `Journal` is a file in which
each line stands before it is handed in, and after it what came of it. A `Node` is both: started again it takes its journal, and gives nothing that it
gave before. `steps_of` reads a journal for tools/replay.py. A `Chance` says which datagrams are lost, repeated or late.
"""
import fcntl
import os
import random
import subprocess
import zlib

import replay
import runs

DEFAULT = os.path.join(runs.TOP, "crates", "tapestry_node", "out", "tapestry_node")
HEAD = "tapestry-journal 1 "
MARK = b"tapestry1"
MOST_BYTES = 32_768
PIPE = 60_000
STARTS = ("join", "publish", "withdraw", "find", "cast", "leave", "abandon")
STATUS = ("status", "links", "holders", "pairs", "sessions", "span", "awaits")


class Ended(Exception):
    """The process of a node has ended: with this status, or by a signal if it is negative."""

    def __init__(self, status):
        super().__init__(f"tapestry_node ended with status {status}")
        self.status = status


def program_of(given):
    """The path of tapestry_node: the one that is given, or that TAPESTRY_NODE names, or that a build leaves."""
    path = os.path.abspath(given or os.environ.get("TAPESTRY_NODE") or DEFAULT)
    if not os.path.isfile(path) or not os.access(path, os.X_OK):
        raise runs.Wrong(f"there is no program {path}: the gate leaves one in crates/tapestry_node/out, and TAPESTRY_NODE may name another")
    return path


class Settings:
    """The settings of an overlay."""

    def __init__(self, base, digits, width):
        self.base, self.digits, self.width = base, digits, width

    def words(self, name):
        """The words of the process of a node."""
        return ["--base", str(self.base), "--digits", str(self.digits), "--width", str(self.width), "--name", name]

    def is_name(self, text):
        return len(text) == self.digits and all(digit in runs.DIGITS[: self.base] for digit in text)


def settings_in(words):
    """The settings and the name that the words of a process say."""
    values = dict(zip(words[::2], words[1::2]))
    return Settings(*(int(values[f"--{key}"]) for key in ("base", "digits", "width"))), values["--name"]


# ---- the process


class Process:
    """The process of a node. After each line its status is asked for, so that the end of what came of the line is known."""

    def __init__(self, program, words):
        self.status = {}
        self.child = subprocess.Popen([program, *words], stdin=subprocess.PIPE, stdout=subprocess.PIPE, start_new_session=True)

    def hand_in(self, lines):
        """Hands lines in, and answers for each the lines that came of it; of a refusal without the number of the line.

        They are no more than the pipe takes, so that neither side waits for the other. Without lines the status alone is asked.
        """
        try:
            self.child.stdin.write("".join(f"{line}\nstatus\n" for line in lines).encode("ascii") or b"status\n")
            self.child.stdin.flush()
        except BrokenPipeError:
            raise Ended(self.child.wait()) from None
        return [self.read_answer() for _ in lines or [None]]

    def read_answer(self):
        """What came of a line: all up to the status."""
        answer = []
        while True:
            words = self.read()
            if words[0] in STATUS:
                self.status[words[0]] = words[1]
                if words[0] == STATUS[-1]:
                    return answer
            else:
                answer.append(" ".join(words[:1] + words[2:] if words[0] == "refused" else words))

    def read(self):
        """The words of the next line that the process writes."""
        line = self.child.stdout.readline()
        if not line.endswith(b"\n"):
            raise Ended(self.child.wait())
        return line[:-1].decode("ascii", "replace").split(" ")

    def kill(self):
        self.child.kill()
        self.child.wait()

    def end(self):
        """Ends the input of the process, and waits for it."""
        for pipe in (self.child.stdin, self.child.stdout):
            try:
                pipe.close()
            except OSError:
                pass
        try:
            self.child.wait(5)
        except subprocess.TimeoutExpired:
            self.kill()


# ---- the journal


class Journal:
    """A file with what a node has read and written.

    Its first line has the words of the process. A line that was handed in begins with '< ', and one that came of it with '> ' and the number of that
    line among those handed in, from 1; of a tick none is kept. '= period P' begins a period (tools/replay.py). A line is there as a whole before it
    is handed in; a last one that was cut off is dropped.
    """

    def __init__(self, path, words):
        self.path = path
        self.file = open(path, "a+b")
        try:
            fcntl.flock(self.file, fcntl.LOCK_EX | fcntl.LOCK_NB)
        except OSError:
            raise runs.Wrong(f"{path}: another process has this journal") from None
        self.file.seek(0)
        text, head = self.file.read(), f"{HEAD}{' '.join(words)}\n".encode("ascii")
        if not text.startswith(head[: len(text)]):
            raise runs.Wrong(f"{path}: this is no journal of this node: its first line isn't '{head[:-1].decode('ascii')}'")
        whole = text[: text.rfind(b"\n") + 1]
        self.entries, self.period = entries_of(whole.decode("ascii", "replace"), path)
        self.file.truncate(len(whole))
        if not whole:
            self.file.write(head)
            self.file.flush()

    def write(self, *lines):
        self.file.write("".join(line + "\n" for line in lines).encode("ascii"))
        self.file.flush()

    def close(self):
        self.file.close()


class Entry:
    """A line that was handed in, what came of it, and its period."""

    def __init__(self, line, period):
        self.line, self.period, self.answer = line, period, []


def entries_of(text, path):
    """The entries of a journal, and the period in the end."""
    found, period = [], 0
    for number, line in enumerate(text.split("\n")[1:-1], 2):
        kind, rest = line[:2], line[2:]
        of_which, _, answer = rest.partition(" ")
        if kind == "< ":
            found.append(Entry(rest, period))
        elif kind == "> " and of_which.isdigit() and 0 < int(of_which) <= len(found):
            found[int(of_which) - 1].answer.append(answer)
        elif kind == "= " and of_which == "period" and answer.isdigit():
            period = int(answer)
        else:
            raise runs.Wrong(f"{path}: line {number} is none of a journal")
    return found, period


# ---- the node


class Tally:
    """What the lines of a node come to: how many there are, its starts, and the frames that it has sent and taken."""

    def __init__(self):
        self.lines = self.starts = self.sent = 0
        self.taken = set()

    def add(self, line, answer):
        """Counts a line and what came of it."""
        words = line.split(" ")
        self.lines += 1
        if words[0] in STARTS and "begun" in answer:
            self.starts += 1
        if words[0] != "tick":
            self.sent += sum(out.startswith("packet ") for out in answer)
        if words[0] == "packet" and any(out.startswith("ack ") for out in answer):
            self.taken.add((words[1], words[2]))


class Node:
    """A node: its process, and its journal if there is a path for one."""

    def __init__(self, program, settings, name, members=(), path=None):
        self.program, self.words, self.members, self.path = program, settings.words(name), members, path
        self.lives, self.period, self.journal, self.process, self.tally = 0, 0, None, None, None

    def begin(self):
        """Starts the process, and hands in what the journal has. The answer is what came beyond what the journal has."""
        self.end()
        self.lives += 1
        self.tally, left = Tally(), []
        self.process = Process(self.program, self.words)
        if self.path is not None:
            self.journal = Journal(self.path, self.words)
            self.period = self.journal.period
            left = self.hand_in_again(self.journal.entries)
        if self.members and self.tally.lines == 0:
            left = self.hand_in("members " + " ".join(self.members))
        return left

    def hand_in_again(self, entries):
        """Hands in the lines of the journal. Beyond what came of them before only the last ones may give something."""
        left = []
        for entry in entries:
            answer, = self.process.hand_in([entry.line])
            self.tally.add(entry.line, answer)
            if entry.line == "tick":
                continue
            if answer[: len(entry.answer)] != entry.answer or (left and entry.answer):
                raise runs.Wrong(f"{self.path}: the program doesn't answer '{entry.line[:60]}' as it did: was it another one?")
            left += answer[len(entry.answer):]
            self.keep(self.tally.lines, answer[len(entry.answer):])
        return left

    def hand_in(self, *lines):
        """Writes lines to the journal, hands them in, and answers what came of them. A process that was killed is started again."""
        given = []
        for some in portions(lines):
            self.write(*(f"< {line}" for line in some))
            try:
                answers = self.process.hand_in(some)
            except Ended as ended:
                given += self.begin_again(ended)
                continue
            for line, answer in zip(some, answers):
                self.tally.add(line, answer)
                self.keep(self.tally.lines, answer if line != "tick" else [])
                given += answer
        return given

    def keep(self, number, answer):
        """Writes what came of a line to the journal."""
        self.write(*(f"> {number} {out}" for out in answer))

    def write(self, *lines):
        if self.journal is not None and lines:
            self.journal.write(*lines)

    def begin_again(self, ended):
        """Starts a process anew that was killed. One that has ended by itself, or that has no journal, isn't."""
        if ended.status >= 0 or self.journal is None:
            raise ended
        return self.begin()

    def set_period(self, period):
        """Begins a period, once."""
        if period != self.period:
            self.period = period
            self.write(f"= period {period}")

    def ask(self):
        """Asks the process for its status, which goes to no journal. The answer is what came if it had to be started again."""
        try:
            self.process.hand_in([])
            return []
        except Ended as ended:
            return self.begin_again(ended)

    def status(self):
        """What the process has said of the node, by the words of its seven lines."""
        return self.process.status

    def awaits(self):
        """How many frames await their acknowledgement."""
        return int(self.process.status.get("awaits", "0"))

    def end(self):
        if self.process is not None:
            self.process.end()
        if self.journal is not None:
            self.journal.close()
        self.process = self.journal = None


def portions(lines):
    """The lines in lists of no more than a pipe takes."""
    found, size = [[]], 0
    for line in lines:
        if found[-1] and size + len(line) + len("\nstatus\n") > PIPE:
            found.append([])
            size = 0
        found[-1].append(line)
        size += len(line) + len("\nstatus\n")
    return found if lines else []


# ---- datagrams


def datagram(text):
    """A text as a datagram: a mark, the CRC-32 of the text in hexadecimal, and the text."""
    data = text.encode("ascii")
    return b"%s %08x %s" % (MARK, zlib.crc32(data), data)


def text_of(data):
    """The text of a datagram, or None if it is damaged."""
    parts = data.split(b" ", 2)
    if len(parts) != 3 or parts[0] != MARK or parts[1] != b"%08x" % zlib.crc32(parts[2]):
        return None
    text = parts[2].decode("ascii", "replace")
    return text if is_plain(text) else None


def is_plain(text):
    """Whether a text may be a line for the process: it is ASCII, has no line feed or other control character, and isn't too long."""
    return text.isascii() and text.isprintable() and len(text) <= MOST_BYTES


class Chance:
    """Which datagrams are lost and repeated, of a hundred each, and by how many milliseconds at most each is late; drawn from a seed."""

    def __init__(self, lose, repeat, delay, seed):
        self.lose, self.repeat, self.delay, self.chance = lose, repeat, delay, random.Random(seed)

    def copies(self):
        """For each copy of the next datagram by how many seconds it is late: none if it is lost."""
        if self.chance.random() * 100 < self.lose:
            return []
        count = 2 if self.chance.random() * 100 < self.repeat else 1
        return [self.chance.random() * self.delay / 1000 for _ in range(count)]


# ---- the steps of a journal


def start_text(name, words):
    """A start of a node as a step of a scenario; a lookup and a cast with their numbers."""
    if words[0] == "join":
        return f"join {name} via {words[1]}"
    if words[0] in ("publish", "withdraw"):
        return f"{words[0]} {words[1]} at {name}"
    if words[0] == "find":
        return f"find {words[1]} {words[2]} from {name}"
    if words[0] == "cast":
        return f"cast {words[1]} {words[2]} to {name[: int(words[3])] or '*'} from {name}"
    return f"{words[0]} {name}"


def news_words(name, out):
    """News of a node, as the words of a record of a log."""
    words = out.split(" ")
    if words[0] in ("core", "gone"):
        return [words[0], name]
    return words + [name] if words[0] == "reached" else words


def step_of(name, entry, taken):
    """The step that an entry is, or None: if it was refused, or its frame was taken before."""
    words = entry.line.split(" ")
    if words[0] in STARTS and entry.answer[:1] == ["begun"]:
        return replay.Step(name, entry.period, start=start_text(name, words))
    key = (words[1], name, int(words[2])) if words[0] == "packet" else None
    if key is not None and key not in taken and entry.answer[:1] == [f"ack {words[1]} {words[2]}"]:
        taken.add(key)
        return replay.Step(name, entry.period, taken=key)
    return None


def steps_of(path):
    """The settings, the name, the members and the steps that a journal tells."""
    text = runs.contents(path)
    if not text.startswith(HEAD):
        raise runs.Wrong(f"{path}: this is no journal")
    settings, name = settings_in(text.split("\n", 1)[0][len(HEAD):].split(" "))
    members, steps, taken = [], [], set()
    for entry in entries_of(text, path)[0]:
        if entry.line.startswith("members "):
            members = entry.line.split(" ")[1:]
        step = step_of(name, entry, taken)
        if step is None:
            continue
        steps.append(step)
        for out in entry.answer:
            words = out.split(" ")
            if words[0] == "packet":
                step.sent.append(replay.Frame(name, words[1], int(words[2]), words[3]))
            elif words[0] in replay.NEWS:
                step.news.append(news_words(name, out))
    return settings, name, members, steps
