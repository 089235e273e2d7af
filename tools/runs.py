"""What the tools share: they run the program, read scenarios and the long texts of runs, and say what is wrong, by this module.

A tool's `main` is called by `call`, which turns each `Wrong` and each file that can't be read into one line on standard error. `log_of` reads
a long text, or runs the program on a scenario; a `Log` has its frames, its packets and its groups, as docs/FORMATS.md, "Groups and
moments", has them, and a `Course` says of each moment who joins, is core, leaves or is gone. `read_scenario` reads a scenario, and a
`Scenario` is written by `text`.
"""
import argparse
import math
import os
import re
import subprocess
import sys
import tempfile
import time

import toml_places

TOP = os.path.dirname(os.path.dirname(os.path.abspath(__file__)))
DEFAULT = os.path.join(TOP, "crates", "tapestry", "out", "tapestry")
SECONDS = 120
DIGITS = "0123456789abcdef"
MOST_STEPS, MOST_NAMES, MOST_MEMBERS = 10_000, 256, 64
KEYS = ["base", "digits", "width", "frames", "carrier", "members", "steps"]
# Each kind of step: its forms, in which capital letters stand for names and numbers as in docs/FORMATS.md.
FORMS = {
    "walk": ["walk O from A"], "root": ["root O"], "table": ["table A"], "join": ["join N via G"], "leave": ["leave N"],
    "abandon": ["abandon N"], "publish": ["publish O at S"], "withdraw": ["withdraw O at S"], "find": ["find O from A"],
    "pointers": ["pointers A"], "cast": ["cast W to P from A"], "deliver": ["deliver K"],
    "settle": ["settle", "settle newest", "settle mixed X"], "garble": ["garble K I V"], "cut": ["cut K M"],
    "tick": ["tick"], "lose": ["lose K"], "repeat": ["repeat K"], "rootset": ["rootset O from A"],
    "scatter": ["scatter O at S"], "gather": ["gather O at S"], "findall": ["findall O from A"],
}
NAMES = "NGASO"
KINDS = ["seek", "tell", "hello", "heard", "ack", "done", "release", "link", "lay", "find", "answer", "leave", "left", "gone", "forget", "cast",
         "castack"]
STARTS = ["join", "abandon", "publish", "withdraw", "find", "leave", "cast"]
# Where docs/PROTOCOL.md speaks of each kind of step.
STEP_HEADINGS = {"join": "The start of a join", "abandon": "Giving a join up", "publish": "Publication and withdrawal",
                 "withdraw": "Publication and withdrawal", "find": "Find", "leave": "The start of a departure", "cast": "Cast", "walk": "Walks",
                 "root": "Roots", "table": "Slots and tables", "pointers": "Pointers", "rootset": "Salted names", "scatter": "Salted names",
                 "gather": "Salted names", "findall": "Salted names", "tick": "Packets", "lose": "Packets",
                 "repeat": "Packets", "garble": "Refused frames", "cut": "Refused frames"}
STATUSES = ["joining", "core", "leaving", "ceased", "gone"]
# Each record of a log: how many words its line has at least.
RECORDS = {
    "step": 3, "walked": 9, "rooted": 4, "table": 5, "link": 5, "pointers": 4, "pointer": 3, "refused": 4, "sent": 6, "taken": 2, "core": 2,
    "gone": 2, "abandoned": 2, "published": 4, "withdrawn": 4, "asked": 5, "answered": 3, "garbled": 4, "packet": 4, "arrived": 2, "lost": 2,
    "ticked": 1, "rootset": 9, "cast": 7, "reached": 3, "closed": 2, "spent": 2, "done": 2,
}

# The word of a line that is a number, in records that aren't read further here.
NUMBERS = {"walked": -1, "table": 4, "link": 1, "pointers": 3, "asked": 1, "answered": 1, "garbled": 1, "cast": 1, "reached": 1, "closed": 1,
           "spent": 1}


class Wrong(Exception):
    """What is wrong, in a line, and the exit status that comes of it."""

    def __init__(self, why, status=2):
        super().__init__(why)
        self.status = status


def call(name, main):
    """Runs the main function of a tool, says what is wrong, and ends with its status."""
    try:
        if sys.stdout is None:
            raise Wrong("standard output is closed")
        try:
            status = main()
        finally:
            sys.stdout.flush()
    except Wrong as wrong:
        print(f"{name}: {wrong}", file=sys.stderr)
        status = wrong.status
    except BrokenPipeError:
        os.dup2(os.open(os.devnull, os.O_WRONLY), sys.stdout.fileno())
        status = 2
    except UnicodeError as error:
        print(f"{name}: {'what was read' if isinstance(error, UnicodeDecodeError) else 'a word'} isn't UTF-8", file=sys.stderr)
        status = 2
    except OSError as error:
        print(f"{name}: " + (f"{error.filename}: {error.strerror}" if error.filename else str(error)), file=sys.stderr)
        status = 2
    except KeyboardInterrupt:
        status = 130
    sys.exit(status)


def words_for(page):
    """A reader of the words of a tool, with its head comment as its help, and the option that names the program."""
    words = argparse.ArgumentParser(description=page, formatter_class=argparse.RawDescriptionHelpFormatter)
    words.add_argument("--program", metavar="PROGRAM", help="the program; else the one that TAPESTRY names, or that 'rt run' has left")
    return words


class Progress:
    """A line on standard error of how far a tool has come, from the third second on. The tool is the one that was called, if none is named."""

    def __init__(self, name=None):
        self.name = name or os.path.basename(sys.argv[0])
        self.next = time.monotonic() + 2
        self.is_shown = False

    def show(self, how_far):
        """Says how far; how_far makes the text, and is called only if it is shown."""
        now = time.monotonic()
        if now < self.next:
            return
        on_terminal = sys.stderr.isatty()
        self.next = now + (0.5 if on_terminal else 10)
        self.is_shown = on_terminal
        print(f"{self.name}: {how_far()}", end="\x1b[K\r" if on_terminal else "\n", file=sys.stderr, flush=True)

    def watch(self, child, how_far, seconds=math.inf):
        """What a process prints, on standard output and on standard error; how far is said until it ends. After so many seconds it is ended."""
        end = time.monotonic() + seconds
        while True:
            try:
                return child.communicate(timeout=min(0.5, max(0, end - time.monotonic())))
            except subprocess.TimeoutExpired:
                if time.monotonic() >= end:
                    child.kill()
                    child.communicate()
                    raise
                self.show(how_far)

    def end(self):
        if self.is_shown:
            print("\x1b[K", end="\r", file=sys.stderr, flush=True)


# ---- the pages


def table_of_page(page, beginning):
    """The rows of the table of a page of docs/ whose head begins so, as lists of cells."""
    text = contents(os.path.join(TOP, "docs", page))
    if beginning not in text:
        raise Wrong(f"docs/{page} has no table that begins with '{beginning}'")
    table = text.split(beginning, 1)[1].split("\n\n", 1)[0]
    return [[cell.strip() for cell in row.strip("|").split("|")] for row in table.split("\n")[2:]]


def section_of(heading):
    """The text below a heading of docs/PROTOCOL.md, without tables and pictures, a line for each paragraph; nothing if there is none."""
    for section in re.split(r"\n#+ ", "\n" + contents(os.path.join(TOP, "docs", "PROTOCOL.md"))):
        title, _, text = section.partition("\n")
        if title == heading:
            paragraphs = [part for part in text.strip().split("\n\n") if not part.startswith(("|", "!["))]
            return "\n\n".join(re.sub(r"\s*\n\s*(?![-*|\d])", " ", part) for part in paragraphs)
    return ""


# ---- the program


def program_of(given):
    """The path of the program: the one that is given, or that TAPESTRY names, or that a build leaves."""
    path = os.path.abspath(given or os.environ.get("TAPESTRY") or DEFAULT)
    if not os.path.isfile(path) or not os.access(path, os.X_OK):
        raise Wrong(f"there is no program {path}: 'rt run <stdin' in crates/tapestry makes one, and TAPESTRY may name another")
    return path


def play(program, text, words=()):
    """The exit status of the program and what it prints for a scenario."""
    progress = Progress()
    with tempfile.TemporaryFile() as given:
        given.write(text if isinstance(text, bytes) else text.encode("utf-8"))
        given.seek(0)
        try:
            with subprocess.Popen([program, *words], stdin=given, stdout=subprocess.PIPE) as child:
                printed, _ = progress.watch(child, lambda: "the program runs", SECONDS)
        except subprocess.TimeoutExpired:
            raise Wrong(f"the program hasn't ended after {SECONDS} seconds") from None
    progress.end()
    return child.returncode, printed.decode("utf-8", "replace")


def raw_contents(path):
    """The bytes of a file; of standard input if the path is '-'."""
    if path == "-":
        if sys.stdin is None:
            raise Wrong("standard input is closed")
        return sys.stdin.buffer.read()
    with open(path, "rb") as file:
        return file.read()


def decoded(data, path):
    """The text that the bytes of a file are."""
    try:
        return data.decode("utf-8")
    except UnicodeDecodeError:
        raise Wrong(f"{path}: this isn't UTF-8") from None


def contents(path):
    return decoded(raw_contents(path), path)


def count(number, noun):
    return f"{number:,} {noun}" + ("" if number == 1 else "s")


def write_out(path, text):
    """Writes a text to a file, or to standard output if there is no path."""
    if path is None or path == "-":
        sys.stdout.write(text)
        return
    with open(path, "w", encoding="utf-8", newline="") as file:
        file.write(text)


def log_of(path, program):
    """The log of a file, which is the long text of a run, or a scenario that the program is run on."""
    text = raw_contents(path)
    if not text.strip():
        raise Wrong(f"{path}: the text is empty", 1)
    if not text.startswith((b"begin ", b"tapestry: ")):
        return Log(play(program_of(program), text)[1], path)
    return Log(decoded(text, path), path)


# ---- scenarios


class Scenario:
    """A scenario: its settings, members and steps, as they are written."""

    def __init__(self, base, digits, width, members, steps, frames=None, carrier=False):
        self.base, self.digits, self.width, self.frames, self.carrier = base, digits, width, frames, carrier
        self.members, self.steps = list(members), list(steps)

    def changed(self, **values):
        """A copy with other values."""
        return Scenario(**{**vars(self), **values})

    def text(self, comment=""):
        """The text of the scenario, after lines of comment."""
        lines = [f"# {line}".rstrip() for line in comment.splitlines()]
        lines += [f"base = {self.base}", f"digits = {self.digits}", f"width = {self.width}"]
        lines += [f"frames = {self.frames}"] if self.frames is not None else []
        lines += ["carrier = true"] if self.carrier else []
        lines.append("members = [" + ", ".join(f'"{name}"' for name in self.members) + "]")
        steps = ", ".join(f'"{step}"' for step in self.steps)
        if len(steps) > 120:
            steps = "\n" + "".join(f'    "{step}",\n' for step in self.steps)
        return "\n".join(lines) + f"\nsteps = [{steps}]\n"


def read_scenario(path):
    """The scenario of a file. Its keys and the kinds of their values are looked at: the program says what else is wrong."""
    text = contents(path)
    try:
        table = toml_places.read(text)
        unknown = [(toml_places.shown(key), node.at) for key, node in table.items() if key not in KEYS]
        if unknown:
            raise toml_places.Wrong(unknown[0][1], f"a scenario has no key {unknown[0][0]}; it has {', '.join(KEYS)}")
        values = {key: node.value().data for key, node in table.items()}
        lists = {key: [item.data for item in values[key]] for key in ("members", "steps")}
        numbers = {key: values[key] for key in ("base", "digits", "width", "frames") if key in values or key != "frames"}
        carrier = values.get("carrier", False)
        if not all(type(number) is int for number in numbers.values()) or not isinstance(carrier, bool):
            raise TypeError
    except toml_places.Wrong as wrong:
        line, column = toml_places.place(text, wrong.at)
        raise Wrong(f"{path}: line {line}, column {column}: {wrong.why}") from None
    except (KeyError, TypeError, ValueError, AttributeError):
        raise Wrong(f"{path}: this is no scenario (docs/FORMATS.md): ./run says what is wrong with it") from None
    if not all(isinstance(item, str) for items in lists.values() for item in items):
        raise Wrong(f"{path}: members and steps are strings")
    return Scenario(**numbers, **lists, carrier=carrier)


def form_of(step):
    """The letters of the form that a step has, word by word, or None if it is no step: words in lower case stand for themselves."""
    words = step.split(" ")
    for form in FORMS.get(words[0], []):
        letters = form.split(" ")
        if len(letters) == len(words) and all(letter.isupper() or letter == word for letter, word in zip(letters, words)):
            return letters
    return None


def change_names(step, change, change_prefix):
    """A step with its names and the prefix of a cast changed."""
    letters = form_of(step) or []
    words = step.split(" ")
    for at, letter in enumerate(letters):
        if letter in NAMES and letter.isupper():
            words[at] = change(words[at])
        elif letter == "P" and words[at] != "*":
            words[at] = change_prefix(words[at]) or "*"
    return " ".join(words)


# ---- the long text


class Frame:
    """A frame: its number, kind, sender, receiver and bytes, and the groups in which it was sent and taken."""

    def __init__(self, number, kind, sender, receiver, spelling, sent):
        self.number, self.kind, self.sender, self.receiver, self.spelling = number, kind, sender, receiver, spelling
        self.sent, self.taken = sent, None


class Packet:
    """A packet of a frame: whether it acknowledges it, the groups in which it was made and ended, and how it ended."""

    def __init__(self, number, frame, ack, made):
        self.number, self.frame, self.ack, self.made = number, frame, ack, made
        self.ended, self.lost, self.again = None, False, False

    def ends(self):
        """From whom it comes, and to whom it goes."""
        frame = self.frame
        return (frame.receiver, frame.sender) if self.ack else (frame.sender, frame.receiver)


class Group:
    """A group of a log: its kind (begin, step, frame, packet or tick), the step that was run last, the frame or packet, and its records."""

    def __init__(self, number, kind, step, text, line):
        self.number, self.kind, self.step, self.text, self.line = number, kind, step, text, line
        self.frame = self.packet = self.refused = None
        self.records = []

    def is_accepted(self):
        """Whether a start was accepted."""
        return self.kind == "step" and self.refused is None and bool(self.records) and self.records[0][0] != "spent"

    def of_kind(self, kind):
        return [words for words in self.records if words[0] == kind]


class Log:
    """A long text that is read: the settings, the members, all frames and packets, and the groups, the beginning among them."""

    def __init__(self, text, name="the text"):
        self.name = name
        self.carried, self.ending = False, None
        self.members, self.frames, self.packets = [], [], []
        self.groups = [Group(0, "begin", 0, "", 1)]
        lines = text.split("\n")
        self.line = 0
        if lines[-1] == "":
            lines.pop()
        fault = next((line for line in lines if line.startswith("tapestry: ")), None)
        if fault is not None:
            raise Wrong(f"{name}: the run didn't end well: {fault}", 1)
        if not lines:
            raise Wrong(f"{name}: the text is empty", 1)
        progress = Progress()
        try:
            self.read_head(lines[0].split(" "))
            for self.line, line in enumerate(lines[1:], 2):
                if self.line % 4096 == 0:
                    progress.show(lambda: f"line {self.line:,} of {len(lines):,} is read")
                self.read(line.split(" "))
        except (ValueError, LookupError):
            raise Wrong(f"{name}: line {self.line or 1}: this isn't the long text of a run", 1) from None
        finally:
            progress.end()
        if not self.members:
            raise Wrong(f"{name}: no member is named: this isn't a long text, but a brief one or a summary", 1)

    def read_head(self, words):
        numbers = dict(zip(words[1::2], map(int, words[2::2])))
        if words[0] != "begin":
            raise ValueError
        self.base, self.digits, self.width, self.limit = (numbers[key] for key in ("base", "digits", "width", "frames"))

    def add_group(self, kind, step=None, text=None):
        last = self.groups[-1]
        group = Group(len(self.groups), kind, last.step if step is None else step, last.text if text is None else text, self.line)
        self.groups.append(group)
        return group

    def read(self, words):
        kind, group = words[0], self.groups[-1]
        if kind == "member" and group.number == 0:
            self.members.append(words[1])
        elif kind == "carrier" and group.number == 0:
            self.carried = True
        elif kind not in RECORDS or len(words) < RECORDS[kind] or not words[NUMBERS.get(kind, 0)].isdigit() == (kind in NUMBERS):
            raise ValueError
        elif kind == "step":
            if form_of(" ".join(words[2:])) is None:
                raise ValueError
            self.add_group("step", int(words[1]), " ".join(words[2:]))
        elif kind in ("done", "spent"):
            self.ending = words
            group.records += [words] if kind == "spent" else []
        else:
            self.read_outcome(kind, words)

    def read_outcome(self, kind, words):
        if kind == "arrived":
            self.arrive(self.packets[int(words[1])])
        elif kind == "ticked":
            self.add_group("tick")
        elif kind == "taken":
            group = self.groups[-1] if self.carried else self.add_group("frame")
            group.frame = self.frames[int(words[1])]
            if group.frame.taken is not None:
                raise ValueError
            group.frame.taken = group
        else:
            group = self.groups[-1]
            if group.number == 0:
                raise ValueError
            group.records.append(words)
            self.keep(kind, words, group)

    def arrive(self, packet):
        if packet.ended is not None:
            raise ValueError
        group = self.add_group("packet")
        group.packet, packet.ended = packet, group
        packet.again = not packet.ack and packet.frame.taken is not None

    def keep(self, kind, words, group):
        """Keeps a record that is a frame, a packet or a refusal."""
        if kind == "sent":
            if int(words[1]) != len(self.frames) or words[2] not in KINDS or bytes.fromhex(words[5])[:1] not in (b"\1", b"\2"):
                raise ValueError
            self.frames.append(Frame(int(words[1]), words[2], words[3], words[4], words[5], group))
        elif kind == "packet":
            if int(words[1]) != len(self.packets):
                raise ValueError
            self.packets.append(Packet(int(words[1]), self.frames[int(words[3])], words[2] == "ack", group))
        elif kind == "lost":
            packet = self.packets[int(words[1])]
            if packet.ended is not None:
                raise ValueError
            packet.ended, packet.lost = group, True
        elif kind == "refused":
            group.refused = (int(words[2]), " ".join(words[3:]))

    def steps(self):
        """The groups that begin with a step."""
        return [group for group in self.groups if group.kind == "step"]

    def names(self):
        """The nodes that were ever present, in the order in which they came."""
        return self.members + [group.text.split(" ")[1] for group in self.steps() if group.text.startswith("join ") and group.is_accepted()]


def table_of(group):
    """The table that a group prints: the node, its status and its links, or None."""
    for words in group.of_kind("table"):
        return words[1], words[2], [tuple(link[1:5]) for link in group.of_kind("link")]
    return None


def pointers_of(group):
    """The pointers that a group prints: the node and the pairs, or None."""
    for words in group.of_kind("pointers"):
        return words[1], [(pair[1], pair[2]) for pair in group.of_kind("pointer")]
    return None


class Course:
    """What a log says at a moment: the status of each node, the published pairs, and the frames that are outstanding."""

    def __init__(self, log):
        self.statuses = {name: "core" for name in log.members}
        self.abandoned, self.published, self.outstanding = set(), set(), {}

    def advance(self, group):
        """Goes on to the moment at the end of a group."""
        if group.is_accepted():
            self.start(group.text.split(" "))
        if group.frame is not None:
            self.outstanding.pop(group.frame.number, None)
        for words in group.records:
            self.record(words)

    def start(self, words):
        if words[0] == "join":
            self.statuses[words[1]] = "joining"
        elif words[0] == "leave":
            self.statuses[words[1]] = "leaving"
            self.published = {pair for pair in self.published if pair[1] != words[1]}

    def record(self, words):
        kind = words[0]
        if kind == "core":
            self.statuses[words[1]] = "core"
        elif kind == "gone":
            self.statuses[words[1]] = "ceased" if words[1] in self.abandoned else "gone"
        elif kind == "abandoned":
            self.abandoned.add(words[1])
        elif kind == "published":
            self.published.add((words[1], words[3]))
        elif kind == "withdrawn":
            self.published.discard((words[1], words[3]))
        elif kind == "sent":
            self.outstanding[int(words[1])] = words

    def with_status(self, *statuses):
        return [name for name, status in self.statuses.items() if status in statuses]


# ---- what a frame says


def short(name, most=11):
    """A long name, cut in the middle."""
    return name if len(name) <= most else name[: most - 5] + ".." + name[-3:]


class Bytes:
    """The bytes of a frame's body, taken from the front."""

    def __init__(self, log, spelling):
        self.digits = log.digits
        head = 4 if log.digits <= 8 else 5
        self.left = bytes.fromhex(spelling)[head + 2 * log.digits:]

    def take(self, count):
        taken, self.left = self.left[:count], self.left[count:]
        return taken

    def number(self, count):
        return int.from_bytes(self.take(count), "big")

    def name(self):
        return "".join(DIGITS[digit % 16] for digit in self.take(self.digits))


# Each kind of frame: its fields, by the letters n (a name), 1, 2 and 4 (a number of so many bytes); what is left has a function of its own.
FIELDS = {
    "seek": ["joiner n"], "tell": ["joiner n", "prefix 1", "level 1", "session 4", "depth 2", "watch w"], "hello": ["session 4", "core 1", "links l"],
    "heard": ["session 4"], "ack": ["session 4"], "castack": ["session 4"], "link": ["version 4", "on 1"],
    "lay": ["object n", "server n", "level 1", "version 4", "on 1"], "find": ["ticket 4", "object n", "asker n", "level 1"],
    "answer": ["ticket 4", "found 1", "server o"], "leave": ["given 1", "replacement o"],
    "cast": ["cast 4", "level 1", "session 4", "depth 2", "word t"],
}


def fields_of(log, frame):
    """The fields of a frame, by their names."""
    data, found = Bytes(log, frame.spelling), {}
    for field in FIELDS.get(frame.kind, []):
        name, sort = field.split(" ")
        if sort in "124":
            found[name] = data.number(int(sort))
        elif sort == "n":
            found[name] = data.name()
        elif sort == "o":
            found[name] = data.name() if data.left else None
        elif sort == "t":
            found[name] = data.take(len(data.left)).decode("ascii", "replace")
        elif sort == "w":
            found[name] = [(data.number(1), DIGITS[data.number(1) % 16]) for _ in range(len(data.left) // 2)]
        else:
            found[name] = [(data.name(), data.number(1)) for _ in range(len(data.left) // (log.digits + 1))]
    return found
