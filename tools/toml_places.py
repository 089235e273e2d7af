"""Reads a text of TOML 1.1 and keeps where each key and value stands, which no reader of the standard library does.

`read(text)` answers the table at the top, a dict of `Node`s by key, or raises `Wrong`, which says where the text is no TOML, and why.
The grammar and the rules are those of the library `toml` of the kit: keys have at most 80 parts, and values are nested at most 80 deep.
"""
import re

DEEPEST = 80
WHITE = " \t"
BLANK = re.compile(r"(?:[ \t\n]|\r\n|#[^\x00-\x08\x0a-\x1f\x7f]*)*")
BARE = re.compile(r"[A-Za-z0-9_-]+")
WORD = re.compile(r"[A-Za-z0-9_+.:-]+")
# A run of characters that stand for themselves, by delimiter and whether the string may have several lines.
PLAIN = {
    ('"', False): re.compile(r'[^"\\\x00-\x08\x0a-\x1f\x7f]+'), ("'", False): re.compile(r"[^'\x00-\x08\x0a-\x1f\x7f]+"),
    ('"', True): re.compile(r'[^"\\\x00-\x08\x0b-\x1f\x7f]+'), ("'", True): re.compile(r"[^'\x00-\x08\x0b-\x1f\x7f]+"),
}
ESCAPES = {"b": "\b", "e": "\x1b", "f": "\f", "n": "\n", "r": "\r", "t": "\t", '"': '"', "\\": "\\"}
HEX = {"x": 2, "u": 4, "U": 8}
DECIMAL = re.compile(r"[+-]?(?:0|[1-9](?:_?[0-9])*)")
PREFIXED = re.compile(r"0x[0-9A-Fa-f](?:_?[0-9A-Fa-f])*|0o[0-7](?:_?[0-7])*|0b[01](?:_?[01])*")
DIGITS = r"[0-9](?:_?[0-9])*"
FLOAT = re.compile(rf"[+-]?(?:0|[1-9](?:_?[0-9])*)(?:\.{DIGITS})?(?:[eE][+-]?{DIGITS})?|[+-]?(?:inf|nan)")
TIME = r"(?:[01][0-9]|2[0-3]):[0-5][0-9](?::(?:[0-5][0-9]|60)(?:\.[0-9]+)?)?"
DATE = re.compile(r"([0-9]{4})-(0[1-9]|1[0-2])-(0[1-9]|[12][0-9]|3[01])")
AFTER_DATE = re.compile(rf"(?:[Tt ]{TIME}(?:[Zz]|[+-](?:[01][0-9]|2[0-3]):[0-5][0-9])?)?")


class Wrong(Exception):
    """Where a text is no TOML, and why."""

    def __init__(self, at, why):
        super().__init__(why)
        self.at = at
        self.why = why


class Value:
    """A value: its kind in words, what it is, and where it begins. A string also keeps where each of its characters stands."""

    def __init__(self, kind, data, at, places=None):
        self.kind = kind
        self.data = data
        self.at = at
        self.places = places


class Node:
    """What a key holds: where the key stands, how it was made, and the value, the inner table or the tables of an array."""

    def __init__(self, at, made, holds):
        self.at = at
        self.made = made  # "value", "implicit", "dotted", "header" or "array"
        self.holds = holds

    def value(self):
        """The value that the node stands for."""
        if self.made == "value":
            return self.holds
        return Value("an array of tables" if self.made == "array" else "a table", self.holds, self.at)


def place(text, at):
    """The line and the column of a place in a text, both from 1."""
    start = text.rfind("\n", 0, at) + 1
    mark = start == 0 and text.startswith("\ufeff")
    return text.count("\n", 0, at) + 1, at - start + 1 - mark


def shown(text, most=60):
    """A text in quotes, without characters that a terminal may take for more than text, and not too long."""
    cut = text if len(text) <= most else text[: most - 2] + ".."
    return '"' + "".join(c if c.isprintable() else c.encode("unicode_escape").decode("ascii") for c in cut) + '"'


class Reader:
    """A text that is read from its front, with the place that has been reached."""

    def __init__(self, text):
        self.text = text
        self.at = 0

    def next(self, count=1):
        return self.text[self.at : self.at + count]

    def skip_white(self):
        while self.next() and self.next() in WHITE:
            self.at += 1

    def skip_blank(self):
        self.at = BLANK.match(self.text, self.at).end()

    def is_newline(self):
        return self.next() == "\n" or self.next(2) == "\r\n"

    def what_stands(self):
        """What stands at this place, in words."""
        if not self.next():
            return "the text ends"
        if self.is_newline():
            return "the line ends"
        return f"{shown(self.next())} stands here"

    # ---- strings

    def escape(self, start, multi):
        """What a backslash and the characters after it stand for."""
        self.at += 1
        mark = self.at
        if multi:
            self.skip_white()
            if self.is_newline():
                self.at = re.compile(r"(?:[ \t\n]|\r\n)*").match(self.text, self.at).end()
                return ""
            self.at = mark
        letter = self.next()
        if letter in HEX:
            digits = self.text[mark + 1 : mark + 1 + HEX[letter]]
            if len(digits) == HEX[letter] and re.fullmatch(r"[0-9A-Fa-f]+", digits):
                code = int(digits, 16)
                if code < 0xD800 or 0xE000 <= code <= 0x10FFFF:
                    self.at = mark + 1 + len(digits)
                    return chr(code)
            raise Wrong(start, f'an escape "\\{letter}" has {HEX[letter]} hexadecimal digits after it, which name a character')
        if letter == "" or letter not in ESCAPES:
            named = shown("\\" + letter) if letter and not self.is_newline() else "a backslash at the end of the line"
            raise Wrong(start, f"{named} is no escape in a string; a backslash itself is written as two")
        self.at += 1
        return ESCAPES[letter]

    def at_delimiters(self, delim):
        """At delimiters in a string of several lines: whether it ends here. Two of them at most are text before the last three."""
        count = len(re.compile(f"{delim}*").match(self.text, self.at).group())
        if count == 3:
            self.at += 3
            return True
        if count > 5:
            raise Wrong(self.at, "too many quotes stand at the end of a string")
        return False

    def string(self, may_be_long):
        """A string, at its first quote."""
        begin, delim = self.at, self.next()
        multi = may_be_long and self.next(3) == delim * 3
        self.at += 3 if multi else 1
        if multi and self.is_newline():
            self.at += 1 if self.next() == "\n" else 2
        letters, places = [], []
        while True:
            plain = PLAIN[delim, multi].match(self.text, self.at)
            if plain:
                letters.append(plain.group())
                places.extend(range(plain.start(), plain.end()))
                self.at = plain.end()
                continue
            start, one = self.at, self.next()
            if one == delim:
                if not multi:
                    self.at += 1
                    break
                if self.at_delimiters(delim):
                    break
                self.at += 1
                letters.append(one)
                places.append(start)
            elif one == "\\" and delim == '"':
                letters.append(self.escape(start, multi))
                places.extend([start] * len(letters[-1]))
            elif multi and self.is_newline():
                self.at += 1
                letters.append(one)
                places.append(start)
            elif one == "" or not multi and one in "\r\n":
                raise Wrong(begin, "this string isn't closed" + ("" if multi else " on its line"))
            else:
                raise Wrong(start, f"a string has no control character such as {shown(one)}")
        return Value("a string", "".join(letters), begin, places)

    # ---- keys

    def key(self):
        """A key: its parts, with the place of each, and the white space after it."""
        parts = []
        while True:
            start = self.at
            if self.next() and self.next() in "\"'":
                parts.append((self.string(False).data, start))
            else:
                bare = BARE.match(self.text, self.at)
                if not bare:
                    raise Wrong(start, f"a key is wanted, and {self.what_stands()}")
                parts.append((bare.group(), start))
                self.at = bare.end()
            if len(parts) > DEEPEST:
                raise Wrong(start, f"a key has at most {DEEPEST} parts")
            self.skip_white()
            if self.next() != ".":
                return parts
            self.at += 1
            self.skip_white()

    def pair(self, depth):
        """A key with its value."""
        key = self.key()
        if self.next() != "=":
            raise Wrong(self.at, f'"=" is wanted after the key {shown(key[-1][0])}, and {self.what_stands()}')
        self.at += 1
        self.skip_white()
        return key, self.value(depth, f"a value is wanted after the key {shown(key[-1][0])}")

    # ---- values

    def value(self, depth, wanted):
        """A value, with arrays and inline tables at most so deep."""
        start, one = self.at, self.next()
        if one and one in "[{" and depth == 0:
            raise Wrong(start, f"a value is nested more than {DEEPEST} deep")
        if one == "[":
            return self.array(depth)
        if one == "{":
            return self.inline_table(depth)
        if one and one in "\"'":
            return self.string(True)
        word = self.word()
        if not word:
            raise Wrong(start, f"{wanted}, and {self.what_stands()}")
        kind, data = scalar(word, start)
        self.at += len(word)
        return Value(kind, data, start)

    def word(self):
        """The characters of a number, a truth value or a date. A space before a digit joins a date and a time."""
        found = WORD.match(self.text, self.at)
        if not found:
            return ""
        end = found.end()
        if re.compile(r" [0-9]").match(self.text, end):
            end = WORD.match(self.text, end + 1).end()
        return self.text[self.at : end]

    def after_element(self, closing, start, what):
        """Goes past a comma, or stays at the closing bracket."""
        self.skip_blank()
        if self.next() == ",":
            self.at += 1
        elif not self.next():
            raise Wrong(start, f"this {what} isn't closed")
        elif self.next() != closing:
            raise Wrong(self.at, f'a comma or "{closing}" is wanted in this {what}, and {self.what_stands()}')

    def array(self, depth):
        start, items = self.at, []
        self.at += 1
        while True:
            self.skip_blank()
            if self.next() == "]":
                self.at += 1
                return Value("an array", items, start)
            if not self.next():
                raise Wrong(start, "this array isn't closed")
            items.append(self.value(depth - 1, "a value is wanted in this array"))
            self.after_element("]", start, "array")

    def inline_table(self, depth):
        start, nodes = self.at, {}
        self.at += 1
        while True:
            self.skip_blank()
            if self.next() == "}":
                self.at += 1
                return Value("a table", nodes, start)
            if not self.next():
                raise Wrong(start, "this table isn't closed")
            key, value = self.pair(depth - 1)
            put(nodes, key, value, self.text)
            self.after_element("}", start, "table")

    # ---- lines

    def header(self, brackets):
        """The key of a line in brackets."""
        self.at += brackets
        self.skip_white()
        key = self.key()
        if self.next(brackets) != "]" * brackets:
            raise Wrong(self.at, f'"{"]" * brackets}" is wanted after the name of a table, and {self.what_stands()}')
        self.at += brackets
        return key

    def end_line(self):
        self.skip_white()
        if not (self.next() in ("", "#", "\r") or self.is_newline()):
            raise Wrong(self.at, f"a line goes on after its value, where {shown(self.next())} stands")


def is_day(year, month, day):
    """Whether a month has this day."""
    leap = year % 4 == 0 and (year % 100 != 0 or year % 400 == 0)
    return day <= (29 if leap else 28) if month == 2 else day <= (30 if month in (4, 6, 9, 11) else 31)


def is_date(word):
    """Whether a word is a date, a time or both."""
    if word[2:3] == ":":
        return re.fullmatch(TIME, word) is not None
    date = DATE.match(word)
    return bool(date) and is_day(*map(int, date.groups())) and AFTER_DATE.fullmatch(word, date.end()) is not None


def scalar(word, at):
    """The kind and the value of a word."""
    if word in ("true", "false"):
        return f"the truth value {word}", word == "true"
    if re.match(r"[0-9]+[-:]", word):
        if is_date(word):
            return "a date or a time", word
        raise Wrong(at, f"{shown(word)} is no date and no time; a text stands in quotes")
    if DECIMAL.fullmatch(word):
        digits = word.replace("_", "")
        if len(digits) <= 20 and -(2**63) <= int(digits) < 2**63:
            return "a whole number", int(digits)
        raise Wrong(at, f"the number {shown(word)} is too large: a whole number has at most 64 bits")
    if PREFIXED.fullmatch(word):
        number = int(word.replace("_", ""), 0)
        if number < 2**63:
            return "a whole number", number
        raise Wrong(at, f"the number {shown(word)} is too large: a whole number has at most 64 bits")
    if FLOAT.fullmatch(word):
        number = float(word.replace("_", ""))
        if "inf" in word or number not in (float("inf"), float("-inf")):
            return "a number with a point or an exponent", number
        raise Wrong(at, f"the number {shown(word)} is too large")
    if re.fullmatch(r"[+-]?0[0-9]+", word):
        raise Wrong(at, f"the number {shown(word)} has a leading zero; a name stands in quotes")
    raise Wrong(at, f"{shown(word)} is no number, date or truth value; a text stands in quotes")


# ---- how keys define tables


def twice(part, node, text):
    return Wrong(part[1], f"the key {shown(part[0])} stands twice: line {place(text, node.at)[0]} has it too")


def no_table(part, node, text):
    return Wrong(part[1], f"{shown(part[0])} is {node.value().kind} (line {place(text, node.at)[0]}), to which no further key is added here")


def along_header(nodes, path, text):
    """The table at the end of a path of a header, which makes what is missing."""
    for part in path:
        node = nodes.setdefault(part[0], Node(part[1], "implicit", {}))
        if node.made == "value":
            raise no_table(part, node, text)
        nodes = node.holds[-1] if node.made == "array" else node.holds
    return nodes


def along_dots(nodes, path, text):
    """The table at the end of a path of a dotted key, which makes what is missing. It passes through no table of a header."""
    for part in path:
        node = nodes.setdefault(part[0], Node(part[1], "dotted", {}))
        if node.made not in ("implicit", "dotted"):
            raise no_table(part, node, text)
        node.made = "dotted"
        nodes = node.holds
    return nodes


def put(nodes, key, value, text):
    """Adds a key with its value."""
    inner = along_dots(nodes, key[:-1], text)
    name, at = key[-1]
    if name in inner:
        raise twice(key[-1], inner[name], text)
    inner[name] = Node(at, "value", value)


def put_header(nodes, key, is_array, text):
    """Opens the table of a header."""
    inner = along_header(nodes, key[:-1], text)
    name, at = key[-1]
    found = inner.get(name)
    if found is None:
        inner[name] = Node(at, "array", [{}]) if is_array else Node(at, "header", {})
    elif is_array and found.made == "array":
        found.holds.append({})
    elif not is_array and found.made == "implicit":
        found.made = "header"
    else:
        raise twice(key[-1], found, text)


def read(text):
    """The table at the top of a text."""
    reader, nodes, header = Reader(text), {}, []
    if text.startswith("\ufeff"):
        reader.at = 1
    while True:
        reader.skip_blank()
        if not reader.next():
            return nodes
        if reader.next() == "[":
            brackets = 2 if reader.next(2) == "[[" else 1
            header = reader.header(brackets)
            reader.end_line()
            put_header(nodes, header, brackets == 2, text)
        else:
            key, value = reader.pair(DEEPEST)
            reader.end_line()
            put(along_header(nodes, header, text), key, value, text)
