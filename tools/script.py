"""Reads scripts: lines of events, and of what is expected of their replies and of the devices.

    script = read_script("examples/01-hello.script")     ValueError, with all wrong lines, if it is none
    script.events, script.inputs, script.fail            what Events.run takes
    script.checks                                        for expectations.py

docs/BENCH.md has the language. A fault is named with the line and the column at hand.
"""
import re
import sys
from collections import namedtuple
from pathlib import Path

from expectations import Frames, Result
from pehvonk import Events, value_of
from sound import Sound, file_of
from wire import matched, near, put, shape_of

QUOTED = r'"(?:[^"\\\x00-\x1f]|\\["\\/bfnrt]|\\u[0-9a-fA-F]{4})*"'
PIECE = rf'(?:\[(?:[^\]"#]|{QUOTED})*\]|[^\s"#]|{QUOTED})'
TOKEN = re.compile(rf'\s+|#.*|(?P<name>\w+)=(?P<value>{PIECE}*)|(?P<bare>{PIECE}+)|(?P<quote>")')
MOST_TOLD = 10
MOST_EVENTS = 1_000_000

Word = namedtuple("Word", "name text column")
Step = namedtuple("Step", "line kind what times")
Check = namedtuple("Check", "line what places before")  # about the events at these places, and all that come before


class WrongScript(ValueError):
    """All wrong lines, at most ten, as NAME:LINE:COLUMN: and what is wrong."""


class Script:
    """What a script says: events, the devices' input, a device that fails, and checks."""

    def __init__(self, name, text, folder):
        self.name, self.folder = name, folder
        self.events, self.inputs, self.fail, self.fail_line = Events(), {}, None, None
        self.checks, self.lines = [], []  # lines: of each event
        self.wrong, self.line, self.column, self.asked = [], 0, 1, None
        self.blocks = [(None, [])]  # of each repeat that is open: how often, and its steps
        for number, line in enumerate(text.split("\n"), 1):
            self.line = number
            self.attempt(self.read_line, line)
        if len(self.blocks) > 1:
            self.wrong.append(f"{name}:{self.line}:1: a repeat isn't closed: }} is missing")
        if not self.wrong:
            self.column = 1
            self.attempt(self.make, self.blocks[0][1])
        if self.wrong:
            raise WrongScript("\n".join(self.wrong[:MOST_TOLD]))

    def attempt(self, do, *words):
        try:
            return do(*words)
        except ValueError as fault:
            self.wrong.append(f"{self.name}:{self.line}:{self.column}: {fault}")

    def read_line(self, line):
        """Reads one line: statements, which a { or a } ends."""
        words = []
        for match in TOKEN.finditer(line):
            self.column = match.start() + 1
            if match["quote"]:
                raise ValueError("no JSON string begins here")
            if match[0] in ("{", "}"):
                self.brace(match[0], words)
                words = []
            elif match["name"] and words:
                words.append(Word(match["name"], match["value"], self.column))
            elif match["name"] or match["bare"]:
                words.append(Word(None, match[0], self.column))
        self.statement(words)

    def brace(self, brace, words):
        if brace == "{":
            self.blocks.append((0, []))  # its } is met, also if this line is wrong
            if [word.text.lower() for word in words[:1]] != ["repeat"] or len(words) != 2:
                raise ValueError("a { comes behind repeat N alone")
            self.column = words[1].column
            self.blocks[-1] = int(matched("[0-9]+", words[1].text, "number")[0]), []
        else:
            self.statement(words)
            if len(self.blocks) == 1:
                raise ValueError("no repeat is open here")
            times, steps = self.blocks.pop()
            self.keep("repeat", steps, times)

    def keep(self, kind, what, times=1):
        self.blocks[-1][1].append(Step(self.line, kind, what, times))

    def statement(self, words):
        if not words:
            return
        first, self.column = words[0].text.lower(), words[0].column
        if first == "raw":
            self.asked = None
            self.keep("raw", b"".join(self.value("rest", word) for word in words[1:]))
        elif first == "expect":
            self.expect(words[1:])
        elif first == "repeat":
            raise ValueError("repeat N { .. } is repeat, a number, and { on the same line")
        elif first == "fail":
            self.set_fail(words[1:])
        elif first == "device" and any(word.name == "input" for word in words):
            self.set_input(words[1:])
        else:
            self.event(words)

    def value(self, type_name, word):
        """The value that a word spells for a field of an event."""
        self.column = word.column
        try:
            value = value_of(type_name, word.text)
            return value if callable(value) else put(type_name, value) and value
        except ValueError as fault:
            raise ValueError(f"{word.name}: {fault}" if word.name else str(fault))

    def event(self, words):
        shape = shape_of(words[0].text)
        self.asked = shape.name
        fields = {field.name: field for field in shape.fields if field.name != "code" or shape.code is None}
        given, bare = self.named(shape, fields, words[1:])
        needed = [name for name in fields if name not in given and not fields[name].optional
                  and not ("tag" in fields and name in ("conn", "tag"))]
        times = 1
        if len(bare) > len(needed) and re.fullmatch("x[0-9]+", bare[-1].text):
            times = int(bare.pop().text[1:])
        given.update(self.by_order(shape, fields, needed, bare, words[0].column))
        sound = self.sound(given) if "bytes" in given and "frames" in fields else None
        values = {name: self.value(fields[name].type, word) for name, word in given.items()}
        if sound:
            values["bytes"] = sound
        self.keep("event", (shape.name, values), times)

    def named(self, shape, fields, words):
        """The words that name their fields, by these; and the others."""
        given, bare = {}, []
        for word in self.made(fields, words):
            self.column = word.column
            if word.name is None:
                bare.append(word)
                continue
            if word.name not in fields and not ("bytes" in fields and word.name in ("channels", "from")):
                raise ValueError(f"{shape.name} takes no '{word.name}'{near(word.name, fields)}")
            if word.name in given:
                raise ValueError(f"{word.name} is given twice")
            given[word.name] = word
        return given, bare

    def made(self, fields, words):
        """The words, with format=RATExCHANNELS in place of rate= and channels=, and bytes=level=N for level=N."""
        by_name = {word.name: word for word in words}
        rate, channels, level = by_name.get("rate"), by_name.get("channels"), by_name.get("level")
        if rate and "format" in fields:
            made = Word("format", f"{rate.text}x{channels.text if channels else 2}", rate.column)
            return [made if word is rate else word for word in words if word is not channels]
        if level and "bytes" in fields:
            return [word._replace(name="bytes", text=f"level={word.text}") if word.name == "level" else word
                    for word in words]
        return words

    def by_order(self, shape, fields, needed, bare, column):
        """The words without a name, by the fields that are left. If there are too few, the first field is told that
        the next word doesn't fit."""
        if len(bare) > len(needed):
            self.column = bare[len(needed)].column
            raise ValueError(f"{shape.name} takes no '{bare[len(needed)].text}'")
        if len(bare) == len(needed):
            return {name: Word(name, word.text, word.column) for name, word in zip(needed, bare)}
        left = list(bare)
        for name in needed:
            if left and self.fits(fields[name].type, left[0]):
                left.pop(0)
            else:
                self.column = column
                raise ValueError(f"{name} is missing")

    def fits(self, type_name, word):
        try:
            return Sound.is_word(word.text) if type_name == "rest" else self.value(type_name, word) is not None
        except ValueError:
            return False

    def sound(self, given):
        """How the data of a ReleaseBuffer are made, if not in hex. Words that only say so are taken out."""
        word, extra = given["bytes"], {name: given.pop(name, None) for name in ("channels", "from")}
        if not Sound.is_made(word.text):
            for name in extra:
                if extra[name]:
                    self.column = extra[name].column
                    raise ValueError(f"ReleaseBuffer takes no '{name}' beside bytes in hex")
            return None
        numbers = {name: self.value("u32", Word(name, *extra[name][1:])) for name in extra if extra[name]}
        frames = self.value("u32", given["frames"]) if "frames" in given else 0
        self.column = word.column
        given["bytes"] = Word("bytes", "", word.column)
        return Sound(word.text, self.folder, frames, numbers.get("channels"), numbers.get("from"))

    def expect(self, words):
        """expect CODE field=value .., or expect frames endpoint=N from=N SOUND."""
        if [word.text for word in words[:1]] == ["frames"]:
            what = Frames(*self.numbers(words[1:], {"endpoint": None, "from": 0, "frames": None}), self.folder)
        elif not words or words[0].name:
            raise ValueError("expect what? A code such as S_OK, or frames")
        else:
            self.column = words[0].column
            what = Result(words[0].text)
            for word in words[1:]:
                self.column = word.column
                if not word.name or self.asked is None:
                    raise ValueError(f"'{word.text}' is no FIELD=VALUE of a reply to an event before it")
                what.add(self.asked, word.name, word.text, self.folder)
        if not any(steps for _, steps in self.blocks):
            raise ValueError("no event is before it")
        self.keep("expect", what)

    def numbers(self, words, wanted):
        """Numbers by their names, and the words that are left, by theirs."""
        found, others = dict(wanted), {}
        for word in words:
            self.column = word.column
            name = word.name or ("sound" if Sound.is_made(word.text) else None)
            if name in wanted:
                found[name] = self.value("u32", word)
            elif name in ("sound", "level", "gain"):
                others[name] = word.text
            else:
                known = [*wanted, "level", "gain", "ramp", "zeros"]
                raise ValueError(f"expect frames takes no '{word.name or word.text}'{near(name or word.text, known)}")
        if found["endpoint"] is None:
            raise ValueError("endpoint is missing")
        return found, others

    def set_fail(self, words):
        found = {"endpoint": None, "call": 1, "taken": 0}
        for word in words:
            self.column = word.column
            if word.name not in found:
                raise ValueError(f"fail takes no '{word.name or word.text}'{near(word.name or word.text, found)}")
            found[word.name] = self.value("u32", word)
        if found["endpoint"] is None:
            raise ValueError("endpoint is missing")
        if self.fail or len(self.blocks) > 1:
            raise ValueError("only one device can be made to fail, and not in a repeat")
        self.fail, self.fail_line = tuple(found.values()), self.line

    def set_input(self, words):
        if len(words) != 2 or words[0].name not in (None, "endpoint") or words[1].name != "input":
            raise ValueError("device N input=@FILE has an endpoint and a file")
        endpoint, self.column = self.value("u32", words[0]), words[1].column
        if not words[1].text.startswith("@") or endpoint in self.inputs:
            raise ValueError("the input of a device is one @FILE")
        self.inputs[endpoint] = str(file_of(words[1].text, self.folder))

    def make(self, steps):
        if count(steps) > MOST_EVENTS:
            raise ValueError(f"more than {MOST_EVENTS} events")
        self.expand(steps, {})

    def expand(self, steps, places):
        """Puts the steps into events and checks, a repeat as often as it says. `places` says how far files are read."""
        about = range(0)
        for step in steps:
            self.line = step.line
            if step.kind == "repeat":
                for _ in range(step.times):
                    about = self.expand(step.what, places) or about
            elif step.kind == "expect":
                before = len(self.events)
                self.checks.append(Check(step.line, step.what, about or range(before)[-1:], before))
            else:
                about = self.add(step, places)
        return about

    def add(self, step, places):
        begin = len(self.events)
        for _ in range(step.times):
            if step.kind == "raw":
                self.events.append(step.what)
            else:
                name, values = step.what
                bytes_ = values.get("bytes")
                read_on = {"bytes": bytes_.read_on(values["client"], places)} if isinstance(bytes_, Sound) else {}
                self.events.add(name, {**values, **read_on})
            self.lines.append(step.line)
        return range(begin, len(self.events))


def count(steps):
    return sum(step.times * (count(step.what) if step.kind == "repeat" else 1) for step in steps)


def read_script(name):
    """The script of a file, or of standard input if its name is -."""
    data = sys.stdin.buffer.read() if name == "-" else Path(name).read_bytes()
    return Script(name, data.decode("utf-8", "surrogateescape"), Path("." if name == "-" else name).parent)
