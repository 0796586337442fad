"""Runs the audio service on events, and gives its replies and what its devices got. docs/BENCH.md is its page.

    events = Events()
    events.Add(endpoint=1, flow="render", format="48000x2", name="Speakers")
    events.Open(conn=1, pid=10, name="player")
    client = events.Activate(endpoint=1, role="console")
    run = events.run()
    run.replies[client].result, run.replies[client].client, run.devices[1].samples

It is the one file to import: of the standard library alone, but for the tables of the events' bytes, wire.py beside it.
What can't be written as an event, and what can't be run, raises ValueError.
"""
import array
import json
import os
import re
import resource
import subprocess
import tempfile
import uuid
import wave
from collections import Counter, namedtuple
from contextlib import suppress
from pathlib import Path
from types import SimpleNamespace

from wire import (FULL_LEVEL, JOINED, NAMES, NULL_GUID, PAYLOADS, RECORDS, RESULTS, SHAPES, SIZES, Event, bodies,
                  decode_payload, fields_of, format_bytes, matched, near, read_event, read_reply, shape_of, spell)

PROGRAM = Path(__file__).resolve().parent.parent / "crates/audio_daemon/out/audio_daemon"
UNITS = {"s": 10_000_000, "ms": 10_000, "us": 10, "": 1}
GIVEN = {"Activate": "client", "Initialize": "session", "Register": "registration"}  # the number that a reply gives
RESULT_NAMES = {code: name for name, code in RESULTS.items()}
Device = namedtuple("Device", "rate channels samples")


def value_of(type_name, word):
    """The value of a field that a word spells, as docs/BENCH.md says. ValueError says why there is none."""
    if type_name == "u64" and re.fullmatch(r"\$[csr][0-9]*", word):
        return Last(word)
    if type_name in SIZES:
        names, low = NAMES.get(type_name, {}), word.lower()
        parts = set(low.split("+")) if type_name in JOINED else {low}
        if parts <= set(names):
            return sum(names[part] for part in parts)
        if type_name == "level" and word.endswith("%"):
            return int(matched("([0-9]+)%", word, "level")[1]) * FULL_LEVEL // 100
        what = re.sub("u[0-9]+", "number", type_name)
        what += f": {', '.join(names)}{near(word, names)}" if names else ""
        match = matched("(0x[0-9a-f]+|[0-9]+)" + ("(s|ms|us|)" if type_name == "time" else "()"), low, what)
        return int(match[1], 0 if "x" in low else 10) * UNITS[match[2]]
    if type_name == "guid":
        word = NULL_GUID.hex() if word == "null" else word.replace("-", "")
    if type_name in ("guid", "rest") or word.startswith("hex:"):
        return bytes.fromhex(matched("(?:hex:)?((?:[0-9a-fA-F]{2})*)", word, "list of bytes in hex")[1])
    if type_name == "format":
        rate, channels, mask = matched("([0-9]+)x([0-9]+)(?:ext(?::([0-9]+)|))?", word, "format").groups()
        return format_bytes(int(rate), int(channels), int(mask or 0) if "ext" in word else None)
    return (json.loads(word) if word.startswith('"') else word).encode("utf-8", "surrogateescape")


def plain(type_name, value):
    """A value as a program has it: its name, its text or its number; data stay bytes."""
    if isinstance(value, list):
        return [plain(type_name[:-2], item) for item in value]
    if isinstance(value, dict):
        return {name: plain(kind, value[name]) for name, kind, _ in fields_of(RECORDS[type_name])}
    if isinstance(value, int):
        names, joined = NAMES.get(type_name, {}), type_name in JOINED
        parts = [name for name in names if names[name] == value or joined and names[name] & value]
        return "+".join(parts) if parts and sum(names[part] for part in parts) == value else value
    if type_name == "guid":
        return "null" if value == NULL_GUID else str(uuid.UUID(bytes=value))
    with suppress(ValueError):  # of a text that isn't UTF-8, and of a format with a number too large
        if type_name != "format":
            return value if type_name == "rest" else value.decode()
        word = "{}x{}".format(*sound_of(value))
        word += f"ext:{int.from_bytes(value[20:24], 'little')}" if len(value) == 40 else ""
        if value_of("format", word) == value:
            return word
    return "hex:" + value.hex()


def sound_of(format):
    """The rate and the channels of a format's bytes."""
    return int.from_bytes(format[4:8], "little"), int.from_bytes(format[2:4], "little")


def read_frames(path, rate, channels):
    """The frames of a file, as bytes: those of a WAV file, which has to have this format, or all that is in another."""
    if Path(path).suffix.lower() != ".wav":
        return Path(path).read_bytes()
    try:
        with wave.open(str(path), "rb") as file:
            found = file.getframerate(), file.getnchannels(), 8 * file.getsampwidth()
            data = file.readframes(file.getnframes())
    except (wave.Error, EOFError) as fault:
        raise ValueError(f"{path}: no WAV file of plain samples ({str(fault) or 'it ends too soon'})")
    if found != (rate, channels, 16):
        raise ValueError("{}: {}x{} of {} bits, and not {}x{} of 16".format(path, *found, rate, channels))
    return data


def write_frames(path, rate, channels, data):
    """Writes a WAV file if the path ends in .wav, and else the frames alone."""
    with open(path, "wb") as out:
        if Path(path).suffix.lower() != ".wav":
            out.write(data)
            return
        with wave.open(out) as file:
            file.setparams((channels, 2, rate, 0, "NONE", ""))
            file.writeframes(data)


def samples_of(data):
    """The samples of frames, one after another. A part of a sample at the end is left out."""
    return array.array("h", data[:len(data) // 2 * 2])


def scaled(samples, level):
    """The samples at a level such as "50%", each rounded toward zero, as a period mixes one stream."""
    level = value_of("level", str(level))
    return array.array("h", (abs(sample) * level // FULL_LEVEL * (1 if sample > 0 else -1) for sample in samples))


class Place(int):
    """The place of an event in a list. As a field of a later event it is the number that the event's reply gives."""

    def __call__(self, known, _values):
        if int(self) not in known:
            raise ValueError(f"event {int(self)} was given no number")
        return known[int(self)]


class Last(str):
    """$c1 is the last client that connection 1 was given, $c that of any; $s is a session, and $r a registration."""

    def __call__(self, known, _values):
        if str(self) not in known:
            raise ValueError(f"{self}: no call before it was given such a number")
        return known[str(self)]


def _field(name, type_name, value):
    """The value of a field as the wire has it, or what stands for it in a list of events."""
    if type(value) is str:
        return value_of(type_name, value)
    value = value.tobytes() if isinstance(value, array.array) else value
    if not callable(value) and not isinstance(value, int if type_name in SIZES else bytes):
        raise ValueError(f"{name}: {value!r} is no {type_name}")
    return value


class Events(list):
    """A list of events. `events.Period(endpoint=1)` adds one, and answers its place; `append` also takes bytes."""
    calls = 0

    def __getattr__(self, name):
        if name.startswith("_"):
            raise AttributeError(name)
        return lambda **values: self.add(name, values)

    def add(self, name, values):
        shape = shape_of(name)
        types = {field.name: field.type for field in shape.fields if field.name != "code" or shape.code is None}
        self.calls += "tag" in types
        given = {"conn": 1, "tag": self.calls} if "tag" in types else {}
        for name, value in values.items():
            name = name.rstrip("_")  # class is a word of Python's
            if name not in types:
                raise ValueError(f"{shape.name} takes no '{name}'{near(name, types)}")
            given[name] = _field(name, types[name], value)
        spell(shape.name, **{name: value if not callable(value) else 0 if types[name] in SIZES else b""
                             for name, value in given.items()})  # refuses what doesn't fit
        self.append(Event(shape.name, given))
        return Place(len(self) - 1)

    def spell(self):
        """The bytes of the events, if each is granted, and each stream has a session of its own."""
        resolved, refused = _resolved(self, _guess(self))
        if refused:
            raise refused[0]
        return b"".join(map(_frame, resolved))

    def run(self, program=None, inputs=None, fail=None):
        """Runs the program. `inputs` has the bytes that devices give, by their endpoints. fail=(1, 3, 5): call 3 of the
        device of endpoint 1 takes 5 bytes and fails, and so do all that come after it."""
        run = _settled(self, program, inputs or {}, None)
        if fail:
            limit = _file_limit(run, *fail)
            run = _settled(self, program, inputs or {}, limit)
            _check_alone(run, fail[0])
        return run


class CannotFail(ValueError):
    """A device can't be made to fail as it was asked."""


class Unresolved(ValueError):
    """A field stands for what no event before it was given. `place` is that of the event, `reason` says what."""

    def __init__(self, place, reason, asked):
        super().__init__(f"event {place}: {reason}")
        self.place, self.reason, self.asked = place, str(reason), asked

    def explained(self, run):
        """The same, with what became of the call that should have given it."""
        reply = run.replies[self.asked] if isinstance(self.asked, Place) else None
        for event, answer in zip(run.events[:self.place], run.replies):
            if isinstance(event, Event) and answer and answer.result != "S_OK" and self._is_giver(event):
                reply = answer
        return Unresolved(self.place, f"{self.reason}; {reply.event} was answered {reply.result}" if reply
                          else self.reason, self.asked)

    def _is_giver(self, event):
        if isinstance(self.asked, Last):
            letter = "$" + GIVEN.get(event.name, " ")[0]
            return self.asked in (letter, f"{letter}{event.values.get('conn')}")
        return not isinstance(self.asked, Place) and event.name == "Initialize"


def _resolved(events, numbers):
    """The events with values in place of what stands for them, if the events are given these numbers. And what is
    refused of them: there the value is 0 or empty."""
    known, found, refused = {}, [], []
    for place, event in enumerate(events):
        if isinstance(event, Event):
            values = dict(event.values)
            for name, value in event.values.items():
                try:
                    values[name] = value(known, values) if callable(value) else value
                except ValueError as fault:
                    values[name] = b"" if name == "bytes" else 0
                    refused.append(Unresolved(place, fault, value))
            event = Event(event.name, values)
            _note(known, place, event, numbers.get(place))
        found.append(event)
    return found, refused


def _note(known, place, event, number):
    """Keeps the number that an event was given, and the format of a client's stream."""
    if number is not None:
        letter = "$" + GIVEN[event.name][0]
        known.update({place: number, letter: number, f"{letter}{event.values['conn']}": number})
        if event.name == "Initialize":
            known["format", event.values["client"]] = event.values["format"]


def _frame(event):
    return event if isinstance(event, bytes) else spell(event.name, **event.values)


def _guess(events):
    """The numbers that the events are given if each is granted, and each stream has a session of its own."""
    counts, numbers = Counter(), {}
    for place, event in enumerate(events):
        if isinstance(event, Event) and event.name in GIVEN:
            kind = event.name, event.values["conn"] if event.name == "Register" else 0
            counts[kind] += 1
            numbers[place] = counts[kind]
    return numbers


def _settled(events, program, inputs, limit):
    """A run in which the events have the numbers that their replies give. Where they were guessed wrongly, all is run
    again with those that came: each time at least one more is right, since a reply depends on what is before it."""
    numbers, before = _guess(events), None
    for _ in range(len(events) + 2):
        resolved, refused = _resolved(events, numbers)
        if before is not None and resolved == before.events:
            if refused:
                raise refused[0].explained(before)
            return before
        before = Run(resolved, program, inputs, limit)
        numbers = before.numbers()
    raise ValueError("the replies to the same events differ from run to run")


class Run:
    """A run of the program on events that have all their numbers.

    replies     of each event, with its fields by name; None if there is none. `payloads` has the fields' values as
                the wire has them
    devices     of each endpoint: rate, channels and samples of the file
    status      the program's exit status; `said` is what it wrote to standard error
    fault       what is malformed in the replies, or None
    sent, answers, files    the bytes of the events, of the replies, and of each endpoint's file
    """

    def __init__(self, events, program, inputs, limit):
        self.events = events
        frames = list(map(_frame, events))
        self.sent = b"".join(frames)
        self._run(str(program or os.environ.get("PEHVONK_PROGRAM", PROGRAM)), inputs, limit)
        self.replies, self.payloads, self.fault = [None] * len(events), [{} for _ in events], None
        try:
            self._read(frames)
        except ValueError as fault:
            self.fault = str(fault)
        self.devices = {endpoint: Device(*sound, samples_of(self.files[endpoint]))
                        for endpoint, sound in self.sounds().items() if endpoint in self.files}

    def _run(self, program, inputs, limit):
        with tempfile.TemporaryDirectory() as folder:
            for endpoint, data in inputs.items():
                Path(folder, f"endpoint-{endpoint}.pcm").write_bytes(data)
            how = {}
            if limit is not None:  # a write beyond it takes what fits, and then fails: Python ignores its signal
                how = {"restore_signals": False,
                       "preexec_fn": lambda: resource.setrlimit(resource.RLIMIT_FSIZE, (limit, limit))}
            done = subprocess.run([os.path.abspath(program), "replay", folder], input=self.sent, capture_output=True,
                                  **how)
            self.files = {int(re.findall("[0-9]+", file.name)[0]): file.read_bytes()
                          for file in sorted(Path(folder).glob("endpoint-*.pcm"))}
        self.status, self.answers, self.said = done.returncode, done.stdout, done.stderr.decode(errors="replace")

    def _read(self, frames):
        """Reads the replies. Bytes that were sent in place of an event have the reply to their last event."""
        asked = []
        for place, frame in enumerate(frames):
            with suppress(ValueError):  # such bytes are malformed, and have no reply
                for body in bodies(frame):
                    asked.append((place, read_event(body)))
        for place, body in enumerate(bodies(self.answers)):
            if place == len(asked):
                raise ValueError("there are more replies than events")
            place, event = asked[place]
            reply = read_reply(body)
            if reply.kind != SHAPES[event.name].kind:
                raise ValueError(f"a reply of kind {reply.kind} to {event.name}")
            types = {name: kind for name, kind, _ in PAYLOADS.get((event.name, reply.result), [])}
            self.payloads[place] = values = decode_payload(event.name, reply.result, reply.payload)
            self.replies[place] = SimpleNamespace(
                event=event.name, result=RESULT_NAMES.get(reply.result, f"0x{reply.result:08X}"),
                **{name: plain(types[name], value) for name, value in values.items()})

    def granted(self):
        """The place, the event and the reply of each event that was answered S_OK."""
        for place, (event, reply) in enumerate(zip(self.events, self.replies)):
            if reply and reply.result == "S_OK" and isinstance(event, Event):
                yield place, event, reply

    def numbers(self):
        return {place: getattr(reply, GIVEN[event.name])
                for place, event, reply in self.granted() if event.name in GIVEN}

    def sounds(self):
        """The rate and the channels of each endpoint that was added."""
        return {event.values["endpoint"]: sound_of(event.values["format"])
                for _, event, _ in self.granted() if event.name in ("Add", "SetFormat")}

    def plays(self, endpoint):
        """Whether such an endpoint was added, and plays."""
        return any(event.name == "Add" and event.values["endpoint"] == endpoint and event.values["flow"] == 0
                   for _, event, _ in self.granted())

    def samples_before(self, endpoint, before):
        """The samples that an endpoint's device had got before the event at this place."""
        frames = [reply.frames if reply.outcome == "done" else None for place, event, reply in self.granted()
                  if place < before and event.name == "Period" and event.values["endpoint"] == endpoint]
        device = self.devices.get(endpoint) or Device(*self.sounds()[endpoint], samples_of(b""))
        whole = None in frames  # it failed, and got no more than it has
        return device.samples if whole else device.samples[:sum(frames) * device.channels]

    def stream_sound(self, at):
        """The rate and the channels of the stream that the event at this place is about."""
        client = self.events[at].values["client"]
        return next(sound_of(event.values["format"]) for place, event, _ in self.granted()
                    if event.name == "Initialize" and event.values["client"] == client)


def _writes(run, endpoint):
    """The bytes of each period that an endpoint's device was given whole."""
    channels = run.sounds().get(endpoint, (0, 0))[1]
    return [reply.frames * channels * 2 for _, event, reply in run.granted()
            if event.name == "Period" and event.values["endpoint"] == endpoint and reply.frames]


def _file_limit(run, endpoint, call, taken):
    """The length at which an endpoint's file has to end, for its device to fail at this call."""
    writes = _writes(run, endpoint)
    if not run.plays(endpoint):
        raise CannotFail(f"no endpoint {endpoint} plays, and only such a device can be made to fail")
    if not 1 <= call <= len(writes):
        raise CannotFail(f"the device of endpoint {endpoint} has {len(writes)} calls, and no call {call}")
    if not 0 <= taken < writes[call - 1]:
        raise CannotFail(f"call {call} has {writes[call - 1]} bytes, and can't fail after {taken}")
    return sum(writes[:call - 1]) + taken


def _check_alone(run, endpoint):
    """The limit holds for each file of the program's: nothing else may have met it."""
    if run.status:
        raise CannotFail(f"with so short files the program ends with status {run.status}: is it the built one?")
    for _, event, reply in run.granted():
        if event.name == "Period" and reply.outcome == "failed" and event.values["endpoint"] != endpoint:
            raise CannotFail(f"endpoint {event.values['endpoint']} failed too, as its file grows as long")
