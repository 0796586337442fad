"""What a script expects of replies and of devices, and whether a run has it."""
import re

from pehvonk import value_of
from shown import reply_words, word_of
from sound import Sound
from wire import PAYLOADS, RECORDS, RESULTS, fields_of, near

ITEM = r'\s*((?:[^,"]|"(?:[^"\\]|\\.)*")*)(?:,|$)'


def result_of(word):
    """The name of a result, which may be given as in the documents, with AUDCLNT_E_ in front, or in hex."""
    name = word.upper().replace("AUDCLNT_E_", "").replace("AUDCLNT_S_", "S_")
    if name in RESULTS:
        return name
    if word.lower().startswith("0x"):
        number = value_of("u32", word)
        return next((name for name, code in RESULTS.items() if code == number), f"0x{number:08X}")
    raise ValueError(f"no result is called '{word}'{near(word, RESULTS)}")


def expected_value(type_name, word, folder):
    """What a word expects of a field. A list is [A, B], and of a record any of its fields may be given."""
    if type_name.endswith("[]"):
        if not (word.startswith("[") and word.endswith("]")):
            raise ValueError(f"'{word}' is no list: [A, B]")
        return [expected_value(type_name[:-2], item, folder) for item in items_of(word[1:-1])]
    if type_name in RECORDS:
        types = {name: kind for name, kind, _ in fields_of(RECORDS[type_name])}
        pairs = [item.partition("=")[::2] for item in word.split()]
        for name, _ in pairs:
            if name not in types:
                raise ValueError(f"a {type_name} has no '{name}'{near(name, types)}")
        return {name: expected_value(types[name], text, folder) for name, text in pairs}
    if type_name == "rest" and Sound.is_made(word):
        return Sound(word, folder)
    value = value_of(type_name, word)
    if callable(value):
        raise ValueError(f"{word} can't be expected, only asked with")
    return value


def items_of(text):
    return [item.strip() for item in re.findall(ITEM, text) if item.strip()]


def agrees(expected, value):
    if isinstance(expected, dict):
        return all(agrees(item, value[name]) for name, item in expected.items())
    if isinstance(expected, list):
        return len(expected) == len(value) and all(map(agrees, expected, value))
    return expected == value


class Result:
    """expect CODE field=value ..: of each event of the line before it."""

    def __init__(self, word):
        self.result, self.fields, self.words, self.start = result_of(word), {}, [], 0

    def add(self, event, name, word, folder):
        listed = PAYLOADS.get((event, RESULTS.get(self.result)), [])
        types = {field.name: field.type for field in listed}
        self.words.append(f" {name}={word}")
        if name == "from" and "bytes" in types:  # the first frame of a file that is expected
            self.start = value_of("u32", word)
            return
        if name not in types:
            raise ValueError(f"{event} with {self.result} answers no '{name}'{near(name, types)}")
        try:
            self.fields[name] = types[name], expected_value(types[name], word, folder)
        except ValueError as fault:
            raise ValueError(f"{name}: {fault}")

    def failures(self, run, places, _before):
        for place in places:
            reply, values = run.replies[place], run.payloads[place]
            if reply is None:
                came = "no reply"
            elif reply.result != self.result:
                came = reply.result + reply_words(reply.event, reply.result, values)
            else:
                wrong = [name for name, (_, value) in self.fields.items()
                         if not agrees(self.made(run, place, value), values.get(name))]
                if not wrong:
                    continue
                came = reply.result + "".join(f" {name}={word_of(self.fields[name][0], values[name])}"
                                              if name in values else f" no {name}" for name in wrong)
            yield f"expected {self.result}{''.join(self.words)}, and came {came} (to event {place + 1})"

    def made(self, run, place, value):
        """What is expected of data that are made, of as many frames as the packet has."""
        if not isinstance(value, Sound):
            return value
        rate, channels = run.stream_sound(place)
        value.start = self.start
        return value.of(run.payloads[place]["frames"], rate, channels)


class Frames:
    """expect frames endpoint=N from=N SOUND: of what the device has got by then."""

    def __init__(self, numbers, others, folder):
        self.endpoint, self.start, self.count = numbers["endpoint"], numbers["from"], numbers["frames"]
        self.gain = others.get("gain", "100%")
        how = f"level={others['level']}" if "level" in others else others.get("sound")
        if not how:
            raise ValueError("what frames? ramp, zeros, level=N or @FILE")
        value_of("level", self.gain)
        self.sound = Sound(how, folder)

    def failures(self, run, _places, before):
        if not run.plays(self.endpoint):
            yield f"expected frames, and no endpoint {self.endpoint} plays"
            return
        rate, channels = run.sounds()[self.endpoint]
        came = run.samples_before(self.endpoint, before)
        has, at = len(came) // channels, self.start * channels
        count = self.count
        if count is None and not self.sound.how.startswith("@"):
            count = max(has - self.start, 0)
        expected = self.sound.samples(count, rate, channels, self.gain)
        if expected and came[at:at + len(expected)] == expected:
            return
        if not expected:
            yield f"expected frames from {self.start} on, and endpoint {self.endpoint} has {has}"
            return
        step = next(place for place in range(0, len(expected), channels)
                    if came[at + place:at + place + channels] != expected[place:place + channels])
        wanted, got = (" ".join(map(str, list_[place:place + channels]))
                       for list_, place in ((expected, step), (came, at + step)))
        got = got or f"nothing, as the device has {has} frames"
        yield f"endpoint {self.endpoint}, frame {self.start + step // channels}: expected {wanted}, and came {got}"


def failures(script, run):
    """The lines of all expectations that the run doesn't meet."""
    for check in script.checks:
        for line in check.what.failures(run, check.places, check.before):
            yield f"{script.name}:{check.line}: {line}"
