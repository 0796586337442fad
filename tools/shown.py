"""Events, replies and runs as lines of words, or as objects of JSON, one a line."""
import json
import struct
from contextlib import suppress
from itertools import islice
from pathlib import Path

from pehvonk import RESULT_NAMES, plain, sound_of
from wire import (FULL_LEVEL, PAYLOADS, RECORDS, S_OK, SHAPES, bodies, decode_payload, fields_of, read_event,
                  read_reply)

KINDS = {shape.kind: name for name, shape in SHAPES.items() if shape.code is None}
CODES = {name: code for code, name in RESULT_NAMES.items()}


def word_of(type_name, value):
    """A value as a script has it; but long bytes are cut, and scripts have no records."""
    if isinstance(value, list):
        return "[" + ", ".join(word_of(type_name[:-2], item) for item in value) + "]"
    if isinstance(value, dict):
        return words_of(fields_of(RECORDS[type_name]), value).strip()
    if type_name == "level" and value * 100 % FULL_LEVEL == 0:
        return f"{value * 100 // FULL_LEVEL}%"
    if type_name == "rest":
        return value.hex() if len(value) <= 32 else f"{value[:16].hex()}...({len(value)} bytes)"
    word = plain(type_name, value)
    return json.dumps(word) if type_name in ("text", "message") and word.encode() == value else str(word)


def words_of(fields, values):
    return "".join(f" {name}={word_of(kind, values[name])}" for name, kind, _ in fields if name in values)


def event_line(body):
    name, values = read_event(body)
    return name.lower() + words_of(SHAPES[name].fields, values)


def reply_words(event_name, result, values):
    return words_of(PAYLOADS.get((event_name, CODES.get(result)), []), values)


def reply_line(body, event_name=None):
    """A reply's result and payload, by the name of its event. Without a name its head comes first."""
    kind, conn, tag, result, payload = read_reply(body)
    head = "" if event_name else f"{KINDS[kind].lower()} conn={conn} tag={tag}: "
    name = event_name or KINDS[kind]
    result_name = RESULT_NAMES.get(result, f"0x{result:08X}")
    values = decode_payload(name, result, payload)
    return head + result_name + (reply_words(name, result_name, values) if payload else "")


def json_of(fields, values):
    """The values by their names, as JSON has them: bytes in hex."""
    kinds = {name: kind for name, kind, _ in fields}
    return {name: value.hex() if kinds[name] == "rest" else plain(kinds[name], value) for name, value in values.items()}


def event_object(body):
    name, values = read_event(body)
    return {"event": name, **json_of(SHAPES[name].fields, values)}


def reply_object(body, event_name=None):
    kind, conn, tag, result, payload = read_reply(body)
    name = event_name or KINDS[kind]
    values = json_of(PAYLOADS.get((name, result), []), decode_payload(name, result, payload))
    return {"reply": name, "conn": conn, "tag": tag, "result": RESULT_NAMES.get(result, f"0x{result:08X}"), **values}


def count_read(data, read):
    """How many frames of a file can be read so, up to the first that can't."""
    count = 0
    with suppress(ValueError):
        for body in bodies(data):
            read(body)
            count += 1
    return count


def is_replies(data):
    """Whether bytes are replies, and not events: what reads further, and if both do, whether each result has a name."""
    replies, events = count_read(data, read_reply), count_read(data, read_event)
    if replies != events:
        return replies > events
    return replies > 0 and all(read_reply(body).result in RESULT_NAMES for body in islice(bodies(data), replies))


def list_lines(data, one):
    """The lines of a file's frames up to the first that is malformed, and what is malformed, or None."""
    place = 0
    try:
        for body in bodies(data):
            yield one(body)
            place += 4 + len(body)
    except ValueError as fault:
        raise ValueError(f"malformed at {place}: {fault}")


def labelled(name, data):
    """The bodies of a file's frames. What is malformed is told with the file's name."""
    try:
        yield from bodies(data)
    except ValueError as fault:
        raise ValueError(f"{name}: {fault}")


def asked(body, as_json):
    """The name of an event, None if it is malformed, and the event as a line or an object."""
    try:
        return read_event(body).name, event_object(body) if as_json else event_line(body)
    except ValueError as fault:
        return None, {"event": None, "bytes": body.hex()} if as_json else f"{body.hex()} ({fault})"


def answered(reply, name, as_json):
    try:
        if reply is None:
            return None if as_json else "no reply"
        return reply_object(reply, name) if as_json else reply_line(reply, name)
    except ValueError as fault:
        raise ValueError(f"replies: {fault}")


def exchange(sent, replies, as_json=False):
    """The lines of each event and its reply. A reply that is malformed, missing or too many raises ValueError."""
    replies, missing = labelled("replies", replies), 0
    for body in labelled("events", sent):
        name, event = asked(body, as_json)
        reply = next(replies, None)
        missing += reply is None
        answer = answered(reply, name, as_json)
        yield json.dumps({"event": event, "reply": answer}) if as_json else f"{event}\n    {answer}"
    if missing or next(replies, None):
        raise ValueError("replies: " + (f"none to {missing} events" if missing else "more than events"))


def channels_of(sent, replies):
    """The channels of each endpoint that was added."""
    found = {}
    with suppress(ValueError):  # what is malformed is told where it is shown
        for body, reply in zip(bodies(sent), bodies(replies)):
            name, values = read_event(body)
            if name in ("Add", "SetFormat") and read_reply(reply).result == S_OK:
                found[values["endpoint"]] = sound_of(values["format"])[1]
    return found


def device_lines(files, channels, as_json=False):
    """The line of each device's file, with its first frames. `files` has their bytes by their endpoints."""
    for endpoint, data in sorted(files.items()):
        count = channels.get(endpoint, 1)
        whole = len(data) // (2 * count)
        if as_json:
            yield json.dumps({"device": endpoint, "bytes": len(data), "frames": whole, "channels": count})
            continue
        frames = struct.iter_unpack(f"<{count}h", data[:min(whole, 4) * 2 * count])
        samples = " | ".join(" ".join(map(str, frame)) for frame in frames)
        yield f"endpoint-{endpoint}.pcm: {len(data)} bytes, {whole} frames of {count} channels: {samples}"


def files_of(folder):
    """The bytes of the devices' files of a folder, by their endpoints."""
    return {int(file.stem.split("-")[1]): file.read_bytes() for file in Path(folder).glob("endpoint-*.pcm")
            if file.stem.split("-")[1].isdigit()}
