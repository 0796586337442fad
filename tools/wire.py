"""The bytes of events and replies, as tables, and the functions that spell and read them.

    spell("Add", endpoint=1, flow=0, format=format_bytes(48000, 2), name=b"Speakers")
    spell("GetBuffer", conn=1, tag=3, client=1, frames=480)   the frame of one event, from its fields by name

Numbers are ints; texts, formats, GUIDs and data are bytes; lists are lists, and records in them dicts.
A new call is one line of EVENTS. Values without bytes, and bytes that are malformed, raise ValueError.
"""
import difflib
import io
import re
from collections import namedtuple

NULL_GUID = bytes(16)
FULL_LEVEL = 65536
S_OK, S_FALSE = 0, 1

RESULTS = {
    "S_OK": S_OK, "S_FALSE": S_FALSE, "E_NOTIMPL": 0x80004001, "E_NOINTERFACE": 0x80004002,
    "E_HANDLE": 0x80070006, "E_OUTOFMEMORY": 0x8007000E, "E_INVALIDARG": 0x80070057,
    "E_NOTFOUND": 0x80070490, "NOT_INITIALIZED": 0x88890001, "ALREADY_INITIALIZED": 0x88890002,
    "WRONG_ENDPOINT_TYPE": 0x88890003, "DEVICE_INVALIDATED": 0x88890004, "NOT_STOPPED": 0x88890005,
    "BUFFER_TOO_LARGE": 0x88890006, "OUT_OF_ORDER": 0x88890007, "UNSUPPORTED_FORMAT": 0x88890008,
    "INVALID_SIZE": 0x88890009, "DEVICE_IN_USE": 0x8889000A, "BUFFER_OPERATION_PENDING": 0x8889000B,
    "EXCLUSIVE_MODE_NOT_ALLOWED": 0x8889000E, "SERVICE_NOT_RUNNING": 0x88890010,
    "EVENTHANDLE_NOT_EXPECTED": 0x88890011, "BUFDURATION_PERIOD_NOT_EQUAL": 0x88890013,
    "EVENTHANDLE_NOT_SET": 0x88890014, "BUFFER_SIZE_ERROR": 0x88890016, "INVALID_DEVICE_PERIOD": 0x88890020,
    "S_BUFFER_EMPTY": 0x08890001, "KEEPER_FAULT": 0xA0040001, "CLIENTS_FULL": 0xA0040002,
    "SESSIONS_FULL": 0xA0040003, "ENDPOINTS_FULL": 0xA0040004, "WORN": 0xA0040005}

SIZES = {  # the bytes of each type of numbers; a time is in units of 100 ns, a level is from 0 to FULL_LEVEL
    "u8": 1, "u16": 2, "u32": 4, "u64": 8, "length": 4, "kind": 1, "conn": 1, "time": 8, "flow": 1,
    "role": 1, "state": 4, "share": 4, "stream_flags": 4, "buffer_flags": 4, "level": 4, "session_state": 1,
    "class": 1, "notice": 1, "outcome": 1}
LIMITS = {  # of numbers, if they are narrower than their bytes, and of the lengths of the other types
    "length": (1, 4_194_304), "kind": (1, 7), "conn": (1, 32), "text": (0, 256), "format": (0, 0xFFFF),
    "guid": (16, 16)}
NAMES = {  # of values; of the types in JOINED a value may be several of these, added up
    "flow": {"render": 0, "capture": 1, "all": 2},
    "role": {"console": 0, "multimedia": 1, "communications": 2, "none": 255},
    "state": {"active": 1, "disabled": 2, "notpresent": 4, "unplugged": 8},
    "session_state": {"inactive": 0, "active": 1, "expired": 2},
    "class": {"devices": 1, "sessions": 2, "session": 3, "ducking": 4, "endpoint_volume": 5, "parts": 6},
    "notice": {"device_added": 1, "device_removed": 2, "device_state": 3, "default_changed": 4, "device_property": 5,
               "session_created": 6, "disconnected": 7, "session_state": 8, "simple_volume": 9, "channel_volume": 10,
               "display_name": 11, "icon_path": 12, "grouping": 13, "duck": 14, "unduck": 15, "endpoint_volume": 16,
               "part_changed": 17},
    "outcome": {"done": 0, "failed": 1},
    "share": {"shared": 0, "exclusive": 1},
    "stream_flags": {"crossprocess": 1 << 16, "loopback": 1 << 17, "eventcallback": 1 << 18,
                     "nopersist": 1 << 19},
    "buffer_flags": {"discontinuity": 1, "silent": 2, "timestamperror": 4}}
JOINED = {"state", "stream_flags", "buffer_flags"}

# A field is name:type. With `?` it may be left out, and is then 0 or the null GUID. Types besides are guid,
# rest and message (the rest of the body), TYPE[] (a list with its count in front), and the records.
RECORDS = {"handle": "client:u64 handle:u64",
           "told": "notice:notice subject:u64 context:guid value:u64 text:text"}
HEADS = {3: "conn:conn tag:u32 "}  # fields of a kind that come before the code

EVENTS = [  # kind, code, event, fields, payload of S_OK
    (1, None, "Open", "conn:conn pid:u32 name:text", ""),
    (2, None, "Hangup", "conn:conn", ""),
    (3, None, "Call", "code:u8 rest:rest", "payload:rest"),
    (3, 1, "EnumEndpoints", "flow:flow mask:state", "endpoints:u32[]"),
    (3, 2, "GetDefault", "flow:flow role:role", "endpoint:u32"),
    (3, 3, "GetDevice", "id:text", "endpoint:u32"),
    (3, 4, "DeviceInfo", "endpoint:u32",
     "flow:flow state:state allow:u8 priority:u8 format:format id:text name:text"),
    (3, 5, "Activate", "endpoint:u32 role:role", "client:u64"),
    (3, 6, "ReleaseClient", "client:u64", ""),  # Release of IUnknown
    (3, 7, "Register", "class:class subject:u64", "registration:u64"),
    (3, 8, "Unregister", "registration:u64", ""),
    (3, 9, "TakeNotices", "max:u32", "events:handle[] lost:u64 notices:told[]"),
    (3, 10, "AwaitNotices", "max:u32", "events:handle[] lost:u64 notices:told[]"),
    (3, 16, "Initialize", "client:u64 share:share flags:stream_flags? duration:time period:time? "
     "format:format session:guid?", "session:u64"),
    (3, 17, "GetBufferSize", "client:u64", "frames:u32"),
    (3, 18, "GetStreamLatency", "client:u64", "latency:time"),
    (3, 19, "GetCurrentPadding", "client:u64", "frames:u32"),
    (3, 20, "IsFormatSupported", "client:u64 share:share format:format", ""),
    (3, 21, "GetMixFormat", "client:u64", "format:format"),
    (3, 22, "GetDevicePeriod", "client:u64", "default:time minimum:time"),
    (3, 23, "Start", "client:u64", ""),
    (3, 24, "Stop", "client:u64", ""),
    (3, 25, "Reset", "client:u64", ""),
    (3, 26, "SetEventHandle", "client:u64 handle:u64", ""),
    (3, 27, "GetService", "client:u64 service:u32", ""),
    (3, 28, "GetPosition", "client:u64", "position:u64 rate:u64"),
    (3, 29, "GetStreamLevel", "client:u64 channel:u32", "level:level"),
    (3, 30, "SetStreamLevel", "client:u64 channel:u32 level:level", ""),
    (3, 32, "GetBuffer", "client:u64 frames:u32", ""),
    (3, 33, "ReleaseBuffer", "client:u64 frames:u32 flags:buffer_flags? bytes:rest", ""),
    (3, 34, "GetNextPacketSize", "client:u64", "frames:u32"),
    (3, 35, "CaptureGetBuffer", "client:u64", "frames:u32 flags:buffer_flags position:u64 bytes:rest"),
    (3, 36, "CaptureReleaseBuffer", "client:u64 frames:u32", ""),
    (3, 48, "EnumSessions", "endpoint:u32", "sessions:u64[]"),
    (3, 49, "GetSession", "session:u64", "endpoint:u32 process:u32 state:session_state level:level mute:u8 "
     "levels:level[] duck:level optout:u8 grouping:guid identifier:text instance:text display:text icon:text"),
    (3, 50, "SetMaster", "session:u64 level:level context:guid?", ""),
    (3, 51, "SetMute", "session:u64 mute:u8 context:guid?", ""),
    (3, 52, "SetChannel", "session:u64 channel:u32 level:level context:guid?", ""),
    (3, 53, "SetDisplayName", "session:u64 context:guid? text:text", ""),
    (3, 54, "SetIconPath", "session:u64 context:guid? text:text", ""),
    (3, 55, "SetGrouping", "session:u64 grouping:guid context:guid?", ""),
    (3, 56, "SetDuckPreference", "session:u64 optout:u8", ""),
    (3, 57, "GetDuckRule", "", "rule:u8"),
    (3, 64, "GetEndpointVolume", "endpoint:u32", "level:level mute:u8 levels:level[]"),
    (3, 65, "SetEndpointMaster", "endpoint:u32 level:level context:guid?", ""),
    (3, 66, "SetEndpointMute", "endpoint:u32 mute:u8 context:guid?", ""),
    (3, 67, "SetEndpointChannel", "endpoint:u32 channel:u32 level:level context:guid?", ""),
    (3, 72, "Parts", "endpoint:u32 part:u32 direction:u8", "parts:u32[]"),
    (3, 73, "PartInfo", "endpoint:u32 part:u32", "kind:u8 name:text"),
    (3, 74, "GetPartLevel", "endpoint:u32 part:u32 channel:u32", "step:u32"),
    (3, 75, "SetPartLevel", "endpoint:u32 part:u32 channel:u32 step:u32 context:guid?", ""),
    (3, 76, "GetPartMute", "endpoint:u32 part:u32", "mute:u8"),
    (3, 77, "SetPartMute", "endpoint:u32 part:u32 mute:u8 context:guid?", ""),
    (4, None, "Period", "endpoint:u32", "frames:u32 outcome:outcome"),
    (5, None, "Device", "code:u8 rest:rest", ""),
    (5, 1, "Add", "endpoint:u32 flow:flow format:format name:text", ""),
    (5, 2, "SetState", "endpoint:u32 state:state", ""),
    (5, 3, "Remove", "endpoint:u32", ""),
    (5, 4, "SetFormat", "endpoint:u32 format:format", ""),
    (5, 5, "SetDefault", "flow:flow role:role endpoint:u32", ""),
    (5, 6, "SetExclusive", "endpoint:u32 allow:u8 priority:u8", ""),
    (5, 7, "SetDuckRule", "rule:u8", ""),
    (5, 8, "SetName", "endpoint:u32 name:text", ""),
    (6, None, "Http", "request:message", "response:message"),
    (7, None, "Shutdown", "", "")]
LATER = {  # of these events, those that the program doesn't answer yet but by E_NOTIMPL, or takes for malformed
    "SetDuckPreference", "GetDuckRule", "GetEndpointVolume", "SetEndpointMaster", "SetEndpointMute",
    "SetEndpointChannel", "Parts", "PartInfo", "GetPartLevel", "SetPartLevel", "GetPartMute", "SetPartMute",
    "SetDuckRule", "Http"}

Field = namedtuple("Field", "name type optional")
Shape = namedtuple("Shape", "name kind code fields")
Event = namedtuple("Event", "name values")
Reply = namedtuple("Reply", "kind conn tag result payload")


def fields_of(line):
    return [Field(*word.rstrip("?").split(":"), word.endswith("?")) for word in line.split()]


SHAPES = {name: Shape(name, kind, code, fields_of(HEADS.get(kind, "") + "code:u8 " * bool(code) + fields))
          for kind, code, name, fields, _ in EVENTS}
PAYLOADS = {(name, S_OK): fields_of(payload) for _, _, name, _, payload in EVENTS}
PAYLOADS["IsFormatSupported", S_FALSE] = fields_of("format:format")
PAYLOADS["Call", S_FALSE] = PAYLOADS["Call", S_OK]
_BY_CODE = {(shape.kind, shape.code): shape for shape in SHAPES.values()}
WORDS = {name.lower(): shape for name, shape in SHAPES.items()}


def matched(pattern, word, what):
    """The match of a whole word. ValueError says that it is no such thing."""
    match = re.fullmatch(pattern, word)
    if not match:
        raise ValueError(f"'{word}' is no {what}")
    return match


def near(word, words):
    """The end of a line on a wrong word: the nearest of the words, if one is near."""
    by_low = {known.lower(): known for known in words}
    close = difflib.get_close_matches(word.lower(), by_low, 1)
    return f"; did you mean {by_low[close[0]]}?" if close else ""


def shape_of(word):
    """The shape of the event that a word names, in any case."""
    if word.lower() == "release":
        raise ValueError("'release' may be releasebuffer (frames of a lease) or releaseclient (the client goes)")
    if word.lower() not in WORDS:
        raise ValueError(f"no event is called '{word}'{near(word, WORDS)}")
    return WORDS[word.lower()]


def _limit(type_name, value):
    least, most = LIMITS.get(type_name) or (0, 256 ** SIZES[type_name] - 1)
    if not least <= value <= most:
        what = f"{type_name} " * (type_name in ("length", "kind")) if type_name in SIZES else "length "
        raise ValueError(f"{what}{value} is not " + (f"from {least} to {most}" if least < most else str(most)))
    return value


def format_bytes(rate, channels, mask=None):
    """WAVEFORMATEX of signed 16-bit samples, or with a channel mask WAVEFORMATEXTENSIBLE."""
    pcm = "0100000000001000800000aa00389b71"
    more = b"" if mask is None else put("u16", 16) + put("u32", mask) + bytes.fromhex(pcm)
    values = 0xFFFE if more else 1, channels, rate, rate * channels * 2, channels * 2, 16, len(more)
    return b"".join(map(put, "u16 u16 u32 u32 u16 u16 u16".split(), values)) + more


def put(type_name, value):
    """The bytes of one field."""
    if type_name in SIZES:
        return _limit(type_name, value).to_bytes(SIZES[type_name], "little")
    if type_name in ("text", "format"):
        return put("u16", _limit(type_name, len(value))) + value
    if type_name == "guid":
        _limit(type_name, len(value))
    return value


def spell(event_name, /, **values):
    """The whole frame of one event. ValueError if a field is missing, unknown or doesn't fit."""
    shape = SHAPES[event_name]
    values.setdefault("code", shape.code)
    body = put("kind", shape.kind)
    for field in shape.fields:
        if values.get(field.name) is None and not field.optional:
            raise ValueError(f"{field.name} is missing")
        body += put(field.type, values.pop(field.name, NULL_GUID if field.type == "guid" else 0))
    if values.keys() - {"code"}:
        raise ValueError(f"{event_name} has no field {', '.join(values)}")
    return put("length", len(body)) + body


def _exactly(size, stream):
    data = stream.read(size)
    if len(data) < size:
        raise ValueError(f"{size} bytes are wanted and {len(data)} are left")
    return data


def _take(type_name, stream):
    if type_name in SIZES:
        return _limit(type_name, int.from_bytes(_exactly(SIZES[type_name], stream), "little"))
    if type_name in ("text", "format"):
        return _exactly(_limit(type_name, _take("u16", stream)), stream)
    if type_name in RECORDS:
        return {field.name: _take(field.type, stream) for field in fields_of(RECORDS[type_name])}
    if type_name.endswith("[]"):
        return [_take(type_name[:-2], stream) for _ in range(_take("u32", stream))]
    return _exactly(16, stream) if type_name == "guid" else stream.read()


def _read(fields, data):
    stream = io.BytesIO(data)
    values = {field.name: _take(field.type, stream) for field in fields}
    if stream.tell() < len(data):
        raise ValueError(f"{len(data) - stream.tell()} bytes too many")
    return values


def bodies(data):
    """The bodies of a list of frames, one after another: frames without their lengths."""
    stream = io.BytesIO(data)
    while stream.tell() < len(data):
        yield _exactly(_take("length", stream), stream)


def read_event(body):
    shape = _BY_CODE[_take("kind", io.BytesIO(body)), None]
    values = _read(shape.fields, body[1:])
    listed = _BY_CODE.get((shape.kind, values.get("code")), shape)
    if listed is not shape:
        values = _read(listed.fields, body[1:])
        del values["code"]
    return Event(listed.name, values)


def read_reply(body):
    """The payload of a call stays bytes, as the reply doesn't say the code."""
    reply = Reply(**_read(fields_of("kind:kind conn:u8 tag:u32 result:u32 payload:rest"), body))
    decode_payload(_BY_CODE[reply.kind, None].name, reply.result, reply.payload)
    return reply


def decode_payload(event_name, result, payload):
    """The fields of a payload, by the name of the event that was answered. A refusal has none."""
    return _read(PAYLOADS.get((event_name, result), []), payload)
