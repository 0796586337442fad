"""Tests of the tables of `wire.py`, and of what it spells and reads."""
import unittest

import wire

FORMAT = "01000200" "80bb0000" "00ee0200" "04001000" "0000"
EXTENSIBLE = ("feff0200" "80bb0000" "00ee0200" "04001000" "1600"
              "1000" "03000000" "0100000000001000800000aa00389b71")
GUID = "00112233445566778899aabbccddeeff"

def values_of(shape, largest):
    """Values for each field of an event: small ones, or the largest that the wire has."""
    values = {}
    for field in shape.fields:
        if field.type in wire.SIZES:
            most = wire.LIMITS.get(field.type, (0, 256 ** wire.SIZES[field.type] - 1))[1]
            values[field.name] = most if largest else 1
        elif field.type == "guid":
            values[field.name] = bytes.fromhex(GUID) if largest else wire.NULL_GUID
        elif field.type == "format":
            values[field.name] = bytes.fromhex(EXTENSIBLE if largest else FORMAT)
        else:
            values[field.name] = ("\u00e9\"\\ #" * 32).encode()[:256] if largest else b""
    if shape.code is not None:
        del values["code"]
    elif "code" in values:
        values["code"] = 255
    return values


class TheTable(unittest.TestCase):
    # code by name, as the wire format lists them
    CALLS = {
        1: "EnumEndpoints", 2: "GetDefault", 3: "GetDevice", 4: "DeviceInfo", 5: "Activate", 6: "ReleaseClient",
        7: "Register", 8: "Unregister", 9: "TakeNotices", 10: "AwaitNotices", 16: "Initialize",
        17: "GetBufferSize", 18: "GetStreamLatency", 19: "GetCurrentPadding", 20: "IsFormatSupported",
        21: "GetMixFormat", 22: "GetDevicePeriod", 23: "Start", 24: "Stop", 25: "Reset",
        26: "SetEventHandle", 27: "GetService", 28: "GetPosition", 29: "GetStreamLevel",
        30: "SetStreamLevel", 32: "GetBuffer", 33: "ReleaseBuffer", 34: "GetNextPacketSize",
        35: "CaptureGetBuffer", 36: "CaptureReleaseBuffer", 48: "EnumSessions", 49: "GetSession",
        50: "SetMaster", 51: "SetMute", 52: "SetChannel", 53: "SetDisplayName", 54: "SetIconPath",
        55: "SetGrouping", 56: "SetDuckPreference", 57: "GetDuckRule", 64: "GetEndpointVolume",
        65: "SetEndpointMaster", 66: "SetEndpointMute", 67: "SetEndpointChannel", 72: "Parts",
        73: "PartInfo", 74: "GetPartLevel", 75: "SetPartLevel", 76: "GetPartMute", 77: "SetPartMute"}
    DEVICE_EVENTS = {
        1: "Add", 2: "SetState", 3: "Remove", 4: "SetFormat", 5: "SetDefault", 6: "SetExclusive",
        7: "SetDuckRule", 8: "SetName"}
    KINDS = {1: "Open", 2: "Hangup", 3: "Call", 4: "Period", 5: "Device", 6: "Http", 7: "Shutdown"}

    def listed(self, kind):
        return {shape.code: name for name, shape in wire.SHAPES.items() if shape.kind == kind and shape.code}

    def test_every_code_is_listed(self):
        self.assertEqual(self.listed(3), self.CALLS)
        self.assertEqual(self.listed(5), self.DEVICE_EVENTS)
        self.assertEqual({s.kind: name for name, s in wire.SHAPES.items() if s.code is None}, self.KINDS)

    def test_every_event_is_read_as_it_was_spelled(self):
        for name, shape in wire.SHAPES.items():
            for largest in (False, True):
                with self.subTest(name, largest=largest):
                    values = values_of(shape, largest)
                    frame = wire.spell(name, **values)
                    body, = wire.bodies(frame)
                    self.assertEqual(wire.read_event(body), wire.Event(name, values))

    def test_a_body_has_exactly_its_fields(self):
        for name, shape in wire.SHAPES.items():
            body = wire.spell(name, **values_of(shape, True))[4:]
            to_its_end = bool(shape.fields) and shape.fields[-1].type in ("rest", "message")
            with self.subTest(name):
                if not to_its_end:
                    self.assertRaises(ValueError, wire.read_event, body + b"\0")
                front = body[:-1] if not to_its_end else body[:1]
                if front and shape.fields[:1] and shape.fields[0].type != "message":
                    self.assertRaises(ValueError, wire.read_event, front)

    def test_formats(self):
        self.assertEqual(wire.format_bytes(48000, 2).hex(), FORMAT)
        self.assertEqual(wire.format_bytes(48000, 2, 3).hex(), EXTENSIBLE)


class Payloads(unittest.TestCase):
    # an event, the bytes of its payload, and the fields in them
    PAYLOADS = [
        ("Open", "", {}),
        ("Period", "e0010000" "00", {"frames": 480, "outcome": 0}),
        ("Http", "4869", {"response": b"Hi"}),
        ("Call", "0102", {"payload": b"\1\2"}),
        ("EnumEndpoints", "02000000" "01000000" "05000000", {"endpoints": [1, 5]}),
        ("EnumEndpoints", "00000000", {"endpoints": []}),
        ("DeviceInfo",
         "00" "01000000" "01" "01" "1200" + FORMAT + "0a00" + b"endpoint-1".hex() + "0100" "53",
         {"flow": 0, "state": 1, "allow": 1, "priority": 1, "format": bytes.fromhex(FORMAT),
          "id": b"endpoint-1", "name": b"S"}),
        ("Activate", "0100000000000000", {"client": 1}),
        ("GetDevicePeriod", "a086010000000000" "3075000000000000", {"default": 100_000, "minimum": 30_000}),
        ("GetMixFormat", "1200" + FORMAT, {"format": bytes.fromhex(FORMAT)}),
        ("GetPosition", "6400000000000000" "80bb000000000000", {"position": 100, "rate": 48000}),
        ("CaptureGetBuffer", "01000000" "01000000" "8007000000000000" "0500fbff",
         {"frames": 1, "flags": 1, "position": 1920, "bytes": bytes.fromhex("0500fbff")}),
        ("EnumSessions", "01000000" "0700000000000000", {"sessions": [7]}),
        ("GetSession",
         "01000000" "0a000000" "01" "00800000" "00" "02000000" "00000100" "00000100" "00000100" "01"
         + GUID + "0100" "69" "0100" "6e" "0100" "64" "0000",
         {"endpoint": 1, "process": 10, "state": 1, "level": 32768, "mute": 0, "levels": [65536, 65536],
          "duck": 65536, "optout": 1, "grouping": bytes.fromhex(GUID), "identifier": b"i", "instance": b"n",
          "display": b"d", "icon": b""}),
        ("GetEndpointVolume", "00000100" "01" "01000000" "00000100",
         {"level": 65536, "mute": 1, "levels": [65536]}),
        ("Parts", "01000000" "02000000", {"parts": [2]}),
        ("PartInfo", "01" "0600" + b"volume".hex(), {"kind": 1, "name": b"volume"}),
        ("TakeNotices", "01000000" "0200000000000000" "4d00000000000000" "0100000000000000" "01000000"
         "07" "0100000000000000" + GUID + "0500000000000000" "0000",
         {"events": [{"client": 2, "handle": 77}], "lost": 1,
          "notices": [{"notice": 7, "subject": 1, "context": bytes.fromhex(GUID), "value": 5, "text": b""}]}),
    ]

    def test_payloads(self):
        for name, data, values in self.PAYLOADS:
            with self.subTest(name):
                self.assertEqual(wire.decode_payload(name, wire.S_OK, bytes.fromhex(data)), values)

    def test_a_payload_has_exactly_its_fields(self):
        for name, data, _ in self.PAYLOADS:
            if name in ("Http", "Call", "CaptureGetBuffer"):
                continue  # the rest of these has any length
            with self.subTest(name):
                data = bytes.fromhex(data)
                self.assertRaises(ValueError, wire.decode_payload, name, wire.S_OK, data + b"\0")
                if data:
                    self.assertRaises(ValueError, wire.decode_payload, name, wire.S_OK, data[:-1])

    def test_other_results_have_no_payload(self):
        self.assertEqual(wire.decode_payload("Activate", wire.RESULTS["E_HANDLE"], b""), {})
        self.assertRaises(ValueError, wire.decode_payload, "Activate", wire.RESULTS["E_HANDLE"], bytes(8))
        self.assertEqual(wire.decode_payload("IsFormatSupported", wire.S_OK, b""), {})
        closest = wire.decode_payload("IsFormatSupported", wire.S_FALSE, bytes.fromhex("1200" + FORMAT))
        self.assertEqual(closest, {"format": bytes.fromhex(FORMAT)})


class MalformedBytes(unittest.TestCase):
    # the body of no event
    BODIES = [
        "00", "08",  # no kind
        "0100" "0a000000" "0000", "0121" "0a000000" "0000",  # connections 0 and 33
        "0101" "0a000000" "0101" + "00" * 257,  # a text of 257 bytes
        "04" "010000", "04" "0100000000", "07" "00", "0301" "01000000", "05",  # too few bytes, and too many
    ]
    # the body of no reply
    REPLIES = [
        "07" "00" "00000000" "00000000" "00",  # a payload that Shutdown hasn't
        "04" "00" "00000000" "000000",  # a result of three bytes
        "04" "00" "00000000" "90040780" "e001000000",  # a refusal with a payload
        "04" "00" "00000000" "00000000" "e0010000",  # a payload without its last byte
        "08" "00" "00000000" "00000000",  # no kind
    ]

    def test_events(self):
        for body in self.BODIES:
            with self.subTest(body):
                self.assertRaises(ValueError, wire.read_event, bytes.fromhex(body))

    def test_replies(self):
        for body in self.REPLIES:
            with self.subTest(body):
                self.assertRaises(ValueError, wire.read_reply, bytes.fromhex(body))

    def test_frames(self):
        for data in ("00000000", "01004000" "07", "0100", "02000000" "07"):
            with self.subTest(data):
                self.assertRaises(ValueError, list, wire.bodies(bytes.fromhex(data)))

    def test_spelling(self):
        wrong = [
            ("Open", {"conn": 0, "pid": 1, "name": b""}), ("Period", {}), ("Period", {"endpoint": -1}),
            ("Period", {"endpoint": 1, "conn": 1}), ("Http", {"request": bytes(4_194_304)}),
        ]
        for name, values in wrong:
            with self.subTest(name, fields=list(values)):
                self.assertRaises(ValueError, wire.spell, name, **values)


if __name__ == "__main__":
    unittest.main()
