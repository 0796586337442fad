"""Tests of scripts: their lines' bytes, what is refused, and what is expected."""
import tempfile
import unittest
from pathlib import Path

import shown
import wire
from script import WrongScript, read_script
from test_wire import EXTENSIBLE, FORMAT, GUID, values_of

TOOLS = Path(__file__).resolve().parent
PLACE = TOOLS.parent / "crates/audio_daemon"


def spelled(script):
    """The bytes of a script's text, or the lines that refuse it, without the script's name."""
    with tempfile.TemporaryDirectory() as folder:
        file = Path(folder) / "script"
        file.write_text(script, encoding="utf-8", errors="surrogateescape")
        try:
            return read_script(str(file)).events.spell()
        except WrongScript as wrong:
            return str(wrong).replace(f"{file}:", "")


class TheBytes(unittest.TestCase):
    # a line of a script, and the bytes that the wire format has for it
    EXACT = [
        ("period 1", "05000000" "04" "01000000"),
        ("shutdown", "01000000" "07"),
        ("hangup 2", "02000000" "02" "02"),
        ("open 1 pid=10 name=player", "0e000000" "01" "01" "0a000000" "0600706c61796572"),
        ("add 1 render rate=48000 channels=2 name=Speakers",
         "25000000" "05" "01" "01000000" "00" "1200" + FORMAT + "0800537065616b657273"),
        ("setdefault render console 1", "08000000" "05" "05" "00" "00" "01000000"),
        ("setstate endpoint=1 state=active+unplugged", "0a000000" "05" "02" "01000000" "09000000"),
        ("activate conn=2 tag=7 endpoint=1 role=none", "0c000000" "03" "02" "07000000" "05" "01000000" "ff"),
        ("register devices 0", "10000000" "03" "01" "01000000" "07" "01" "0000000000000000"),
        ("register class=7 subject=1", "10000000" "03" "01" "01000000" "07" "07" "0100000000000000"),
        ("releaseclient client=1", "0f000000" "03" "01" "01000000" "06" "0100000000000000"),
        ("releasebuffer client=1 frames=2 ramp",
         "1f000000" "03" "01" "01000000" "21" "0100000000000000" "02000000" "00000000"
         "00000000" "0100ffff"),
        ("releasebuffer client=1 frames=1 channels=1 level=-2 flags=silent",
         "19000000" "03" "01" "01000000" "21" "0100000000000000" "01000000" "02000000" "feff"),
        ("releasebuffer client=1 frames=0x20 flags=2 bytes=",
         "17000000" "03" "01" "01000000" "21" "0100000000000000" "20000000" "02000000"),
        ("initialize client=1 exclusive duration=20us period=1s flags=loopback+nopersist format=48000x2 "
         "session=00112233-4455-6677-8899-AABBCCDDEEFF",
         "4b000000" "03" "01" "01000000" "10" "0100000000000000" "01000000" "00000a00" "c800000000000000"
         "8096980000000000" "1200" + FORMAT + GUID),
        ("isformatsupported 1 shared 48000x2ext:3",
         "3d000000" "03" "01" "01000000" "14" "0100000000000000" "00000000" "2800" + EXTENSIBLE),
        ("setdisplayname session=3 text=\"a \\\"b\\\" #c\" # this is none of it",
         "29000000" "03" "01" "01000000" "35" "0300000000000000" + "00" * 16 + "0800" "6120226222202363"),
        ("setmaster session=1 level=50%",
         "23000000" "03" "01" "01000000" "32" "0100000000000000" "00800000" + "00" * 16),
        ("setstreamlevel client=1 channel=0 level=1%",
         "17000000" "03" "01" "01000000" "1e" "0100000000000000" "00000000" "8f020000"),
        ("setname 1 name=hex:ff", "09000000" "05" "08" "01000000" "0100" "ff"),
        ("takenotices max=1000", "0b000000" "03" "01" "01000000" "09" "e8030000"),
        ("getduckrule", "07000000" "03" "01" "01000000" "39"),
        ("call code=200 rest=0102", "09000000" "03" "01" "01000000" "c8" "0102"),
        ("device code=99 rest=", "02000000" "05" "63"),
        ("http \"GET / HTTP/1.0\\r\\n\\r\\n\"", "13000000" "06" + b"GET / HTTP/1.0\r\n\r\n".hex()),
        ("http hex:0d0a", "03000000" "06" "0d0a"),
        ("raw 0500000004 00", "050000000400"),
        ("  # nothing but a comment", ""),
        ("", ""),
    ]

    def test_every_event_can_be_written_as_it_is_shown(self):
        for name, shape in wire.SHAPES.items():
            for largest in (False, True):
                with self.subTest(name, largest=largest):
                    values = values_of(shape, largest)
                    if values.keys() & {"rest", "bytes"}:
                        values[shape.fields[-1].name] = bytes(range(32))
                    frame = wire.spell(name, **values)
                    self.assertEqual(spelled(shown.event_line(frame[4:])), frame)

    def test_lines(self):
        for line, expected in self.EXACT:
            with self.subTest(line):
                result = spelled(line)
                self.assertEqual(result.hex() if isinstance(result, bytes) else result, expected)

    def test_a_call_has_its_number_in_the_script_as_its_tag(self):
        data = spelled("start client=1\nperiod 1\nstop client=1 tag=9\n\nreset client=1 conn=3\n")
        calls = [wire.read_event(body).values for body in wire.bodies(data) if body[0] == 3]
        self.assertEqual([(call["conn"], call["tag"]) for call in calls], [(1, 1), (1, 9), (3, 3)])

    def test_a_ramp_wraps_at_16_bits(self):
        data = spelled("releasebuffer client=1 frames=40000 ramp")[-4:]
        self.assertEqual(data.hex(), (39999 - 65536).to_bytes(2, "little", signed=True).hex()
                         + (65536 - 39999).to_bytes(2, "little", signed=True).hex())

    def test_the_names_of_the_documents(self):
        alike = [("GetBuffer client=1 frames=1", "getbuffer client=1 frames=1"),
                 ("ReleaseClient client=1", "releaseclient client=1"),
                 ("Add 1 RENDER 48000x2 Speakers", "add 1 render 48000x2 Speakers"),
                 ("SetState 1 ACTIVE", "setstate 1 active")]
        for first, second in alike:
            with self.subTest(first):
                self.assertEqual(spelled(first), spelled(second))

    def test_repeats(self):
        period = wire.spell("Period", endpoint=1)
        for text, times in [("period 1 x100", 100), ("repeat 3 { period 1 }", 3), ("repeat 0 {\nperiod 1\n}", 0),
                            ("repeat 2 {\n  period 1\n  repeat 3 { period 1 x2 }\n}", 14)]:
            with self.subTest(text):
                self.assertEqual(spelled(text), period * times)
        self.assertEqual(spelled("setname 1 x3"), wire.spell("SetName", endpoint=1, name=b"x3"))
        tags = [wire.read_event(body).values["tag"] for body in wire.bodies(spelled("start 1 x2\nrepeat 2 { stop 1 }"))]
        self.assertEqual(tags, [1, 2, 3, 4])

    def test_variables_count_what_is_granted(self):
        text = ("activate endpoint=1 role=console\nactivate conn=2 endpoint=1 role=console\nstart client=$c1\n"
                "start client=$c2\nstart client=$c\nstart conn=2 client=$c\nregister devices 0\nunregister $r\n")
        values = [wire.read_event(body).values for body in wire.bodies(spelled(text))]
        self.assertEqual([value["client"] for value in values[2:6]], [1, 2, 2, 2])
        self.assertEqual(values[7]["registration"], 1)

    def test_the_stored_run(self):
        script = (TOOLS.parent / "examples/01-hello.script").read_text()
        self.assertEqual(spelled(script), (PLACE / "stdin").read_bytes())


class WrongLines(unittest.TestCase):
    # a line, the column of its wrong word, and what is wrong
    WRONG = [
        ("opne 1 pid=10 name=player", 1, "no event is called 'opne'; did you mean open?"),
        ("=5", 1, "no event is called '=5'"),
        ("endpoint=period 1", 1, "no event is called 'endpoint=period'; did you mean setendpointmaster?"),
        ("open 33 pid=10 name=player", 6, "conn: 33 is not from 1 to 32"),
        ("open 1 pid=10", 1, "name is missing"),
        ("open 1 pid=x name=player", 8, "pid: 'x' is no number"),
        ("open 1 pid=-1 name=player", 8, "pid: '-1' is no number"),
        ("open 1 pid=10 name=player pid=11", 27, "pid is given twice"),
        ("open 1 10 player more", 18, "Open takes no 'more'"),
        ("open 1 10 " + "n" * 257, 11, "name: length 257 is not from 0 to 256"),
        ("activate endpoint=1 role=boss", 21, "role: 'boss' is no role: console, multimedia, communications, none"),
        ("activate endpoint=1 rol=console", 21, "Activate takes no 'rol'; did you mean role?"),
        ("activate endpoint= role=console", 10, "endpoint: '' is no number"),
        ("activate endpoint=1 role=256", 21, "role: 256 is not from 0 to 255"),
        ("getbuffer code=33 client=1 frames=1", 11, "GetBuffer takes no 'code'"),
        ("initialize client=1 shared format=48000x2", 1, "duration is missing"),
        ("initialize client=1 shared duration=5m format=48000x2", 28, "duration: '5m' is no time"),
        ("initialize client=1 shared duration=0 format=48000", 39, "format: '48000' is no format"),
        ("initialize client=1 shared duration=0 format=48000x40000", 39, "format: 80000 is not from 0 to 65535"),
        ("initialize client=1 shared 0 48000x2 flags=loopback+loud", 38,
         "flags: 'loopback+loud' is no stream_flags: crossprocess, loopback, eventcallback, nopersist; "
         "did you mean loopback?"),
        ("initialize client=1 shared 0 48000x2 session=1234", 38, "session: length 2 is not 16"),
        ("releasebuffer client=1 frames=480", 1, "bytes is missing"),
        ("releasebuffer client=1 frames=x ramp", 24, "frames: 'x' is no number"),
        ("releasebuffer client=1 frames=480 ramp channels=x", 40, "channels: 'x' is no number"),
        ("releasebuffer client=1 frames=480 level=loud", 35, "'level=loud' is no sample"),
        ("releasebuffer client=1 frames=480 ramp level=5", 35, "ReleaseBuffer takes no 'ramp'"),
        ("releasebuffer client=1 frames=480 bytes= level=5", 42, "bytes is given twice"),
        ("releasebuffer client=1 frames=480 bytes=123", 35, "bytes: '123' is no list of bytes in hex"),
        ("releasebuffer client=1 frames=480 bytes= channels=2", 42,
         "ReleaseBuffer takes no 'channels' beside bytes in hex"),
        ("releasebuffer client=1 frames=9999999 ramp", 39, "9999999 frames of 2 channels are too many"),
        ("setmaster session=1 level=loud", 21, "level: 'loud' is no level"),
        ("setmaster session=1 level=1.5%", 21, "level: '1.5%' is no level"),
        ("period 4294967296", 8, "endpoint: 4294967296 is not from 0 to 4294967295"),
        ("period 1s", 8, "endpoint: '1s' is no number"),
        ("add 1 render rate=48000 channels=2 name=\"Speakers", 41, "no JSON string begins here"),
        ("add 1 render rate=48000 channels=2 name=\"a\\q\"", 41, "no JSON string begins here"),
        ("add 1 render rate=48k channels=2 name=Speakers", 14, "format: '48kx2' is no format"),
        ("add 1 render format=48000x2 rate=48000 name=Speakers", 29, "format is given twice"),
        ("add 1 sideways rate=48000 channels=2 name=x", 7, "flow: 'sideways' is no flow: render, capture, all"),
        ("raw 0500000004 0g 00", 16, "'0g' is no list of bytes in hex"),
        ("call code=300 rest=", 6, "code: 300 is not from 0 to 255"),
        ("call code=200", 1, "rest is missing"),
        ("http hex:4", 6, "request: 'hex:4' is no list of bytes in hex"),
        ("http GET /", 10, "Http takes no '/'"),
        ("period 1 level=5", 10, "Period takes no 'level'"),
        ("releaseclient 1 rate=5", 17, "ReleaseClient takes no 'rate'"),
        ("add 1 render format=48000x2 channels=2 name=x", 29, "Add takes no 'channels'"),
        ("shutdown now", 10, "Shutdown takes no 'now'"),
        # the nearest word, and the field that is missing in place of the word that follows
        ("GetBufer client=1 frames=3", 1, "no event is called 'GetBufer'; did you mean getbuffer?"),
        ("getbuffer client=1 frame=3", 20, "GetBuffer takes no 'frame'; did you mean frames?"),
        ("activate endpoint=1 role=consol", 21,
         "role: 'consol' is no role: console, multimedia, communications, none; did you mean console?"),
        ("add render rate=48000 channels=2 name=Speakers", 1, "endpoint is missing"),
        ("add 1 format=48000x2 name=Speakers", 1, "flow is missing"),
        ("releasebuffer client=1 ramp", 1, "frames is missing"),
        ("Release client=1", 1,
         "'release' may be releasebuffer (frames of a lease) or releaseclient (the client goes)"),
        ("releasebuffer client=1 frames=1 ramp from=1", 33, "from= is for a file"),
        ("start client=$x1", 7, "client: '$x1' is no number"),
        ("repeat 2", 1, "repeat N { .. } is repeat, a number, and { on the same line"),
        ("}", 1, "no repeat is open here"),
        ("expect", 1, "expect what? A code such as S_OK, or frames"),
        ("expect S_OK", 8, "no event is before it"),
        ("expect S_OX", 8, "no result is called 'S_OX'; did you mean S_OK?"),
        ("expect frames endpoint=1", 15, "what frames? ramp, zeros, level=N or @FILE"),
        ("expect frames zeros", 15, "endpoint is missing"),
        ("expect frames endpoint=1 zero", 26, "expect frames takes no 'zero'; did you mean zeros?"),
        ("device 2 input=voice.wav", 10, "the input of a device is one @FILE"),
        ("fail call=1", 6, "endpoint is missing"),
        ("fail endpoint=1 cal=1", 17, "fail takes no 'cal'; did you mean call?"),
    ]

    def test_wrong_lines(self):
        for line, column, message in self.WRONG:
            with self.subTest(line):
                script = f"# a line before\n{line}\nperiod 1\n"
                self.assertEqual(spelled(script), f"2:{column}: {message}")

    def test_all_wrong_lines_are_told_at_most_ten(self):
        lines = spelled("opne\n" * 3 + "period 1\nperiod\n" + "opne\n" * 9).split("\n")
        self.assertEqual([line.split(":")[0] for line in lines], ["1", "2", "3", "5", "6", "7", "8", "9", "10", "11"])
        self.assertEqual(lines[3], "5:1: endpoint is missing")

    def test_a_repeat_that_is_not_closed(self):
        self.assertEqual(spelled("repeat 2 {\nperiod 1"), "2:1: a repeat isn't closed: } is missing")
        self.assertEqual(spelled("repeat x {\nperiod 1\n}"), "1:8: 'x' is no number")
        self.assertEqual(spelled("repeat 99999 { period 1 x99 }"), "1:1: more than 1000000 events")


if __name__ == "__main__":
    unittest.main()
