"""Tests of what `events` does for capture: python3 -m unittest discover -s tools

The replies are made by hand, so no program is needed.
"""
import tempfile
import unittest
import wave
from pathlib import Path

import shown
import wire
from load_tool import load_tool, run_main
from pehvonk import read_frames, samples_of

EMPTY = wire.RESULTS["S_BUFFER_EMPTY"]

events = load_tool("events")

# a microphone at endpoint 2, a client that opens its stream, and what it does besides
OPENED = """add 1 render rate=48000 channels=2 name=Speakers
add 2 capture rate=48000 channels=1 name=Microphone
open 1 pid=10 name=recorder
activate endpoint=2 role=console
initialize client=1 shared duration=0 format=48000x1
start client=1
"""
OPENED_REPLIES = [(5, wire.S_OK, ""), (5, wire.S_OK, ""), (1, wire.S_OK, ""), (3, wire.S_OK, "0100000000000000"),
                  (3, wire.S_OK, "0100000000000000"), (3, wire.S_OK, "")]

# the fake program gives the replies that stand beside it, whatever it is asked
PROGRAM = """#!/bin/sh
cat > /dev/null
cat "$(dirname "$0")/replies"
"""


def frame(kind, result, payload):
    """The frame of a reply, from its kind, its result and the hex of its payload."""
    body = bytes([kind, 0]) + bytes(4) + result.to_bytes(4, "little") + bytes.fromhex(payload)
    return len(body).to_bytes(4, "little") + body


def packet(samples, flags=0, position=0):
    """The payload of a packet with one channel, in hex."""
    data = b"".join((sample & 0xFFFF).to_bytes(2, "little") for sample in samples)
    numbers = len(samples).to_bytes(4, "little") + flags.to_bytes(4, "little") + position.to_bytes(8, "little")
    return (numbers + data).hex()


class Capture(unittest.TestCase):
    def setUp(self):
        folder = tempfile.TemporaryDirectory()
        self.addCleanup(folder.cleanup)
        self.folder = Path(folder.name)

    def run_with(self, calls, replies, *options):
        """What `events run` prints, for a script that goes on with these calls and has these replies to them."""
        program = self.folder / "program"
        program.write_text(PROGRAM)
        program.chmod(0o755)
        frames = b"".join(frame(*reply) for reply in OPENED_REPLIES + replies)
        (self.folder / "replies").write_bytes(frames)
        return run_main(events, ("run", "-", "--program", str(program), *options), (OPENED + calls).encode())

    def ends(self, done, status, line):
        self.assertEqual((done[0], done[2]), (status, line))
        return done[1]

    def wav(self, rate, channels, size, data):
        file = self.folder / "sound.wav"
        with wave.open(str(file), "wb") as out:
            out.setnchannels(channels)
            out.setsampwidth(size)
            out.setframerate(rate)
            out.writeframes(data)
        return file


class Shown(Capture):
    def test_replies_are_shown_in_words(self):
        replies = [
            ("GetNextPacketSize", wire.S_OK, "e0010000", "S_OK frames=480"),
            ("CaptureGetBuffer", wire.S_OK, packet([5, -5], 1, 1920),
             "S_OK frames=2 flags=discontinuity position=1920 bytes=0500fbff"),
            ("CaptureGetBuffer", wire.S_OK, packet(range(480)),
             "S_OK frames=480 flags=0 position=0 bytes=00000100020003000400050006000700...(960 bytes)"),
            ("CaptureGetBuffer", EMPTY, "", "S_BUFFER_EMPTY"),
            ("CaptureReleaseBuffer", wire.RESULTS["INVALID_SIZE"], "", "INVALID_SIZE"),
            ("CaptureReleaseBuffer", wire.S_OK, "", "S_OK"),
        ]
        for name, result, payload, line in replies:
            with self.subTest(line):
                self.assertEqual(shown.reply_line(frame(3, result, payload)[4:], name), line)

    def test_a_packet_has_its_fields(self):
        for payload in ("", "e0010000" "00000000" "00000000000000"):
            with self.subTest(payload):
                with self.assertRaises(ValueError):
                    wire.decode_payload("CaptureGetBuffer", wire.S_OK, bytes.fromhex(payload))


class Input(Capture):
    SAMPLES = bytes.fromhex("0100" "feff" "0300")

    def shown(self, file):
        """The line of the endpoint's file after a run with this input."""
        return self.ends(self.run_with("", [], "--input", f"2={file}"), 0, "").splitlines()[-1]

    def test_a_device_gives_the_frames_of_a_file(self):
        line = "endpoint-2.pcm: 6 bytes, 3 frames of 1 channels: 1 | -2 | 3"
        self.assertEqual(self.shown(self.wav(48000, 1, 2, self.SAMPLES)), line)
        raw = self.folder / "sound.raw"
        raw.write_bytes(self.SAMPLES)
        self.assertEqual(self.shown(raw), line)

    def test_a_wav_file_of_another_format(self):
        for rate, channels, size, found in [(44100, 1, 2, "44100x1 of 16"), (48000, 2, 2, "48000x2 of 16"),
                                            (48000, 1, 1, "48000x1 of 8"), (48000, 1, 3, "48000x1 of 24")]:
            with self.subTest(found):
                file = self.wav(rate, channels, size, bytes(12))
                done = self.run_with("", [], "--input", f"2={file}")
                self.assertEqual(self.ends(done, 2, f"{file}: {found} bits, and not 48000x1 of 16\n"), "")

    def test_a_file_that_is_no_wav_file(self):
        file = self.folder / "sound.WAV"
        whole = self.wav(48000, 1, 2, self.SAMPLES).read_bytes()
        for data in (b"", whole[:10], whole[:30], b"RIFX" + whole[4:], whole.replace(b"fmt ", b"abcd")):
            with self.subTest(data[:12]):
                file.write_bytes(data)
                done = self.run_with("", [], "--input", f"2={file}")
                self.assertEqual(done[:2], (2, ""))
                self.assertRegex(done[2], r"^\S+sound.WAV: no WAV file of plain samples \(.+\)\n$")

    def test_an_endpoint_that_does_not_capture(self):
        raw = self.folder / "sound.raw"
        raw.write_bytes(self.SAMPLES)
        for endpoint in (1, 3):
            done = self.run_with("", [], "--input", f"{endpoint}={raw}")
            line = f"--input {endpoint}={raw}: the script adds no capture endpoint {endpoint}\n"
            self.assertEqual(self.ends(done, 2, line), "")

    def test_a_file_that_is_not_there(self):
        for file in ("no/such.wav", "no/such.raw"):
            done = self.run_with("", [], "--input", f"2={file}")
            self.assertEqual(self.ends(done, 2, f"{file}: No such file or directory\n"), "")


class Captured(Capture):
    # a packet is looked at twice and read once, a second one is only looked at, and another client reads one
    CALLS = """capturegetbuffer client=1
capturereleasebuffer client=1 frames=0
capturegetbuffer client=1
capturereleasebuffer client=1 frames=1
capturereleasebuffer client=1 frames=2
capturereleasebuffer client=1 frames=2
capturegetbuffer client=2
capturereleasebuffer client=2 frames=2
capturegetbuffer client=1
capturereleasebuffer client=1 frames=2
capturegetbuffer client=1
capturegetbuffer client=1
"""
    REPLIES = [
        (3, wire.S_OK, packet([1, -2])), (3, wire.S_OK, ""), (3, wire.S_OK, packet([1, -2])),
        (3, wire.RESULTS["INVALID_SIZE"], ""), (3, wire.S_OK, ""), (3, wire.RESULTS["OUT_OF_ORDER"], ""),
        (3, wire.S_OK, packet([9, 9])), (3, wire.S_OK, ""), (3, wire.S_OK, packet([3, -4], 1, 4)), (3, wire.S_OK, ""),
        (3, EMPTY, ""), (3, wire.S_OK, packet([5, 6], 0, 6))]

    def test_packets_that_were_read_are_written_once(self):
        wav, raw = self.folder / "heard.wav", self.folder / "heard.raw"
        for file in (wav, raw):
            self.ends(self.run_with(self.CALLS, self.REPLIES, "--captured", f"1={file}"), 0, "")
        self.assertEqual(list(samples_of(raw.read_bytes())), [1, -2, 3, -4])
        self.assertEqual(read_frames(wav, 48000, 1), raw.read_bytes())

    def test_a_client_that_read_nothing(self):
        wav = self.folder / "heard.wav"
        self.ends(self.run_with("", [], "--captured", f"1={wav}"), 0, "")
        self.assertEqual(read_frames(wav, 48000, 1), b"")

    def test_a_client_without_a_stream(self):
        raw = self.folder / "heard.raw"
        done = self.run_with(self.CALLS, self.REPLIES, "--captured", f"2={raw}")
        self.ends(done, 2, f"--captured 2={raw}: client 2 has no stream\n")
        self.assertFalse(raw.exists())

    def test_replies_that_end_or_are_malformed(self):
        raw = self.folder / "heard.raw"
        cut = [(3, wire.S_OK, packet([1, -2])), (3, wire.S_OK, ""), (3, wire.S_OK, "01")]
        calls = "".join(self.CALLS.splitlines(True)[2:6:2] + self.CALLS.splitlines(True)[8:])
        self.run_with(calls, cut, "--captured", f"1={raw}")
        self.assertEqual(list(samples_of(raw.read_bytes())), [1, -2])

    def test_a_file_that_cannot_be_written(self):
        for file in ("no/such.wav", "no/such.raw"):
            done = self.run_with(self.CALLS, self.REPLIES, "--captured", f"1={file}")
            self.ends(done, 2, f"{file}: No such file or directory\n")


class WrongWords(Capture):
    def test_options(self):
        for options in (("--input",), ("--input", "2"), ("--input", "=x"), ("--input", "two=x"), ("--input", "2="),
                        ("--captured", "-1=x"), ("--heard", "1=x"), ("--program", "x"),
                        ("--input", "2=x", "--input", "2=y"), ("--captured", "1=x", "--captured", "01=x")):
            with self.subTest(options):
                done = self.run_with("", [], *options)
                self.assertEqual(self.ends(done, 2, events.USAGE + "\n"), "")


if __name__ == "__main__":
    unittest.main()
