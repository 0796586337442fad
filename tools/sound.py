"""Frames as scripts write them: ramp, zeros, level=N or @FILE."""
import re
from pathlib import Path

from pehvonk import read_frames, samples_of, scaled, sound_of
from wire import LIMITS, matched


def file_of(word, folder):
    """The path of @FILE, from the script's folder on."""
    path = Path(folder, word[1:])
    if not path.is_file():
        raise ValueError(f"{path}: there is no such file")
    return path


class Sound:
    """Frames that a script asks for. As the value of a field of ReleaseBuffer it is their bytes.

    A ramp has the samples i, -i, i, -i in its frame i. A file gives its frames from `start` on, with silence behind
    its end. Where the channels aren't given they are those of the client's stream, or two if it has none.
    """

    def __init__(self, how, folder, frames=0, channels=None, start=None):
        self.how, self.folder, self.frames, self.channels, self.start = how, folder, frames, channels, start
        if how.startswith("level="):
            matched("level=(-?[0-9]+)", how, "sample")
        elif how.startswith("@"):
            file_of(how, folder)
        elif start is not None:
            raise ValueError("from= is for a file")
        if max(frames, 1) * (channels or 2) * 2 > LIMITS["length"][1]:
            raise ValueError(f"{frames} frames of {channels or 2} channels are too many")

    @staticmethod
    def is_made(word):
        return word in ("ramp", "zeros") or word.startswith(("level=", "@"))

    @staticmethod
    def is_word(word):
        return Sound.is_made(word) or bool(re.fullmatch("(?:[0-9a-fA-F]{2})*", word))

    def read_on(self, client, places):
        """The same, but a file goes on where the client's last data ended, if no start is given."""
        key = str(client), self.how
        start = places.get(key, 0) if self.start is None else self.start
        places[key] = start + self.frames
        return self if not self.how.startswith("@") else Sound(self.how, self.folder, self.frames, self.channels, start)

    def __call__(self, known, values):
        rate, channels = sound_of(known.get(("format", values["client"]), bytes(8)))
        if self.how.startswith("@") and not rate:
            raise ValueError("the client has no stream whose format the file could have")
        return self.of(self.frames, rate, self.channels or channels or 2)

    def of(self, frames, rate, channels):
        """The bytes of so many frames; of all that a file has, if they are None."""
        if self.how.startswith("@"):
            size = 2 * channels
            data = read_frames(file_of(self.how, self.folder), rate, channels)[(self.start or 0) * size:]
            return data if frames is None else data[:frames * size].ljust(frames * size, b"\0")
        level = int(self.how[6:]) if self.how.startswith("level=") else 0
        slopes = [(self.how == "ramp") * (-1) ** channel for channel in range(channels)]
        samples = (level + slope * frame for frame in range(frames) for slope in slopes)
        return b"".join((sample & 0xFFFF).to_bytes(2, "little") for sample in samples)

    def samples(self, frames, rate, channels, gain="100%"):
        return scaled(samples_of(self.of(frames, rate, channels)), gain)
