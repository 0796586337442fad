"""The inputs of `bench`: each is a file of whole events, of which it is known how many they are and what they move."""
from wire import NAMES, format_bytes, spell

STEREO = format_bytes(48000, 2)
LOOPBACK = NAMES["stream_flags"]["loopback"]


class Input:
    """An input in a file: how many events it has, and how many bytes it has and plays, in all and in a period. Its
    device, if it records one, has some bytes to give, and the bytes that move are those of the replies."""

    def __init__(self, name, path, period, device=b"", has_packets=False):
        self.name, self.path, self.period, self.device = name, path, period, device
        self.events = self.size = self.played = 0
        self.moved = path.with_name("replies-moved") if has_packets else path

    def write(self, parts):
        with open(self.path, "wb") as file:
            for part, events, played in parts:
                self.size += file.write(part)
                self.events += events
                self.played += played
        return self


def endpoint(flow, pcm=STEREO):
    """An endpoint of this flow, and a connection: two events."""
    return (spell("Add", endpoint=1, flow=flow, format=pcm, name=b"Endpoint")
            + spell("Open", conn=1, pid=10, name=b"player"))


def running(clients, duration=0, pcm=STEREO, flags=0, share=0):
    """Clients of that endpoint whose streams run, with buffers of this duration: three events each."""
    return b"".join(
        spell("Activate", conn=1, tag=1, endpoint=1, role=0)
        + spell("Initialize", conn=1, tag=2, client=client, share=share, flags=flags, duration=duration, format=pcm)
        + spell("Start", conn=1, tag=3, client=client) for client in clients)


def opening(rate, channels):
    """An endpoint, and one client whose stream runs, with a buffer of 100 ms: five events."""
    pcm = format_bytes(rate, channels)
    return endpoint(0, pcm) + running([1], 1_000_000, pcm)


def release_buffer(frames, channels, clients=(1,)):
    """GetBuffer, and ReleaseBuffer of `frames` frames, of each client: two events each."""
    data = bytes(i % 251 for i in range(frames * channels * 2))
    return b"".join(spell("GetBuffer", conn=1, tag=4, client=client, frames=frames)
                    + spell("ReleaseBuffer", conn=1, tag=5, client=client, frames=frames, bytes=data)
                    for client in clients)


def take_packets(clients):
    """CaptureGetBuffer, and CaptureReleaseBuffer of a period, of each client: two events each."""
    return b"".join(spell("CaptureGetBuffer", conn=1, tag=4, client=client)
                    + spell("CaptureReleaseBuffer", conn=1, tag=5, client=client, frames=480) for client in clients)


def small_events(path, count):
    """About `count` events: again and again ten times four frames, and a period."""
    rate, channels, period = 48000, 2, 1920
    one = release_buffer(4, channels) * 10 + spell("Period", endpoint=1)
    repeats = [(one, 21, period)] * ((count - 5) // 21)
    return Input("small events", path, period).write([(opening(rate, channels), 5, 0)] + repeats)


def bulk_data(path, size, rate, channels):
    """About `size` bytes of frames: ReleaseBuffers of 100 ms, each played by ten periods."""
    period = rate // 100 * channels * 2
    one = release_buffer(rate // 10, channels) + spell("Period", endpoint=1) * 10
    repeats = [(one, 12, 10 * period)] * (size // (10 * period))
    return Input(f"bulk data, {channels} channels", path, period).write([(opening(rate, channels), 5, 0)] + repeats)


def streams(path, count, periods, levels=False):
    """So many running streams of one stereo endpoint: for each period each gets one period of frames. With levels each
    stream has a gain of its own."""
    clients = range(1, count + 1)
    first = endpoint(0)
    for client in clients:
        first += running([client])
        for channel in (0, 1) if levels else ():
            level = 1000 * client + channel
            first += spell("SetStreamLevel", conn=1, tag=6, client=client, channel=channel, level=level)
    parts = [(release_buffer(480, 2, clients) + spell("Period", endpoint=1), 2 * count + 1, 1920)] * periods
    name = f"{count} streams, {count} gains" if levels else f"{count} streams"
    return Input(name, path, 1920).write([(first, 2 + (5 if levels else 3) * count, 0)] + parts)


def exclusive(path, periods):
    """One running stream that has a stereo endpoint for itself alone: for each period it gets one period of frames."""
    first = endpoint(0) + running([1], share=1)
    parts = [(release_buffer(480, 2) + spell("Period", endpoint=1), 3, 1920)] * periods
    return Input("1 exclusive stream", path, 1920).write([(first, 5, 0)] + parts)


def recorders(path, count, periods):
    """So many running streams of one stereo device: each takes its packet after each period."""
    clients = range(1, count + 1)
    one = spell("Period", endpoint=1) + take_packets(clients)
    parts = [(endpoint(1) + running(clients), 2 + 3 * count, 0)] + [(one, 2 * count + 1, 0)] * periods
    return Input(f"{count} recorders", path, 1920, bytes(i % 251 for i in range(1920)) * periods, True).write(parts)


def listeners(path, count, periods):
    """So many running streams of one stereo endpoint, of which the first plays and the others hear it: for each period
    that one gets one period of frames, and each other takes its packet."""
    clients = range(2, count + 1)
    first = endpoint(0) + running([1]) + running(clients, flags=LOOPBACK)
    one = release_buffer(480, 2) + spell("Period", endpoint=1) + take_packets(clients)
    parts = [(first, 2 + 3 * count, 0)] + [(one, 2 * count + 1, 1920)] * periods
    return Input(f"1 player, {count - 1} listeners", path, 1920, has_packets=True).write(parts)


def lone_periods(path, rounds, periods, flow):
    """So many rounds of 64 streams with buffers of 200 ms, each with so many periods, 1 to 19, and no data call between
    them: frames for all are put before, or packets pile up. Then all are stopped, lone_periods and started."""
    clients = range(1, 65)
    one = b"" if flow else release_buffer(9600, 2, clients)
    one += spell("Period", endpoint=1) * periods
    one += b"".join(spell(name, conn=1, tag=6, client=client) for name in ("Stop", "Reset", "Start")
                    for client in clients)
    events = (0 if flow else 128) + periods + 192
    parts = [(endpoint(flow) + running(clients, duration=2_000_000), 194, 0)]
    parts += [(one, events, 0 if flow else 1920 * periods)] * rounds
    return Input("64 streams", path, 1920, bytes(1920) * (rounds * periods * flow)).write(parts)


def levels(path, count, periods):
    """One running stream, and so many SetMaster of its session before each period."""
    one = b"".join(spell("SetMaster", conn=1, tag=7, session=1, level=level % 65537) for level in range(count))
    parts = [(one + spell("Period", endpoint=1), count + 1, 1920)] * periods
    return Input(f"{count:,} SetMaster a period", path, 1920).write([(opening(48000, 2), 5, 0)] + parts)


def disconnects(path, rounds, unplugged):
    """So many times a connection opens 64 streams and hangs up, and if wanted the endpoint is unplugged in between."""
    count = 64
    parts = [(spell("Add", endpoint=1, flow=0, format=STEREO, name=b"Speakers"), 1, 0)]
    for at in range(rounds):
        clients = range(at * count + 1, at * count + count + 1)
        opened = spell("Open", conn=1, pid=10, name=b"player") + running(clients)
        states = [spell("SetState", endpoint=1, state=state) if unplugged else b"" for state in (8, 1)]
        parts.append((opened + states[0] + spell("Hangup", conn=1) + states[1], 3 * count + 2 + 2 * unplugged, 0))
    return Input("64 streams", path, 1920).write(parts + [(spell("Period", endpoint=1), 1, 1920)])


def notices(path, rounds, taken):
    """So many times 256 levels of a channel are set, of which a connection is told, and if wanted it takes them all."""
    one = b"".join(spell("SetChannel", conn=1, tag=7, session=1, channel=0, level=level) for level in range(256))
    one += spell("TakeNotices", conn=1, tag=8, max=256) if taken else b""
    first = opening(48000, 2) + spell("Register", conn=1, tag=6, **{"class": 3}, subject=1)
    parts = [(first, 6, 0)] + [(one, 256 + taken, 0)] * rounds
    return Input("256 notices", path, 1920).write(parts + [(spell("Period", endpoint=1), 1, 1920)])
