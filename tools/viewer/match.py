"""A match: a text of scene, peers and events, and what the program says of it."""

import hashlib
import io
import math
import struct
import subprocess
import tempfile
from array import array
from collections import defaultdict
from dataclasses import dataclass, field
from fractions import Fraction

UNIT = 16777216
KINDS = ("push", "turn", "stop", "place")
FIELDS = 9  # of a body line: x y c s vx vy w timer awake


class Refused(Exception):
    """The program refused the text: its line on standard error, and its status."""

    def __init__(self, message, status):
        super().__init__(message)
        self.status = status


@dataclass(frozen=True)
class Command:
    """A command as its frame has it."""

    frame: str
    tick: int
    player: int
    number: int
    kind: str
    body: int
    x: int
    y: int

    @staticmethod
    def of(digits):
        _, tick, player, number, kind, body, x, y = struct.unpack(
            ">BIBHBHqq", bytes.fromhex(digits)
        )
        return Command(digits.lower(), tick, player, number, KINDS[kind], body, x, y)

    @property
    def name(self):
        return self.tick, self.player, self.number

    @property
    def weight(self):
        return bytes.fromhex(self.frame)[8:]

    @property
    def text(self):
        """What it does, as `pf_play frame` writes it."""
        parts = {"stop": (), "turn": (self.x,)}.get(self.kind, (self.x, self.y))
        return " ".join(map(str, (self.kind, self.body, *parts)))


@dataclass
class Peer:
    """What a peer holds, and when it came to hold it."""

    held: dict = field(default_factory=dict)
    horizon: int = 0
    reached: int = 0
    # in the order of the text: a frame that it came to hold, or a tick that it went on to
    moments: list = field(default_factory=list)

    def hold(self, command):
        old = self.held.get(command.name)
        if old is None or old.weight < command.weight:
            self.held[command.name] = command
            self.moments.append(("hold", command))

    def keys(self):
        """For each tick a number for the commands before it that the peer held when it first
        reached it: the same number for the same commands."""
        acting, held, key, keys = defaultdict(int), {}, 0, [0]
        for what, value in self.moments:
            if what == "reach":
                for tick in range(len(keys) - 1, value):
                    key += acting[tick]
                    keys.append(key)
                continue
            more = hash(value) - hash(held.get(value.name, 0))
            held[value.name] = value
            acting[value.tick] += more
            if value.tick < len(keys) - 1:
                key += more
        return keys


@dataclass(frozen=True)
class Body:
    """A body of the scene: its owner, whether it is static, its shape and its start."""

    number: int
    owner: str
    static: bool
    size: tuple  # (radius) or (half width, half height)
    start: tuple  # x y c s


def body_of(number, words):
    """The body of a line of a scene."""
    owner, mass = words[1], int(words[2])
    if words[0] == "circle":
        size, rest = (int(words[4]),), words[5:7] + ["16777216", "0"]
    else:
        size, rest = (int(words[4]), int(words[5])), words[6:10]
    x, y, c, s = (int(w) for w in rest)
    length = math.isqrt(c * c + s * s)
    turned = (UNIT, 0)  # `0 0` is upright
    if length:
        turned = tuple(round(Fraction(part * UNIT, length)) for part in (c, s))
    return Body(number, owner, mass == 0, size, (x, y, *turned))


def lines_of(text):
    """The lines that are not skipped, with their fields."""
    return [line.split(" ") for line in text.split("\n") if line and not line.startswith("#")]


def run(program, text, told=None):
    """The lines that the program writes for a text, in bytes. `told` gets each line of a block."""
    with tempfile.TemporaryFile() as into, tempfile.TemporaryFile() as errors:
        into.write(text)
        into.seek(0)
        done = subprocess.Popen(
            [*program, "run"], stdin=into, stdout=subprocess.PIPE, stderr=errors
        )
        lines = []
        for line in io.TextIOWrapper(done.stdout, encoding="ascii", newline="\n"):
            lines.append(line.rstrip("\n"))
            if told and line.startswith("show"):
                told(lines[-1])
        if done.wait() != 0:
            errors.seek(0)
            said = errors.read().decode(errors="replace").splitlines()
            # what ./play says of itself stands before what the program says
            own = [line for line in said if not line.startswith("play: ")]
            raise Refused("\n".join(own or said), done.returncode)
    return lines


class Match:
    """A text that the program accepts: its scene, and its peers after all events."""

    def __init__(self, program, text, told=None):
        self.program = program
        self.told = told
        self.tracks = {}  # by the text that they were made from
        replies = run(program, text)
        lines = lines_of(text.decode("ascii"))
        end = next(k for k, words in enumerate(lines) if words == ["end"])
        self.scene = "\n".join(" ".join(words) for words in lines[: end + 1])
        self.bodies = [body_of(k, words) for k, words in enumerate(lines[1:end])]
        self.moving = [body for body in self.bodies if not body.static]
        self.peers = [Peer() for _ in range(int(lines[end + 1][1]))]
        at = 0
        for words in lines[end + 2 :]:
            reply = replies[at].split(" ")
            at += 1
            if reply[0] == "show":
                while replies[at - 1] != "end":
                    at += 1
            elif reply[0] != "refused":
                self.answer(words, reply)

    def answer(self, words, reply):
        """What an event does that was not refused."""
        peer = self.peers[int(words[1])]
        if words[0] == "issue":
            peer.hold(Command.of(reply[2]))
        elif words[0] == "take":
            peer.hold(Command.of(words[2]))
        elif words[0] == "merge":
            other = self.peers[int(words[2])]
            for command in sorted(other.held.values(), key=lambda c: c.name):
                if command.tick >= other.horizon:
                    peer.hold(command)
        elif words[0] == "advance":
            peer.reached = int(reply[2])
            peer.moments.append(("reach", peer.reached))
        elif words[0] == "seal":
            peer.horizon = int(reply[2])

    def at_the_end(self, number):
        """The worlds that the commands held at the end make, tick by tick."""
        peer = self.peers[number]
        held = sorted(peer.held.values(), key=lambda command: command.name)
        takes = [f"take 0 {command.frame}" for command in held]
        return self.worlds(takes, peer.reached)

    def at_the_time(self, number):
        """The worlds that the peer showed at each tick when it first reached it."""
        peer = self.peers[number]
        if not self.has_late(peer):
            return self.at_the_end(number)
        lines, reached, late = [], 0, False
        for what, value in [*peer.moments, ("end", None)]:
            if what == "hold":
                lines.append(f"take 0 {value.frame}")
                late = late or value.tick < reached
            elif late and (what == "end" or value > reached):
                # the corrected world of the reached tick, from which the peer goes on
                lines += ["settle 0", f"show 0 {reached}"]
                late = False
            if what == "reach":
                lines += self.steps(reached, value)
                reached = max(reached, value)
        return self.worlds(lines, 0)

    @staticmethod
    def has_late(peer):
        """Whether the peer came to hold a command after it had gone on from its tick."""
        reached = 0
        for what, value in peer.moments:
            if what == "reach":
                reached = value
            elif value.tick < reached:
                return True
        return False

    @staticmethod
    def steps(reached, last):
        """The lines that go on tick by tick, and show each."""
        lines = []
        for tick in range(reached + 1, last + 1):
            lines += ["advance 0 1", "settle 0", f"show 0 {tick}"]
        return lines

    def worlds(self, lines, last):
        """A track: the worlds that are shown by these lines and by going on to the last tick."""
        text = [self.scene, "peers 1", "show 0 0", *lines, *self.steps(0, last)]
        text = "\n".join(text) + "\n"
        if text not in self.tracks:
            self.tracks[text] = Track(run(self.program, text.encode(), self.told))
        return self.tracks[text]


class Track:
    """Worlds of one peer, tick by tick, as numbers in rows, with a digest of each."""

    def __init__(self, replies):
        self.bodies = array("q")
        self.contacts = array("q")  # i j feature normal tangent
        self.ends = []  # the number of contacts up to each tick
        self.digests = []
        self.again = array("q")  # bodies of the worlds that late commands made of shown ticks
        self.again_ticks = []
        tick, block = 0, None
        for line in replies:
            if line.startswith("show"):
                tick, block = int(line.split(" ")[2]), []
            elif line == "end" and block is not None:
                if tick < self.ticks:
                    self.correct(tick, block)
                else:
                    self.add(block)
                block = None
            elif block is not None:
                block.append(line)

    def add(self, block):
        """Adds the world of a block of `show`."""
        for line in block:
            words = line.split(" ")
            if words[0] == "body":
                self.bodies.extend(map(int, words[2:]))
            else:
                self.contacts.extend(map(int, words[1:]))
        self.ends.append(len(self.contacts) // 5)
        self.digests.append(hashlib.sha256("\n".join(block).encode()).hexdigest())

    def correct(self, tick, block):
        """Adds the world that a late command made of a tick that had been shown."""
        self.again_ticks.append(tick)
        for line in block:
            words = line.split(" ")
            if words[0] == "body":
                self.again.extend(map(int, words[2:]))

    def is_as(self, other):
        """Whether the other track has the same worlds."""
        return (self.digests, self.again_ticks, self.again) == (
            other.digests,
            other.again_ticks,
            other.again,
        )

    @property
    def ticks(self):
        return len(self.digests)


def pair_that_differs(tracks, tick, keys):
    """Two tracks that have one key at a tick, and different worlds; or None."""
    seen = {}
    for k, track in enumerate(tracks):
        if tick < track.ticks:
            first = seen.setdefault(keys[k][tick], k)
            if track.digests[tick] != tracks[first].digests[tick]:
                return first, k
    return None


def real_differences(match, finals, shown):
    """The ticks at which two peers differ though nothing is on its way: at the end of all, or with
    the same commands. For each the two peers, and the tracks that differ."""
    none = [[0] * track.ticks for track in finals]
    own = [peer.keys() for peer in match.peers]
    found = {}
    for tick in range(max(track.ticks for track in finals)):
        for tracks, keys in ((finals, none), (shown, own)):
            pair = pair_that_differs(tracks, tick, keys)
            if pair:
                found[tick] = (*pair, tracks)
                break
    return found


def states(tracks, finals, real):
    """How the peers are from which ticks on: they `differ`, some are `corrected` later, only one
    peer is there (`alone`), or all show the `same` world."""
    runs = []
    for tick in range(max(track.ticks for track in tracks)):
        there = [k for k, track in enumerate(tracks) if tick < track.ticks]
        if tick in real:
            state = "differ"
        elif any(tracks[k].digests[tick] != finals[k].digests[tick] for k in there):
            state = "corrected"
        else:
            state = "alone" if len(there) == 1 else "same"
        if not runs or runs[-1][1] != state:
            runs.append([tick, state])
    return runs
