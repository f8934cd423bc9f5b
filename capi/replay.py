#!/usr/bin/env python3
"""Checks a replay: simulates a match from its scene and its frames alone, and prints a world.

    capi/replay.py MATCH.txt TICK

The match is a text for the program. Its scene is read, and the frames of its `take` lines. What is
printed is what `show 0 TICK` prints behind all of them, byte for byte.
"""

import sys
from pathlib import Path

sys.dont_write_bytecode = True

BODY = ("x", "y", "c", "s", "vx", "vy", "spin", "timer", "awake")
CONTACT = ("a", "b", "feature", "normal", "tangent")


def fields(value, names):
    return " ".join(str(getattr(value, name)) for name in names)


def statics(scene):
    """The numbers of the bodies of mass 0, which `show` leaves out."""
    bodies = [line.split() for line in scene if line.startswith((b"box ", b"circle "))]
    return {number for number, fields in enumerate(bodies) if fields[2] == b"0"}


def replay(match, tick):
    from buyosen import Context  # here, since it needs the library

    lines = match.splitlines(keepends=True)
    ends = (number for number, line in enumerate(lines) if line.split() == [b"end"])
    end = next(ends, len(lines))
    frames = [line.split()[2] for line in lines[end:] if line.startswith(b"take ")]
    with Context() as context:
        peer = context.read_scene(b"".join(lines[: end + 1])).peer(0)
        for frame in frames:
            peer.take(bytes.fromhex(frame.decode()))
        peer.advance(tick)
        peer.settle()
        world = peer.world(tick)
    yield f"show 0 {tick}"
    left_out = statics(lines[:end])
    for number, body in enumerate(world.bodies):
        if number in left_out:
            continue
        yield f"body {number} {fields(body, BODY)}"
    for contact in world.contacts:
        yield f"contact {fields(contact, CONTACT)}"
    yield "end"


def main():
    words = sys.argv[1:]
    if words in (["--help"], ["-h"]):
        print(__doc__.strip())
        return 0
    if len(words) != 2 or not words[1].isdecimal():
        print(__doc__.strip(), file=sys.stderr)
        return 2
    try:
        match = Path(words[0]).read_bytes()
    except OSError as error:
        print(f"replay: {error}", file=sys.stderr)
        return 2
    for line in replay(match, int(words[1])):
        print(line)
    return 0


if __name__ == "__main__":
    sys.exit(main())
