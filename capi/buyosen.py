"""The physics core for Python, over libbuyosen.so: for replay checkers and for tools.

    from buyosen import Context, ONE

    with Context() as context:
        scene = context.read_scene(open("scene.txt", "rb").read())
        peer = scene.peer(player=0, ring=16)
        frame = peer.push(0, (6 * ONE, 0))
        peer.advance(20)
        peer.settle()
        for body in peer.world(20).bodies:
            print(body.x / ONE, body.y / ONE)

Numbers are whole numbers in units of 2^-24, so 1 is ONE; a tick is 1/64 s. A vector is two numbers,
(x, y). Bytes may be a bytearray or a memoryview, and a scene's text a str, too.

A call that fails raises Error, which says why, with its code and the code's name. A number that its
type in pf.h can't hold is a ValueError, and an argument of another kind a TypeError.

The library is the one that the environment's BUYOSEN_LIBRARY names; else the one in out/ or
out/quick/ beside this file, where capi/build puts it, or in lib/ or bin/ beside its folder; else
the one that the loader finds.
"""

import ctypes
import os
from ctypes import POINTER, byref, c_bool, c_int64, c_size_t, c_uint8, c_uint16, c_uint32, c_uint64
from pathlib import Path
from typing import NamedTuple

ONE = 1 << 24
FRAME_LEN = 27
_TEXT_LEN = 160  # PF_TEXT_LEN of pf.h
NOBODY = 255
SMALL_BUFFER = 5
PUTS = ("new", "same", "greater", "lesser")


class Error(Exception):
    """A call that failed, and why: a sentence, `code` and `name` of pf.h, `line` of a scene."""

    def __init__(self, code, line=None):
        self.name = _written("name", code)
        place = f"line {line}: " if line else ""
        super().__init__(f"{place}{_written('text', code)} ({self.name})")
        self.code = code
        self.line = line


class _Context(ctypes.Structure):
    _fields_ = [("is_open", c_bool), ("at", ctypes.c_void_p)]


class _Key(ctypes.Structure):
    _fields_ = [("index", c_uint32), ("generation", c_uint32)]


_LIMITS = {c_uint8: (0, 2**8 - 1), c_uint16: (0, 2**16 - 1), c_uint32: (0, 2**32 - 1)}
_LIMITS |= {c_int64: (-(2**63), 2**63 - 1)}


def _is_whole(value):
    return isinstance(value, int) and not isinstance(value, bool)


def _within(what, kind, value):
    """The value of the argument of this name, which a parameter of this kind can hold: ctypes would
    cut a number off, and its error of another type is no TypeError."""
    if kind in _LIMITS:
        if not _is_whole(value):
            raise TypeError(f"{what}: a whole number is wanted, not {value!r}")
        low, high = _LIMITS[kind]
        if not low <= value <= high:
            raise ValueError(f"{what}: {value} is no number from {low} to {high}")
    return value


def _all_within(parameters, arguments):
    """Arguments of parameters, which are pairs of a name and a kind."""
    return [_within(*it, value) for it, value in zip(parameters, arguments, strict=True)]


class _Numbers(ctypes.Structure):
    """A struct of numbers, each of which its type can hold."""

    def __init__(self, *values):
        super().__init__(*_all_within(self._fields_, values))


class _V2(_Numbers):
    _fields_ = [("x", c_int64), ("y", c_int64)]


class _Material(_Numbers):
    _fields_ = [("mass", c_int64), ("friction", c_int64), ("owner", c_uint8)]


def _vector(value, what):
    """Two numbers, (x, y), of the argument of this name."""
    try:
        x, y = () if isinstance(value, (dict, set)) else value
    except (TypeError, ValueError):
        x = y = None
    if not (_is_whole(x) and _is_whole(y)):
        raise TypeError(f"{what}: two whole numbers, (x, y), are wanted, not {value!r}")
    return _V2(x, y)


def _bytes(value, what, wanted="bytes"):
    """The bytes of the argument of this name."""
    try:
        return bytes(memoryview(value))
    except TypeError:
        raise TypeError(f"{what}: {wanted} are wanted, not {type(value).__name__}") from None


class _Sizes(ctypes.Structure):
    _fields_ = [("bodies", c_uint64), ("contacts", c_uint64)]


class _Counts(ctypes.Structure):
    _fields_ = [("ticks", c_uint64), ("collides", c_uint64)]


class Body(ctypes.Structure):
    """A body of a world: position, rotation (cosine c, sine s), velocity, sleep timer."""

    _fields_ = [(name, c_int64) for name in ("x", "y", "c", "s", "vx", "vy", "spin")] + [
        ("timer", c_uint32),
        ("awake", c_uint32),
    ]


class Contact(ctypes.Structure):
    """A contact of a world: two bodies, the feature of the point, accumulated impulses."""

    _fields_ = [
        ("a", c_uint16),
        ("b", c_uint16),
        ("feature", c_uint32),
        ("normal", c_int64),
        ("tangent", c_int64),
    ]


class Counts(NamedTuple):
    """The ticks that were simulated, and the pairs whose contact points could not be reused."""

    ticks: int
    collides: int


class World(NamedTuple):
    bodies: list
    contacts: list


_Frame = c_uint8 * FRAME_LEN
_WORLD = {
    "bodies": POINTER(Body),
    "bodies_length": c_size_t,
    "contacts": POINTER(Contact),
    "contacts_length": c_size_t,
    "sizes": POINTER(_Sizes),
}
# The parameters of each call behind the context, as pf.h has them.
_PARAMETERS = {
    "open": {},
    "close": {},
    "scene_read": {
        "text": ctypes.c_char_p,
        "length": c_size_t,
        "scene": POINTER(_Key),
        "line": POINTER(c_uint64),
    },
    "scene_new": {"gravity": _V2, "scene": POINTER(_Key)},
    "scene_free": {"scene": _Key},
    "scene_add_circle": {
        "scene": _Key,
        "material": _Material,
        "radius": c_int64,
        "position": _V2,
        "body": POINTER(c_uint64),
    },
    "scene_add_box": {
        "scene": _Key,
        "material": _Material,
        "half": _V2,
        "position": _V2,
        "direction": _V2,
        "body": POINTER(c_uint64),
    },
    "peer_new": {"scene": _Key, "player": c_uint8, "ring": c_uint32, "peer": POINTER(_Key)},
    "peer_free": {"peer": _Key},
    "peer_push": {"peer": _Key, "body": c_uint16, "impulse": _V2, "frame": POINTER(_Frame)},
    "peer_turn": {"peer": _Key, "body": c_uint16, "impulse": c_int64, "frame": POINTER(_Frame)},
    "peer_stop": {"peer": _Key, "body": c_uint16, "frame": POINTER(_Frame)},
    "peer_place": {"peer": _Key, "body": c_uint16, "position": _V2, "frame": POINTER(_Frame)},
    "peer_take": {
        "peer": _Key,
        "frame": ctypes.c_char_p,
        "length": c_size_t,
        "put": POINTER(c_uint32),
    },
    "peer_merge": {"peer": _Key, "other": _Key, "count": POINTER(c_uint64)},
    "peer_merge_alone": {"peer": _Key, "other": _Key, "count": POINTER(c_uint64)},
    "peer_frames": {
        "peer": _Key,
        "tick": c_uint32,
        "frames": POINTER(_Frame),
        "length": c_size_t,
        "count": POINTER(c_uint64),
    },
    "peer_advance": {"peer": _Key, "ticks": c_uint32, "reached": POINTER(c_uint32)},
    "peer_settle": {"peer": _Key, "settled": POINTER(c_uint32)},
    "peer_seal": {"peer": _Key, "tick": c_uint32},
    "peer_reached": {"peer": _Key, "reached": POINTER(c_uint32)},
    "peer_settled": {"peer": _Key, "settled": POINTER(c_uint32)},
    "peer_horizon": {"peer": _Key, "horizon": POINTER(c_uint32)},
    "peer_meter": {"peer": _Key, "counts": POINTER(_Counts)},
    "peer_world": {"peer": _Key, "tick": c_uint32, **_WORLD},
    "peer_base": {"peer": _Key, **_WORLD},
}


def _load():
    here = Path(__file__).resolve().parent
    name = "buyosen.dll" if os.name == "nt" else "libbuyosen.so"
    places = [here / "out", here / "out/quick", here.parent / "lib", here.parent / "bin"]
    paths = [str(place / name) for place in places if (place / name).exists()]
    try:
        library = ctypes.CDLL(os.environ.get("BUYOSEN_LIBRARY") or [*paths, name][0])
    except OSError as error:
        raise OSError(f"{error} (capi/build --quick makes the library)") from None
    for name, parameters in _PARAMETERS.items():
        function = getattr(library, "pf_" + name)
        function.argtypes = [POINTER(_Context), *parameters.values()]
        function.restype = c_uint32
    library.pf_build.argtypes, library.pf_build.restype = [], ctypes.c_char_p
    for function in (library.pf_error_name, library.pf_error_text):
        function.argtypes = [c_uint32, ctypes.c_char_p, c_size_t, POINTER(c_uint64)]
        function.restype = c_uint32
    return library


def _written(what, code):
    """The "name" of a code, as PF_BAD_KEY, or the "text" that says what it means."""
    array, needed = ctypes.create_string_buffer(_TEXT_LEN), c_uint64()
    getattr(_LIBRARY, "pf_error_" + what)(code, array, len(array), byref(needed))
    return array.value.decode()


_LIBRARY = _load()


def build():
    """How much of the library is proved, as pf_build of pf.h says: "proved", "unproved", or "proved
    for x86-64 Linux" in a library for another machine."""
    return _LIBRARY.pf_build().decode()


class Context:
    """Scenes and peers. Closing it frees them all. Any thread may call it, one at a time."""

    def __init__(self):
        self._context = _Context()
        self.call("open")

    def __enter__(self):
        return self

    def __exit__(self, *_):
        if self._context.is_open:
            self.close()

    def close(self):
        self.call("close")

    def call(self, name, *arguments):
        """Calls pf_NAME."""
        arguments = _all_within(_PARAMETERS[name].items(), arguments)
        code = getattr(_LIBRARY, "pf_" + name)(byref(self._context), *arguments)
        if code:
            raise Error(code)

    def output(self, kind, name, *arguments):
        """What pf_NAME writes to its last parameter."""
        value = kind()
        self.call(name, *arguments, byref(value))
        return value

    def read_scene(self, text):
        """The scene that a text describes: the lines from `gravity` to `end`."""
        text = text.encode() if isinstance(text, str) else _bytes(text, "text", "a str or bytes")
        key, line = _Key(), c_uint64()
        try:
            self.call("scene_read", text, len(text), byref(key), byref(line))
        except Error as error:
            raise Error(error.code, line.value or None) from None
        return Scene(self, key)

    def scene(self, gravity):
        """A scene without bodies."""
        return Scene(self, self.output(_Key, "scene_new", _vector(gravity, "gravity")))


class Scene:
    def __init__(self, context, key):
        self._context, self._key = context, key

    def circle(self, mass, friction, radius, position, owner=NOBODY):
        """Adds a circle, and returns its number."""
        material = _Material(mass, friction, owner)
        arguments = (self._key, material, radius, _vector(position, "position"))
        return self._context.output(c_uint64, "scene_add_circle", *arguments).value

    def box(self, mass, friction, half, position, direction=(ONE, 0), owner=NOBODY):
        """Adds a box, and returns its number."""
        material = _Material(mass, friction, owner)
        vectors = {"half": half, "position": position, "direction": direction}
        arguments = (_vector(value, what) for what, value in vectors.items())
        key = self._key
        return self._context.output(c_uint64, "scene_add_box", key, material, *arguments).value

    def peer(self, player, ring=16):
        """The peer of a player, 0 to 7, who has to be named: two peers of one player would issue
        commands under the same names. It keeps the last `ring` worlds, 1 to 64."""
        key = self._context.output(_Key, "peer_new", self._key, player, ring)
        return Peer(self._context, key)

    def free(self):
        self._context.call("scene_free", self._key)


class Peer:
    def __init__(self, context, key):
        self._context, self._key = context, key

    def _output(self, kind, name, *arguments):
        return self._context.output(kind, f"peer_{name}", self._key, *arguments)

    def push(self, body, impulse):
        """Issues a push, and returns its frame."""
        return bytes(self._output(_Frame, "push", body, _vector(impulse, "impulse")))

    def turn(self, body, impulse):
        """Issues a turn, and returns its frame."""
        return bytes(self._output(_Frame, "turn", body, impulse))

    def stop(self, body):
        """Issues a stop, and returns its frame."""
        return bytes(self._output(_Frame, "stop", body))

    def place(self, body, position):
        """Issues a place, and returns its frame."""
        return bytes(self._output(_Frame, "place", body, _vector(position, "position")))

    def take(self, frame):
        """Takes a frame, and returns what it did: new, same, greater or lesser."""
        frame = _bytes(frame, "frame")
        return PUTS[self._output(c_uint32, "take", frame, len(frame)).value]

    def merge(self, other):
        """Takes all commands of another peer, and returns how many changed this one."""
        return self._output(c_uint64, "merge", self._key_of(other)).value

    def merge_alone(self, other):
        """The same, whatever the other peer has sealed."""
        return self._output(c_uint64, "merge_alone", self._key_of(other)).value

    def _key_of(self, other):
        if not isinstance(other, Peer):
            raise TypeError(f"other: a Peer is wanted, not {other!r}")
        if other._context is not self._context:
            raise ValueError("a peer of another context")
        return other._key

    def frames(self, tick=0):
        """The frames of the commands that the peer holds for this tick and later ones."""
        count = c_uint64()
        while True:
            frames = (_Frame * (count.value + 1))()
            buffer = (frames, count.value, byref(count))
            try:
                self._context.call("peer_frames", self._key, tick, *buffer)
            except Error as error:
                if error.code != SMALL_BUFFER:
                    raise
                continue
            return [bytes(frame) for frame in frames[: count.value]]

    def advance(self, ticks=1):
        """Goes on by some ticks, and returns the tick that is reached."""
        return self._output(c_uint32, "advance", ticks).value

    def settle(self):
        """Simulates up to the reached tick, and returns it."""
        return self._output(c_uint32, "settle").value

    def seal(self, tick):
        """Forgets what came before this tick."""
        self._context.call("peer_seal", self._key, tick)

    @property
    def reached(self):
        return self._output(c_uint32, "reached").value

    @property
    def settled(self):
        return self._output(c_uint32, "settled").value

    @property
    def horizon(self):
        return self._output(c_uint32, "horizon").value

    @property
    def counts(self):
        """How much work was done to settle and to seal ticks."""
        counts = self._output(_Counts, "meter")
        return Counts(counts.ticks, counts.collides)

    def world(self, tick):
        """The world at a tick, from the horizon to the reached one."""
        return self._world("world", tick)

    def base(self):
        """The world at the horizon."""
        return self._world("base")

    def _world(self, name, *arguments):
        sizes = _Sizes()
        while True:
            # One element more than it has: no array is empty, so no pointer is null.
            bodies = (Body * (sizes.bodies + 1))()
            contacts = (Contact * (sizes.contacts + 1))()
            buffers = (bodies, sizes.bodies, contacts, sizes.contacts, byref(sizes))
            try:
                self._context.call(f"peer_{name}", self._key, *arguments, *buffers)
            except Error as error:
                if error.code != SMALL_BUFFER:
                    raise
                continue
            return World(bodies[: sizes.bodies], contacts[: sizes.contacts])

    def free(self):
        self._context.call("peer_free", self._key)
