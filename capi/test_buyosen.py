#!/usr/bin/env python3
"""Each call of the module for Python.

    capi/test_buyosen.py
"""

import os
import subprocess
import sys
import unittest
from pathlib import Path

sys.dont_write_bytecode = True

from buyosen import FRAME_LEN, NOBODY, ONE, Context, Error  # noqa: E402

REPLAY = Path(__file__).resolve().parent / "replay.py"
BAD_KEY, BAD_NUMBER, CLOSED, BAD_LINE, TOO_OLD = 4, 8, 3, 16, 35


class Calls(unittest.TestCase):
    def setUp(self):
        self.context = Context()
        self.scene = self.context.scene((0, -10 * ONE))
        self.floor = self.scene.box(0, ONE // 2, (20 * ONE, ONE), (0, -ONE))
        self.box = self.scene.box(ONE, ONE // 2, (ONE, ONE), (-4 * ONE, ONE), owner=0)
        self.ball = self.scene.circle(ONE, ONE // 2, ONE, (4 * ONE, ONE), owner=1)

    def tearDown(self):
        self.context.close()

    def assert_code(self, code, call, *arguments):
        with self.assertRaises(Error) as raised:
            call(*arguments)
        self.assertEqual(raised.exception.code, code)
        return raised.exception

    def test_bodies_are_numbered(self):
        self.assertEqual((self.floor, self.box, self.ball), (0, 1, 2))
        self.assertEqual(NOBODY, 255)

    def test_a_line_that_is_invalid_is_named(self):
        text = b"gravity 0 0\nsquare\nend\n"
        error = self.assert_code(BAD_LINE, self.context.read_scene, text)
        told = "line 2: no such line may stand here (PF_SCENE_BAD_LINE)"
        self.assertEqual((error.line, str(error)), (2, told))

    def test_a_peer_is_told_its_player(self):
        self.assertRaises(TypeError, self.scene.peer)

    def test_late_frames_make_worlds_equal(self):
        ours, theirs = self.scene.peer(0, 8), self.scene.peer(1, 8)
        frames = [ours.push(self.box, (6 * ONE, 0)), ours.turn(self.box, ONE), ours.stop(self.box)]
        frames.append(theirs.place(self.ball, (2 * ONE, 3 * ONE)))
        self.assertEqual({len(frame) for frame in frames}, {FRAME_LEN})
        for peer in ours, theirs:
            self.assertEqual((peer.advance(20), peer.settle()), (20, 20))
        self.assertNotEqual(bytes_of(ours), bytes_of(theirs))
        self.assertEqual([theirs.take(frame) for frame in frames], ["new"] * 3 + ["same"])
        self.assertEqual((ours.merge(theirs), ours.merge(theirs)), (1, 0))
        self.assertEqual((ours.settle(), theirs.settle()), (20, 20))
        self.assertEqual(bytes_of(ours), bytes_of(theirs))

    def test_a_seal_moves_the_horizon(self):
        peer = self.scene.peer(0)
        frame = peer.stop(self.box)
        peer.advance(9)
        peer.seal(5)
        self.assertEqual((peer.reached, peer.settled, peer.horizon), (9, 5, 5))
        self.assert_code(TOO_OLD, peer.take, frame)
        self.assert_code(BAD_NUMBER, peer.push, self.box, (1 << 60, 0))

    def test_no_number_is_cut_off(self):
        peer = self.scene.peer(0)
        for call, *numbers in (
            (peer.push, 1 << 16, (0, 0)),
            (peer.push, self.box, (1 << 63, 0)),
            (peer.turn, self.box, -(1 << 63) - 1),
            (peer.advance, 1 << 32),
            (peer.seal, -1),
            (self.scene.peer, 256),
            (self.scene.peer, 0, 1 << 32),
            (self.scene.circle, 1 << 64, 0, ONE, (0, 0)),
            (self.scene.circle, ONE, 0, 1 << 64, (0, 0)),
            (self.scene.box, ONE, 0, (ONE, ONE), (0, 0), (ONE, 0), 256),
        ):
            self.assertRaises(ValueError, call, *numbers)

    def test_no_component_is_dropped(self):
        peer = self.scene.peer(0)
        for what, call, *arguments in (
            ("impulse", peer.push, self.box, (5,)),
            ("impulse", peer.push, self.box, (5, 6, 7)),
            ("impulse", peer.push, self.box, 5),
            ("impulse", peer.push, self.box, (0.5, 1)),
            ("impulse", peer.push, self.box, "12"),
            ("impulse", peer.push, self.box, {1: 2, 3: 4}),
            ("impulse", peer.push, self.box, (True, 6)),
            ("position", peer.place, self.box, (1, 2, 3)),
            ("gravity", self.context.scene, (1,)),
            ("position", self.scene.circle, ONE, 0, ONE, ()),
            ("half", self.scene.box, ONE, 0, (ONE,), (0, 0)),
            ("direction", self.scene.box, ONE, 0, (ONE, ONE), (0, 0), (ONE, 0, 0)),
        ):
            told = rf"^{what}: two whole numbers, \(x, y\), are wanted, not "
            self.assertRaisesRegex(TypeError, told, call, *arguments)
        self.assertEqual(peer.frames(), [])
        self.assertEqual(len(peer.push(self.box, [5, 6])), FRAME_LEN)

    def test_bytes_are_of_any_kind(self):
        peer, late = self.scene.peer(0), self.scene.peer(1)
        frame = peer.push(self.box, (ONE, 0))
        self.assertEqual(late.take(bytearray(frame)), "new")
        self.assertEqual(late.take(memoryview(b"-" + frame)[1:]), "same")
        text = b"gravity 0 0\nend\n"
        for scene in text, bytearray(text), memoryview(text), text.decode():
            self.assertEqual(self.context.read_scene(scene).peer(0).reached, 0)
        for what, call, argument in (
            ("frame", late.take, frame.hex()),
            ("frame", late.take, FRAME_LEN),
        ):
            told = f"^{what}: bytes are wanted, not {type(argument).__name__}$"
            self.assertRaisesRegex(TypeError, told, call, argument)
        told = "^text: a str or bytes are wanted, not NoneType$"
        self.assertRaisesRegex(TypeError, told, self.context.read_scene, None)

    def test_a_wrong_number_is_named(self):
        peer = self.scene.peer(0)
        for what, call, *arguments in (
            ("body", peer.push, "1", (0, 0)),
            ("impulse", peer.turn, self.box, 1.5),
            ("ticks", peer.advance, 0.5),
            ("player", self.scene.peer, True),
            ("radius", self.scene.circle, ONE, 0, 0.5, (0, 0)),
            ("owner", self.scene.circle, ONE, 0, ONE, (0, 0), None),
        ):
            told = f"^{what}: a whole number is wanted, not "
            self.assertRaisesRegex(TypeError, told, call, *arguments)
        self.assertRaisesRegex(ValueError, "^ticks: -1 is no number from 0 to ", peer.advance, -1)

    def test_frames_are_read_back(self):
        peer, late = self.scene.peer(0), self.scene.peer(1)
        frames = [peer.turn(self.box, ONE), peer.stop(self.box)]
        peer.advance(3)
        frames.append(peer.push(self.box, (ONE, 0)))
        self.assertEqual((peer.frames(), peer.frames(1), peer.frames(4)), (frames, frames[2:], []))
        self.assertEqual((late.merge_alone(peer), late.frames()), (3, frames))

    def test_a_late_frame_is_counted(self):
        peer = self.scene.peer(0)
        self.assertEqual(peer.counts, (0, 0))
        peer.advance(10)
        peer.settle()
        self.assertEqual(peer.counts.ticks, 10)
        world = peer.world(6)
        peer.seal(6)
        self.assertEqual(list(map(bytes, peer.base().bodies)), list(map(bytes, world.bodies)))

    def test_what_is_freed_has_no_key(self):
        peer = self.scene.peer(0)
        self.scene.free()
        self.assert_code(BAD_KEY, self.scene.peer, 0)
        self.assertEqual(len(peer.world(0).bodies), 3)
        peer.free()
        self.assert_code(BAD_KEY, peer.advance)

    def test_a_context_closes_once(self):
        with Context() as context:
            scene = context.scene((0, 0))
            context.close()
        self.assert_code(CLOSED, scene.peer, 0)
        self.assert_code(CLOSED, context.close)

    def test_a_peer_of_another_context_is_no_other(self):
        with Context() as context:
            foreign = context.scene((0, 0)).peer(0)
            self.assertRaises(ValueError, self.scene.peer(0).merge, foreign)


class Replay(unittest.TestCase):
    def replay(self, *words):
        environment = {**os.environ, "BUYOSEN_LIBRARY": "/there/is/none.so"}
        call = [sys.executable, REPLAY, *words]
        return subprocess.run(call, env=environment, capture_output=True, text=True, check=False)

    def test_it_tells_its_usage_without_a_library(self):
        helped, misused = self.replay("--help"), self.replay("match.txt")
        self.assertEqual((helped.returncode, helped.stderr), (0, ""))
        self.assertIn("capi/replay.py MATCH.txt TICK", helped.stdout)
        self.assertEqual((misused.returncode, misused.stdout), (2, ""))
        self.assertEqual(misused.stderr, helped.stdout)


def bytes_of(peer):
    world = peer.world(peer.reached)
    return [bytes(value) for value in world.bodies + world.contacts]


if __name__ == "__main__":
    unittest.main()
