"""Files of signals, there and back."""

from __future__ import annotations

import random
import struct
import tempfile
import unittest
import wave
from pathlib import Path

from piperench import Streams, signals


class Files(unittest.TestCase):
    def setUp(self) -> None:
        scratch = tempfile.TemporaryDirectory()
        self.addCleanup(scratch.cleanup)
        self.path = Path(scratch.name, "file")

    def test_sound_there_and_back(self) -> None:
        chance = random.Random(1)
        for bits in (8, 16, 24):
            half = 1 << bits - 1
            for count in (1, 2, 5):
                columns = {
                    f"c{k}": [-half, half - 1, 0, -1, *(chance.randrange(-half, half) for _ in range(60))] for k in range(count)
                }
                signals.write_wav(self.path, Streams(columns), rate=44_100, bits=bits)
                sound = signals.read_wav(self.path, list(columns))
                self.assertEqual((sound.rate, sound.bits), (44_100, bits))
                self.assertEqual(sound.channels, Streams(columns))

    def test_sound_as_its_bytes(self) -> None:
        signals.write_wav(self.path, [-128, 0, 127], rate=8000, bits=8)
        self.assertEqual(self.path.read_bytes()[44:], bytes([0, 128, 255]))
        self.assertEqual(self.path.read_bytes()[22:36], struct.pack("<HIIHH", 1, 8000, 8000, 1, 8))
        signals.write_wav(self.path, [-2, 0x1234], rate=8000)
        self.assertEqual(self.path.read_bytes()[44:], b"\xfe\xff\x34\x12")
        signals.write_wav(self.path, Streams({"a": [-2], "b": [0x123456]}), rate=8000, bits=24)
        self.assertEqual(self.path.read_bytes()[44:], b"\xfe\xff\xff\x56\x34\x12")
        self.assertEqual(signals.read_wav(self.path).channels.names, ("left", "right"))

    def test_sound_that_is_refused(self) -> None:
        for values, bits in (([128], 8), ([-129], 8), ([1 << 15], 16), ([1 << 23], 24), ([0], 12)):
            with self.assertRaises(ValueError):
                signals.write_wav(self.path, values, rate=8000, bits=bits)
            self.assertFalse(self.path.exists())
        with wave.open(str(self.path), "wb") as file:
            file.setnchannels(1)
            file.setsampwidth(4)
            file.setframerate(8000)
            file.writeframes(b"\0" * 8)
        with self.assertRaisesRegex(ValueError, "32 bits are not read"):
            signals.read_wav(self.path)
        with self.assertRaises(FileNotFoundError):
            signals.read_wav("no such file")

    def test_pictures_there_and_back(self) -> None:
        chance = random.Random(2)
        for maximum in (1, 255, 256, 65535):
            for names in (["grey"], ["red", "green", "blue"]):
                planes = Streams({name: [0, maximum, *(chance.randint(0, maximum) for _ in range(19))] for name in names})
                signals.write_picture(self.path, planes, width=7, maximum=maximum)
                picture = signals.read_picture(self.path)
                self.assertEqual((picture.width, picture.height, picture.maximum), (7, 3, maximum))
                self.assertEqual(picture.planes, planes)

    def test_plain_pictures_and_comments(self) -> None:
        self.path.write_bytes(b"P2 # a picture\n# of two lines\n3 2\n# and five shades\n4\n0 1 2 # here\n3 4 0\n")
        picture = signals.read_picture(self.path)
        self.assertEqual((picture.width, picture.height, picture.planes), (3, 2, Streams({"grey": [0, 1, 2, 3, 4, 0]})))
        self.path.write_bytes(b"P3\n1 2\n255\n1 2 3\n4 5 6\n")
        self.assertEqual(signals.read_picture(self.path).planes.rows(), [(1, 2, 3), (4, 5, 6)])
        self.path.write_bytes(b"P5\n2 1\n255\n\n\t")
        self.assertEqual(signals.read_picture(self.path).planes.rows(), [(10,), (9,)])

    def test_pictures_as_their_bytes(self) -> None:
        signals.write_picture(self.path, [1, 2, 3, 4], width=2)
        self.assertEqual(self.path.read_bytes(), b"P5\n2 2\n255\n\x01\x02\x03\x04")
        signals.write_picture(self.path, Streams({"r": [1], "g": [515], "b": [3]}), width=1, maximum=1000)
        self.assertEqual(self.path.read_bytes(), b"P6\n1 1\n1000\n\x00\x01\x02\x03\x00\x03")

    def test_pictures_that_are_refused(self) -> None:
        cases = [([1, 2, 3], 2, 255), ([256], 1, 255), ([-1], 1, 255), ([1], 1, 0), ([1], 1, 65536)]
        for values, width, maximum in cases:
            with self.assertRaises(ValueError):
                signals.write_picture(self.path, values, width=width, maximum=maximum)
        with self.assertRaises(ValueError):
            signals.write_picture(self.path, Streams({"a": [1], "b": [1]}), width=1)
        self.assertFalse(self.path.exists())
        for wrong in (b"", b"P4\n1 1\n", b"P5\n1\n", b"P5\n2 2\n255\n\x01\x02\x03", b"P5\n1 1\n70000\n\x01\x02", b"P2\n2 1\n9\n1"):
            self.path.write_bytes(wrong)
            with self.assertRaises(ValueError):
                signals.read_picture(self.path)

    def test_lines_of_a_picture(self) -> None:
        signals.write_picture(self.path, [1, 2, 3, 4, 5, 6], width=2)
        lines = signals.read_picture(self.path).lines(4)
        self.assertEqual(lines.names, ("line0", "line1", "line2", "line3"))
        self.assertEqual(
            lines.rows(), [(1, 0, 0, 0), (2, 0, 0, 0), (3, 1, 0, 0), (4, 2, 0, 0), (5, 3, 1, 0), (6, 4, 2, 0)]
        )

    def test_tables_there_and_back(self) -> None:
        streams = Streams({"x": [0, -5, 1 << 40], "t[0]": [1, 2, 3], "wide": [1 << 127, 0, 1]})
        signals.write_csv(self.path, streams)
        self.assertEqual(self.path.read_text(), f"x,t[0],wide\n0,1,{1 << 127}\n-5,2,0\n{1 << 40},3,1\n")
        self.assertEqual(signals.read_csv(self.path), streams)
        self.path.write_bytes(b"a,b\r\n1,2\r\n")
        self.assertEqual(signals.read_csv(self.path).rows(), [(1, 2)])
        self.path.write_bytes(b"a,b\n")
        self.assertEqual(len(signals.read_csv(self.path)), 0)
        for wrong in (b"a,b\n1\n", b"a\nx\n"):
            self.path.write_bytes(wrong)
            with self.assertRaisesRegex(ValueError, "file"):
                signals.read_csv(self.path)
