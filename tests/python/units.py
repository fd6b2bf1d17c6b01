"""What the Python package promises beside the columns: refusals, what is saved and how, threads. It runs in a folder with demo.slp."""
from __future__ import annotations

import importlib
import os
import pickle
import pkgutil
import stat
import subprocess
import sys
import threading
import unittest
from doctest import ELLIPSIS, DocFileSuite, DocTestSuite
from pathlib import Path

import numpy as np
import slp

DEMO = Path("demo.slp").read_bytes()
DOCUMENTS = [Path(os.environ["SLP_ROOT"], name) for name in ("python/README.md", "README.md")]


def with_length(length: int) -> bytes:
    """The demo with another length field."""
    return DEMO[:11] + length.to_bytes(4, "big") + DEMO[15:]


class Refusals(unittest.TestCase):
    def refused(self, call, *arguments, **named) -> slp.Refused:
        with self.assertRaises(slp.Refused) as caught:
            call(*arguments, **named)
        return caught.exception

    def test_number_words_and_place(self):
        refused = self.refused(slp.walk, with_length(len(DEMO)))
        self.assertEqual((refused.number, refused.place), (16, 518415))
        self.assertEqual(str(refused), "refused 16 at byte 518415: an event whose code is not in the table of payload sizes")

    def test_no_place(self):
        refused = self.refused(slp.read, DEMO[:5000])
        self.assertEqual((refused.number, refused.place), (19, None))
        self.assertEqual(str(refused), "refused 19: not a replay that can be read into columns")

    def test_goes_between_processes(self):
        refused = pickle.loads(pickle.dumps(slp.Refused(16, 518415)))
        self.assertEqual((refused.number, refused.place, refused.words), (16, 518415, slp.Refused(16).words))

    def test_is_a_value_error(self):
        with self.assertRaises(ValueError):
            slp.read(b"")

    def test_wide_cell(self):
        game = slp.read(DEMO)
        game.stores["posts"][0] = 256
        self.assertEqual(self.refused(game.to_bytes).number, 4)

    def test_an_id_that_no_game_has(self):
        for id in (-124, 1_048_453, 2**31 - 1):
            game = slp.read(DEMO)
            game.ids[5] = id
            self.assertEqual(self.refused(lambda: game.final).number, 13)
            self.assertNotIn("replaced", game.table())

    def test_metadata_that_is_no_map(self):
        body = DEMO.replace(b"SU\x04demo", b"TU\x04demo", 1)
        self.assertEqual(len(body), len(DEMO))
        game = slp.read(body)
        refused = self.refused(lambda: game.metadata)
        self.assertEqual((refused.number, refused.place), (23, DEMO.index(b"SU\x04demo") - DEMO.index(b"U\x07startAt")))

    def test_no_file(self):
        with self.assertRaises(FileNotFoundError):
            slp.read("there is no such file")

    def test_not_a_file(self):
        with self.assertRaises(TypeError):
            slp.read(12)


class Faults(unittest.TestCase):
    def fault(self, at: int, byte: int) -> slp.Fault | None:
        return slp.fault(DEMO[:at] + bytes([byte]) + DEMO[at + 1 :])

    def test_none(self):
        self.assertIsNone(slp.fault(DEMO))
        self.assertIsNone(slp.fault(b"no replay"))
        # above 3.18.0 nothing is told
        self.assertIsNone(self.fault(49, 19))

    def test_place_and_reason(self):
        self.assertEqual(self.fault(149, 4), (0, 47, 9, "a seat type above 3"))
        self.assertEqual(self.fault(959, 0), (4, 955, 3, "an event with another frame's id"))
        self.assertEqual(self.fault(518410, 9), (9537, 518408, 10, "an initiator who is no player"))

    def test_the_end_of_the_events(self):
        self.assertEqual(slp.fault(with_length(0)[:518415])[:3], (9538, 518415, 15))
        self.assertEqual(slp.fault(DEMO[:5000])[:3], (77, 4952, 14))


class Columns(unittest.TestCase):
    def test_no_copy(self):
        game = slp.read(DEMO)
        for player in game.players:
            for view, store in ((player.pre, "pres"), (player.post, "posts")):
                for name, values in view.items():
                    self.assertTrue(np.shares_memory(values, game.stores[store]), name)
                    self.assertIs(values.dtype, getattr(view, name).dtype)

    def test_lives_on_without_the_game(self):
        percent = slp.read(DEMO).players[0].post.percent
        self.assertEqual(float(percent[-1]), 14.0)

    def test_narrow_columns_are_written_without_their_neighbours(self):
        game = slp.read(DEMO)
        before = game.stores["pres"].copy()
        game.players[1].pre.raw_analog_x[3] = -1
        changed = np.nonzero(game.stores["pres"] != before)[0]
        self.assertEqual(len(changed), 1)
        self.assertEqual(game.stores["pres"][changed[0]], 255)
        self.assertEqual(int(slp.read(game.to_bytes()).players[1].pre.raw_analog_x[3]), -1)

    def test_lacking(self):
        with self.assertRaises(AttributeError):
            slp.read(DEMO).players[0].post.no_such_column
        newer = slp.Post(np.zeros((11, 2), np.uint32))
        with self.assertRaisesRegex(AttributeError, "hitlag: it is there from 3.8 on"):
            newer.hitlag
        self.assertNotIn("hitlag", newer)
        self.assertEqual(len(newer), 11)

    def test_rows_of_a_frame(self):
        items = slp.read(DEMO).items
        rows = [items.of(i) for i in range(1580)]
        self.assertEqual([i for i in range(200) if len(rows[i]["id"])], list(range(183, 191)))
        self.assertEqual(sum(len(r["id"]) for r in rows), 56)
        self.assertEqual(items.of(183 - 1580).position_x[0], items.position_x[0])
        with self.assertRaises(IndexError):
            items.of(1580)

    def test_raw(self):
        game = slp.read(DEMO)
        game.raw.start.stage = 8
        self.assertEqual(slp.read(game.to_bytes()).start.stage, 8)

    def test_other_buffers(self):
        for data in (bytearray(DEMO), memoryview(DEMO), np.frombuffer(DEMO, np.uint8).data):
            self.assertEqual(slp.read(data).to_bytes(), DEMO)


class Newer(unittest.TestCase):
    """Files of a newer recorder."""

    @staticmethod
    def of_version(major: int, minor: int, patch: int) -> bytes:
        file = bytearray(DEMO)
        start = 17 + file[16]
        file[start : start + 3] = bytes((major, minor, patch))
        return bytes(file)

    def test_partly(self):
        was = slp.read(DEMO)
        self.assertFalse(was.partly)
        game = slp.read(self.of_version(3, 19, 7))
        self.assertTrue(game.partly)
        self.assertEqual(repr(game), "<Game: version 3.19.7, partly read, 1580 frames, 2 players>")
        for name, column in was.table().items():
            self.assertTrue(np.array_equal(game.table()[name], column, equal_nan=column.dtype.kind == "f"), name)
        with self.assertRaises(slp.Refused) as caught:
            game.to_bytes()
        self.assertEqual(caught.exception.number, 1)

    def test_too_new(self):
        with self.assertRaises(slp.Refused) as caught:
            slp.read(self.of_version(4, 0, 0))
        self.assertEqual(caught.exception.number, 1)


class Saving(unittest.TestCase):
    def setUp(self):
        self.path = Path("kept.slp")
        self.path.unlink(missing_ok=True)

    def left(self) -> list[str]:
        return [path.name for path in Path(".").iterdir() if path.name.endswith(".tmp")]

    def test_new(self):
        self.assertEqual(slp.read(DEMO).save(self.path), len(DEMO))
        self.assertEqual(self.path.read_bytes(), DEMO)
        mask = os.umask(0)
        os.umask(mask)
        self.assertEqual(stat.S_IMODE(self.path.stat().st_mode), 0o666 & ~mask)
        self.assertEqual(self.left(), [])

    def test_not_over_another(self):
        self.path.write_bytes(b"another")
        with self.assertRaises(FileExistsError):
            slp.read(DEMO).save(self.path)
        self.assertEqual((self.path.read_bytes(), self.left()), (b"another", []))

    def test_replaced(self):
        self.path.write_bytes(b"another")
        self.path.chmod(0o640)
        link = Path("link.slp")
        link.unlink(missing_ok=True)
        link.symlink_to(self.path)
        slp.read(DEMO).save(link, replace=True)
        self.assertTrue(link.is_symlink())
        self.assertEqual((self.path.read_bytes(), stat.S_IMODE(self.path.stat().st_mode), self.left()), (DEMO, 0o640, []))

    def test_nowhere(self):
        with self.assertRaises(FileNotFoundError):
            slp.read(DEMO).save("no/such/folder.slp")

    def test_refused_leaves_nothing(self):
        game = slp.read(DEMO)
        game.stores["posts"][0] = 256
        with self.assertRaises(slp.Refused):
            game.save(self.path)
        self.assertFalse(self.path.exists())
        self.assertEqual(self.left(), [])


class Threads(unittest.TestCase):
    def test_side_by_side(self):
        wrong = []

        def reads():
            for _ in range(50):
                if slp.read(DEMO).to_bytes() != DEMO:
                    wrong.append(1)

        threads = [threading.Thread(target=reads) for _ in range(4)]
        for thread in threads:
            thread.start()
        for thread in threads:
            thread.join()
        self.assertEqual(wrong, [])


@unittest.skipUnless(pkgutil.find_loader("pandas"), "pandas is not there")
class Frame(unittest.TestCase):
    def test_frame(self):
        game = slp.read(DEMO)
        frame = game.frame()
        self.assertEqual((list(frame.columns), frame.shape), (list(game.table()), (3160, 55)))
        self.assertEqual(str(frame.post_percent.dtype), "float32")


class WithoutPandas(unittest.TestCase):
    def test_is_not_asked_for(self):
        said = subprocess.run([sys.executable, "-c", "import slp, sys; slp.read('demo.slp').table(); print('pandas' in sys.modules)"], capture_output=True)
        self.assertEqual(said.stdout, b"False\n")


def load_tests(loader, tests, pattern):
    Path("again.slp").unlink(missing_ok=True)
    Path("saved.slp").unlink(missing_ok=True)
    modules = [slp, *(importlib.import_module(f"slp.{module.name}") for module in pkgutil.iter_modules(slp.__path__))]
    for module in modules:
        tests.addTests(DocTestSuite(module, extraglobs={"slp": slp, "Path": Path}, optionflags=ELLIPSIS))
    # README.md has made game.slp by then
    Path("game.slp").write_bytes(DEMO)
    tests.addTests(DocFileSuite(*map(str, DOCUMENTS), module_relative=False, optionflags=ELLIPSIS))
    return tests


if __name__ == "__main__":
    unittest.main()
