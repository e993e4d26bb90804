"""The small maps and the records of the project, job by job."""
import os
import pathlib
import re
import tempfile
import unittest

import zompelgors as z

ROOT = pathlib.Path(__file__).resolve().parents[2]
SQUARE = [1, 0, 3, 2, 5, 4, 7, 6, 7, 2, 1, 4, 3, 6, 5, 0]


def sample(name):
    folders = [ROOT / "samples", ROOT.parent / "zompelgors" / "samples", ROOT / "zompelgors" / "samples"]
    return next(folder / name for folder in folders if (folder / name).is_file())


class Refusals(unittest.TestCase):
    def refused(self, fields, job, *arguments):
        with self.assertRaises(z.Refused) as refused:
            job(*arguments)
        self.assertEqual(refused.exception.fields, fields)
        return refused.exception

    def test_fields_and_words(self):
        square = z.Pyramid.base(1, SQUARE)
        refused = self.refused((9, 0, 1, 1), square.add, [255, 0, *[255] * 6])
        self.assertEqual(refused.number, z.Number.NOT_WHOLE)
        self.assertEqual(str(refused), "refused 9 0 1 1: a kernel is not made of whole cells")
        self.assertEqual((refused.level, refused.involution, refused.dart), (0, 1, 1))
        self.assertEqual(square.height, 0)

    def test_numbers_are_the_headers(self):
        header = ROOT / "include" / "zompelgors.h"
        if not header.is_file():
            self.skipTest("the header isn't here")
        text = header.read_text()
        names = dict(re.findall(r"^ +ZG_(?:E_)?(\w+) = (\d+)", text.split("enum zg_number")[1].split("};")[0], re.M))
        self.assertEqual({name: int(number) for name, number in names.items()}, {one.name: int(one) for one in z.Number})
        phrases = re.findall(r'^ +"(.*)",?$', text.split("texts[] = {")[1].split("};")[0], re.M)
        self.assertEqual(phrases, list(z.refusals.TEXTS))
        version = ".".join(re.findall(r"^#define ZG_VERSION_\w+ (\d+)$", text, re.M))
        self.assertEqual((z.__version__, z.version()), (version, version))

    def test_damaged_records(self):
        record = sample("star.record").read_bytes()
        self.refused((16, 0, 0, 34), z.take, record[:50])
        self.refused((19, 0, 0, len(record)), z.take, record + b"\0")
        self.refused((17, 0, 0, 0), z.Pyramid.take, b"\2" + record[1:])
        self.refused((16, 0, 0, 0), z.Pyramid.take, b"")


class Pyramids(unittest.TestCase):
    def test_corners_of_a_square(self):
        square = z.Pyramid.base(1, SQUARE)
        self.assertEqual(square.add([255, 0, 0, *[255] * 5]), 1)
        self.assertEqual(square.add([*[255] * 3, 0, 0, *[255] * 3]), 2)
        self.assertEqual(square.read(2, 0, 0), z.Link(5, 5, 2))
        self.assertEqual(square.read_by_levels(2, 0, 0), z.Reading(5, 5))
        self.assertEqual([list(square.regions(level)) for level in range(3)],
                         [[0, 0, 2, 2, 4, 4, 6, 6], [0, 0, 0, 0, 4, 4, 6, 6], [0, 0, 0, 0, 0, 0, 6, 6]])  # fmt: skip
        self.assertEqual((square.decimation(0), square.decimation(1)), (8 / 6, 6 / 4))
        self.assertEqual(list(square.marks(1)), [255, 255, 255, 0, 0, 255, 255, 255])
        self.assertEqual(square.survivors(2), [0, 5, 6, 7])
        self.assertEqual(list(square.row(2, 0)), [5, *[65_535] * 4, 0, 7, 6])
        self.assertEqual(square.join(0), 1)
        self.assertEqual(square.read(1, 0, 0), z.Link(5, 5, 1))
        self.assertEqual(list(square.mark_cells(0, 0)), [255, 0, 0, 0, 0, 0, 0, 255])

    def test_a_level_with_no_dart(self):
        segment = z.Pyramid.base(1, [1, 0, 0, 1])
        segment.add([0, 0])
        self.assertIsNone(segment.decimation(0))
        self.assertEqual(segment.census()[1], z.Cells((0, 0), 0))
        with self.assertRaises(z.Refused):
            segment.rebase(1)

    def test_all_levels(self):
        for name in ("star.record", "pipe.record", "segment.record"):
            pyramid = z.Pyramid.open(sample(name))
            levels = pyramid.levels()
            self.assertEqual(levels, [pyramid.unfold(level) for level in range(pyramid.height + 1)])
            all_levels = z.unfold_all(*pyramid._lent)
            self.assertEqual(list(all_levels.counts[len(levels) :]), [0] * (z.LEVELS - len(levels)))
        with self.assertRaises(z.Refused) as refused:
            z.Pyramid(1, 1, SQUARE, [1, 0, *[1] * 6], [1, 0, *[1] * 6]).levels()
        self.assertEqual(refused.exception.fields, (9, 0, 1, 1))

    def test_partner(self):
        edges, vertices = [1, 0, 3, 2, 5, 4], [2, 1, 4, 3, 0, 5]
        star = z.Pyramid.from_map(edges, vertices)
        self.assertEqual(list(star.rows[:12]), [3, 2, 1, 0, 7, 6, 5, 4, 11, 10, 9, 8])
        self.assertEqual([list(row) for row in star.partner()], [edges, vertices])
        with self.assertRaises(z.Refused) as refused:
            z.import_map(6, edges, [2, 1, 4, 3, 0, 4])
        self.assertEqual(refused.exception.fields, (21, 0, 1, 5))

    def test_rebase(self):
        star = z.Pyramid.open(sample("star.record"))
        table = star.unfold(1).table
        old = star.rebase(1)
        self.assertEqual(list(old), [0, 1, 4, 5, 6, 7, 10, 11])
        self.assertEqual([old[dart] for dart in star.rows[:8]], [table[dart] for dart in old])
        self.assertEqual((star.height, star.darts), (1, 8))
        star.check()


class Records(unittest.TestCase):
    def test_files(self):
        with tempfile.TemporaryDirectory() as folder:
            for name in ("star.record", "pipe.record", "voxels.record"):
                pyramid, copy = z.Pyramid.open(sample(name)), pathlib.Path(folder) / name
                pyramid.save(copy)
                self.assertEqual(copy.read_bytes(), sample(name).read_bytes())
                self.assertEqual(z.Pyramid.open(copy), pyramid)
            self.assertEqual(len(os.listdir(folder)), 3)

    def test_nothing_is_written_of_a_bad_pyramid(self):
        with tempfile.TemporaryDirectory() as folder:
            bad = z.Pyramid(1, 0, [1, 1, 0, 1], [0, 0], [1, 1])
            with self.assertRaises(z.Refused):
                bad.save(pathlib.Path(folder) / "out")
            with self.assertRaises(OSError):
                z.Pyramid.open(sample("star.record")).save(pathlib.Path(folder) / "none" / "out")
            self.assertEqual(os.listdir(folder), [])

    def test_lent_room(self):
        record = sample("star.record").read_bytes()
        rows, table = bytearray(50_000), bytearray(50_000)
        taken = z.take(record, memoryview(rows).cast("H"), bytearray(20), bytearray(20), memoryview(table).cast("H"))
        self.assertEqual((taken.n, taken.h, taken.darts), (2, 2, 12))
        self.assertEqual(memoryview(rows).cast("H")[0], 6)
        with self.assertRaises(z.Refused) as refused:
            z.take(record, memoryview(rows).cast("H"), bytearray(11))
        self.assertEqual(refused.exception.number, z.Number.LENGTH)
        buffer = bytearray(200)
        lent = z.take(record)
        length = z.write(2, 12, 2, lent.rows, lent.lambda_, lent.delta, buffer=buffer)
        self.assertEqual(bytes(buffer[:length]), record)

    @unittest.skipUnless(os.environ.get("ZOMPELGORS_CONVERT"), "the program convert isn't named")
    def test_convert(self):
        record = sample("star.record").read_bytes()
        self.assertEqual(z.convert(record), record)
        with self.assertRaises(z.Refused) as refused:
            z.convert(record[:50])
        self.assertEqual(refused.exception.fields, (16, 0, 0, 34))


if __name__ == "__main__":
    unittest.main()
