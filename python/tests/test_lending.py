"""Memory that is lent: what is taken as it is, what is copied, what is an error of the caller."""
import array
import ctypes
import mmap
import threading
import unittest

import zompelgors as z
from zompelgors._lend import fits

try:
    import numpy
except ImportError:
    numpy = None

STAR = [
    *(6, 7, 8, 9, 10, 11, 0, 1, 2, 3, 4, 5),
    *(5, 2, 1, 4, 3, 0, 7, 6, 9, 8, 11, 10),
    *(1, 0, 3, 2, 5, 4, 7, 6, 9, 8, 11, 10),
]
LAMBDA = bytes([1, 1, 0, 0, 1, 1, 2, 2, 0, 0, 2, 2])
DELTA = bytes([0, 0, 1, 1, 0, 0, 2, 2, 1, 1, 2, 2])
TOP = z.Link(neighbour=10, count=5, since=2)


class Lent(unittest.TestCase):
    def answers(self, rows, lambda_=LAMBDA, delta=DELTA):
        self.assertEqual(z.read(2, 12, 2, rows, lambda_, delta, 2, 0, 7), TOP)

    def test_whatever_has_a_buffer(self):
        own = array.array("H", STAR)
        for rows in (own, memoryview(own), bytearray(own.tobytes()), own.tobytes()):
            view = memoryview(rows)
            rows = view if view.format == "H" else view.cast("H")
            self.assertTrue(fits(rows, "H"))
            self.answers(rows)
        self.answers((ctypes.c_uint16 * 36)(*STAR))
        room = mmap.mmap(-1, 72)
        room[:] = own.tobytes()
        self.answers(memoryview(room).cast("H"))

    def test_sequences_are_copied(self):
        self.answers(STAR, list(LAMBDA), tuple(DELTA))
        self.answers(array.array("L", STAR), array.array("H", list(LAMBDA)))
        self.assertFalse(fits(array.array("L", STAR), "H"))

    def test_readonly_memory_is_lent(self):
        self.assertTrue(fits(memoryview(array.array("H", STAR)).toreadonly(), "H"))
        self.assertTrue(fits(LAMBDA, "B"))
        self.assertFalse(fits(LAMBDA, "B", writable=True))

    def test_gaps_and_odd_places(self):
        twice = array.array("H", [entry for dart in STAR for entry in (dart, 0)])
        self.answers(memoryview(twice)[::2])
        with self.assertRaises(TypeError):
            z.unfold(2, 12, 2, STAR, LAMBDA, DELTA, 1, memoryview(array.array("H", bytes(144)))[::2])

    def test_written_memory_is_the_callers(self):
        table = array.array("H", bytes(72))
        answer = z.unfold(2, 12, 2, STAR, LAMBDA, DELTA, 1, table)
        self.assertIs(answer.table, table)
        self.assertEqual(table[0], 6)
        for wrong in (bytes(72), [0] * 36, array.array("B", bytes(36)), array.array("I", bytes(144))):
            with self.assertRaises(TypeError):
                z.unfold(2, 12, 2, STAR, LAMBDA, DELTA, 1, wrong)

    def test_overlaps_are_no_call(self):
        rows = array.array("H", STAR)
        with self.assertRaises(ValueError):
            z.unfold(2, 12, 2, rows, LAMBDA, DELTA, 1, rows)
        both = bytearray(LAMBDA + DELTA)
        marks = [255] * 12
        with self.assertRaises(ValueError):
            z.add(2, 12, 2, rows, memoryview(both)[:13], memoryview(both)[12:], marks)
        self.assertEqual(z.add(2, 12, 2, rows, memoryview(both)[:12], memoryview(both)[12:], marks), 3)
        # What is only read may overlap.
        self.assertEqual(list(z.row(2, 12, 2, rows, rows, 1, 0)), STAR[:12])

    def test_lengths_are_the_librarys(self):
        for rows in (STAR[:-1], [], [*STAR, 0]):
            with self.assertRaises(z.Refused) as refused:
                z.read(2, 12, 2, rows, LAMBDA, DELTA, 2, 0, 7)
            self.assertEqual(refused.exception.fields, (4, 0, 0, 0))

    def test_numbers_that_no_byte_holds(self):
        for n, darts, level in ((256, 12, 0), (-1, 12, 0), (2, 65_536, 0), (2, 12, 300)):
            with self.assertRaises(ValueError):
                z.read(n, darts, 2, STAR, LAMBDA, DELTA, level, 0, 7)
        with self.assertRaises(TypeError):
            z.read(2.5, 12, 2, STAR, LAMBDA, DELTA, 0, 0, 7)
        with self.assertRaises((OverflowError, ValueError)):
            z.read(2, 12, 2, [70_000] * 36, LAMBDA, DELTA, 0, 0, 7)

    def test_memory_is_given_back(self):
        room = bytearray(LAMBDA)
        z.marks_of(2, 12, 2, room, DELTA, 0)
        room.append(0)
        with self.assertRaises(z.Refused):
            z.marks_of(2, 12, 2, room, DELTA, 0)
        room.append(0)

    def test_threads(self):
        found = []
        work = lambda: found.append(all(z.read(2, 12, 2, STAR, LAMBDA, DELTA, 2, 0, 7) == TOP for _ in range(200)))
        threads = [threading.Thread(target=work) for _ in range(4)]
        for thread in threads:
            thread.start()
        for thread in threads:
            thread.join()
        self.assertEqual(found, [True] * 4)


@unittest.skipIf(numpy is None, "numpy isn't here")
class Numpy(unittest.TestCase):
    def test_arrays_are_lent(self):
        rows = numpy.array(STAR, numpy.uint16).reshape(3, 12)
        lambda_, delta = numpy.frombuffer(LAMBDA, numpy.uint8), numpy.frombuffer(DELTA, numpy.uint8)
        for lent, kind in ((rows, "H"), (lambda_, "B"), (delta, "B")):
            self.assertTrue(fits(lent, kind))
        self.assertEqual(z.read(2, 12, 2, rows, lambda_, delta, 2, 0, 7), TOP)
        table = numpy.zeros((3, 12), numpy.uint16)
        z.unfold(2, 12, 2, rows, lambda_, delta, 1, table)
        self.assertEqual(table[1, 1], 4)
        words = numpy.zeros(64, numpy.uint64)
        self.assertEqual(z.survivors(12, 2, lambda_, 1, words).count, 8)
        self.assertEqual(int(words[0]), 0b110011110011)
        sums = numpy.zeros(33, numpy.int32)
        z.census(2, 12, 2, rows, lambda_, delta, sums=sums)
        self.assertEqual(list(sums[:3]), [2, 2, 2])

    def test_other_types_are_copied(self):
        wide = numpy.array(STAR).reshape(3, 12)
        self.assertFalse(fits(wide, "H"))
        self.assertEqual(z.read(2, 12, 2, wide, LAMBDA, DELTA, 2, 0, 7), TOP)
        foreign = numpy.array(STAR, ">u2")
        self.assertFalse(fits(foreign, "H"))
        self.assertEqual(z.read(2, 12, 2, foreign, LAMBDA, DELTA, 2, 0, 7), TOP)
        self.assertEqual(z.read(2, 12, 2, foreign.reshape(3, 12), LAMBDA, DELTA, 2, 0, 7), TOP)
        with self.assertRaises(TypeError):
            z.unfold(2, 12, 2, wide, LAMBDA, DELTA, 1, numpy.zeros((3, 12), numpy.int16))
        with self.assertRaises(TypeError):
            z.unfold(2, 12, 2, wide, LAMBDA, DELTA, 1, numpy.zeros((12, 3), numpy.uint16).T)

    def test_a_pyramid_of_arrays_changes_them(self):
        lambda_, delta = numpy.zeros(8, numpy.uint8), numpy.ones(8, numpy.uint8)
        rows = numpy.array([1, 0, 3, 2, 5, 4, 7, 6, 7, 2, 1, 4, 3, 6, 5, 0], numpy.uint16)
        pyramid = z.Pyramid(1, 0, rows, lambda_, delta)
        self.assertIs(pyramid.lambda_, lambda_)
        pyramid.add([255, 0, 0, 255, 255, 255, 255, 255])
        self.assertEqual(list(lambda_), [1, 0, 0, 1, 1, 1, 1, 1])
