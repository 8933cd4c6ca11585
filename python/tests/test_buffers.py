"""Memory of other objects: mapped files, arrays in and out, numpy."""
import array
import ctypes
import mmap
import tempfile
import tracemalloc
import unittest

from bekstaudi import CodePointSet, NotATrie, Trie, InvalidTrie, UnitTrie
from samples import NAMES, read

try:
    import numpy
except ImportError:
    numpy = None


class ReadInPlace(unittest.TestCase):
    def test_a_mapped_file_of_two_gigabytes(self):
        data = read(NAMES[0])
        with tempfile.NamedTemporaryFile() as file:
            file.write(data)
            file.truncate(2 << 30)
            mapped = mmap.mmap(file.fileno(), 0, access=mmap.ACCESS_READ)
            tracemalloc.start()
            trie = Trie(mapped)
            taken = tracemalloc.get_traced_memory()[1]
            tracemalloc.stop()
            self.assertLess(taken, 4096)
            self.assertEqual((trie, trie.size, trie.data), (Trie(data), len(data), data))
            self.assertEqual(list(trie.ranges()), list(Trie(data).ranges()))
            self.assertRaises(BufferError, mapped.close)
            del trie
            mapped.close()

    def test_read_only_views(self):
        data = read(NAMES[0])
        for given in (memoryview(data), memoryview(data + b"more"), memoryview(bytearray(data)).toreadonly()):
            trie = Trie(given)
            self.assertEqual((trie, hash(trie), trie.data), (Trie(data), hash(Trie(data)), data))
        units = UnitTrie.build({"a": 1, "ab": 2})
        mapped = memoryview(b"x" + units.data)[1:]
        self.assertEqual((UnitTrie(mapped), UnitTrie(mapped)["ab"]), (units, 2))

    def test_writable_bytes_are_copied(self):
        data = bytearray(read(NAMES[0]))
        trie, values = Trie(data), list(Trie(read(NAMES[0])).values(range(256)))
        data[:] = bytes(len(data))
        data.append(0)
        self.assertEqual(list(trie.values(range(256))), values)

    def test_what_is_not_contiguous_is_copied(self):
        data = read(NAMES[0])
        spread = bytes(2 * len(data))
        spread = memoryview(bytearray(spread))
        spread[::2] = data
        self.assertEqual(Trie(spread.toreadonly()[::2]), Trie(data))

    def test_bytes_that_change_are_read_inside(self):
        data = bytearray(read(NAMES[0]))
        trie = Trie(memoryview(data).toreadonly())
        for byte in (0, 0x55, 0xFF):
            data[:] = bytes([byte]) * len(data)
            self.assertEqual(len(trie.values(range(0x110001))), 0x110001)
            self.assertLess(max(trie[it] for it in range(0, 0x110001, 7)), 1 << 32)
            self.assertGreaterEqual(len(list(trie.ranges())), 0)
        self.assertRaisesRegex(NotATrie, "^the bytes of the trie have changed since it was opened$", trie.set_of, 0)
        self.assertRaises(InvalidTrie, Trie, data)

    def test_no_bytes_at_all(self):
        for nothing in (b"", bytearray(), memoryview(b""), array.array("B"), mmap.mmap(-1, 1)[:0]):
            self.assertRaises(InvalidTrie, Trie, nothing)
            self.assertEqual(UnitTrie(nothing), UnitTrie(b""))


class Arrays(unittest.TestCase):
    def setUp(self):
        self.trie = Trie(read(NAMES[0]))

    def test_integers_of_all_types(self):
        points = [0, 9, 65, 97, 126]
        wanted = list(self.trie.values(points))
        for code in "bBhHiIlLqQ":
            self.assertEqual(list(self.trie.values(array.array(code, points))), wanted)
        for kind in (ctypes.c_uint8, ctypes.c_int16, ctypes.c_uint32, ctypes.c_int64):
            self.assertEqual(list(self.trie.values((kind * 5)(*points))), wanted)
        self.assertEqual(list(self.trie.values(bytes(points))), wanted)
        for given in (tuple(points), iter(points), map(chr, points), memoryview(bytes(points))):
            self.assertEqual(list(self.trie.values(given)), wanted)
        self.assertEqual(list(self.trie.values(range(5))), [self.trie[it] for it in range(5)])
        spread = memoryview(array.array("I", [it for point in points for it in (point, 7)]))
        self.assertEqual(list(self.trie.values(spread[::2])), wanted)

    def test_numbers_that_are_outside(self):
        for count in (1, 5000, 20000):
            for code, wrong in (("b", -1), ("h", -7), ("i", -1), ("q", -(1 << 63)), ("q", 1 << 32), ("Q", (1 << 64) - 1)):
                points = array.array(code, [65] * count)
                points[-1] = wrong
                self.assertRaisesRegex(ValueError, f" {wrong} is outside", self.trie.values, points)
        for wrong in (array.array("d", [65.0]), [65.0], 65, None):
            self.assertRaises(TypeError, self.trie.values, wrong)

    def test_long_texts(self):
        text = "aZ9 \u4e16\U0001f600\ud800\0" * 5000
        wanted = list(self.trie.values(text[:8])) * 5000
        self.assertEqual(list(self.trie.values(text)), wanted)
        self.assertEqual(list(self.trie.values(array.array("I", map(ord, text)))), wanted)
        self.assertEqual(list(self.trie.values(array.array("q", map(ord, text)))), wanted)

    def test_results_are_views(self):
        for name in NAMES:
            trie = Trie(read(name))
            values = trie.values("abc \u4e16")
            self.assertIsInstance(values, memoryview)
            self.assertEqual((values.format, values.itemsize), ("BH?I"[trie.value_bits // 8 - 1], trie.value_bits // 8))
            self.assertEqual((values[1:3].tolist(), values[-1]), ([trie["b"], trie["c"]], trie["\u4e16"]))
            self.assertEqual(values, trie.values("abc \u4e16"))

    def test_results_without_items(self):
        for name in NAMES:
            trie = Trie(read(name))
            some = trie.values("a")
            for given in ("", [], b"", array.array("q"), range(0), iter("")):
                found = trie.values(given)
                self.assertEqual((found.format, found.itemsize, found.shape, found.nbytes), (some.format, some.itemsize, (0,), 0))
            self.assertEqual((trie[9:3].format, trie[9:3].tolist()), (some.format, []))

    def test_out_that_overlaps(self):
        for name in NAMES:
            trie = Trie(read(name))
            size, code = trie.value_bits // 8, "BH?I"[trie.value_bits // 8 - 1]
            for kind, count in (("B", 3000), ("H", 1200), ("I", 2500), ("b", 9000), ("q", 1100), ("Q", 40)):
                points = array.array(kind, [it * 7 % 120 for it in range(count)])
                wanted, width = list(trie.values(points)), points.itemsize
                for out in (0, width * 8, width * 1024, width * count - 8 * size):
                    for start in (0, width * 8, width * 1024):
                        room = memoryview(bytearray(max(start + width * count, out + size * count)))
                        given, found = room[start:start + width * count].cast(kind), room[out:out + size * count].cast(code)
                        given[:] = points
                        self.assertEqual(trie.values(given, out=found).tolist(), wanted)
        trie, room = Trie.build([(0, 9, 5)]), array.array("b", [1, 2, -3, 4])
        with self.assertRaisesRegex(ValueError, "^the code point -3 is outside"):
            trie.values(memoryview(room)[:3], out=memoryview(room)[1:].cast("B"))
        self.assertEqual(room.tolist(), [1, 2, -3, 4])

    def test_out_that_is_not_aligned(self):
        trie, room = Trie.build([(0, 9, 300)]), memoryview(bytearray(9))
        with self.assertRaisesRegex(ValueError, "^out: expected a buffer that is aligned to 2 bytes$"):
            trie.values("ab", out=room[1:].cast("H"))
        self.assertEqual(trie.values(memoryview(bytes(9))[1:].cast("I")).tolist(), [300, 300])

    def test_out(self):
        for name in NAMES:
            trie = Trie(read(name))
            code = "BH?I"[trie.value_bits // 8 - 1]
            for text in ("", "a", "abc \u4e16", 9000 * "ab"):
                room = array.array(code, [77] * (len(text) + 2))
                found = trie.values(text, out=room)
                self.assertEqual(list(room[len(text):]), [77, 77])
                self.assertEqual((found, found.obj is room), (trie.values(text) if text else found, True))
                self.assertEqual(len(found), len(text))
                self.assertEqual(list(room[:len(text)]), list(trie.values(text)))
                found.release()
            with self.assertRaisesRegex(ValueError, "room for 3 values, found 2"):
                trie.values("abc", out=array.array(code, [0, 0]))
            with self.assertRaisesRegex(ValueError, f"unsigned integers of {trie.value_bits} bits"):
                trie.values("abc", out=array.array(code.lower(), [0, 0, 0]))
            self.assertRaises(ValueError, trie.values, "abc", out=array.array("Q", [0, 0, 0]))
            self.assertRaises(ValueError, trie.values, "abc", out=memoryview(array.array(code, range(9)))[::2])
            self.assertRaises(TypeError, trie.values, "abc", out=memoryview(bytes(3 * trie.value_bits // 8)).cast(code))
            for wrong in (5, "abc", [0, 0, 0]):
                self.assertRaises(TypeError, trie.values, "abc", out=wrong)


@unittest.skipUnless(numpy, "numpy is not installed")
class Numpy(unittest.TestCase):
    def test_in_and_out(self):
        for name in NAMES:
            trie = Trie(read(name))
            kind = numpy.dtype(f"u{trie.value_bits // 8}")
            for points in (numpy.arange(0x110000, dtype="u4"), numpy.arange(300), numpy.arange(9, dtype="i2")):
                wanted = [trie[int(it)] for it in points[:5000]]
                found = numpy.asarray(trie.values(points))
                self.assertEqual((found.dtype, found[:5000].tolist()), (kind, wanted))
                self.assertEqual(numpy.frombuffer(trie.values(points), kind)[:5000].tolist(), wanted)
                self.assertEqual(numpy.asarray(trie.values(points[::2]))[:2500].tolist(), wanted[::2])
                room = numpy.zeros(len(points), kind)
                trie.values(points, out=room)
                self.assertEqual(room[:5000].tolist(), wanted)
                self.assertRaises(ValueError, trie.values, points, out=numpy.zeros(len(points), "f8"))
                frozen = numpy.zeros(len(points), kind)
                frozen.flags.writeable = False
                self.assertRaises(TypeError, trie.values, points, out=frozen)

    def test_results_without_items(self):
        for name in NAMES:
            trie = Trie(read(name))
            self.assertEqual(numpy.asarray(trie.values("")).dtype, numpy.dtype(f"u{trie.value_bits // 8}"))

    def test_sets(self):
        for kind in ("u1", "i2", "u4", "i8"):
            points = numpy.array([9, 65, 66, 97, 9], kind)
            for given in (points, points[::2], list(points), points.reshape(5, 1)[:, 0]):
                self.assertEqual(CodePointSet.from_chars(given), set(map(int, given)))
            self.assertEqual(CodePointSet([5, 8]) | set(points), {5, 6, 7, 9, 65, 66, 97})
        self.assertEqual(CodePointSet.from_ranges(numpy.array([[5, 6], [9, 9]])).ends, (5, 7, 9, 10))
        self.assertTrue(CodePointSet([9, 10, 65, 67]) >= set(numpy.array([9, 65])))

    def test_tables_in_arrays(self):
        table = numpy.frombuffer(read(NAMES[0]), "u1")
        self.assertEqual(Trie(table), Trie(read(NAMES[0])))
        self.assertEqual(Trie(table.copy()), Trie(table))


if __name__ == "__main__":
    unittest.main()
