"""Wrong input ends in an exception that says what to do."""
import inspect
import struct
import unittest

import mossquilt as mq
import numpy as np

ONE = np.eye(3, dtype=np.int64)
REAL = np.eye(3)
D, Q, PS = np.array([1, 1, 3]), ONE, [0, 0, 0]
TABLE = mq.bz_grid_addresses(D, Q, PS, REAL, 2)
NAN = np.where(REAL == 1, np.nan, 0.0)
SQUARE = np.array([ONE, [[0, 1, 0], [1, 0, 0], [0, 0, 1]]])
READ_ONLY = np.zeros(3, int)
READ_ONLY.flags.writeable = False
ROOM = np.zeros(12, int)


def chain(**changed):
    return mq.fold(**{"cell": REAL, "rotations": [ONE], "grid_matrix": (1, 1, 3), **changed})


def room(addresses):
    return mq.bz_grid_addresses(D, Q, PS, REAL, 2, out=(addresses, np.empty(4, int), np.empty(3, int)))


# The call, the exception, and words of its message: what is wrong, and what to do.
TYPES = [
    (lambda: mq.snf3x3(REAL), "a has the dtype float64", "np.rint(a).astype(np.int64)"),
    (lambda: mq.snf3x3(ONE.astype(np.uint64)), "dtype uint64", "a.astype(np.int64)"),
    (lambda: mq.snf3x3(ONE.astype(bool)), "dtype bool", "a.astype(np.int64)"),
    (lambda: mq.snf3x3(ONE.astype(str)), "dtype <U21", "a.astype(np.int64)"),
    (lambda: mq.snf3x3([[2**70, 0, 0], [0, 1, 0], [0, 0, 1]]), "dtype object", "if they fit"),
    (lambda: mq.bz_grid_sizes(D, Q, PS, REAL.astype(complex), 2), "lattice has the dtype complex128", "lattice.astype(np.float64)"),
    (lambda: mq.bz_grid_sizes(D, Q, PS, REAL, 2.0), "bz_grid_type is 2.0", "give a whole number"),
    (lambda: mq.reciprocal_group([ONE], 1), "time_reversal is 1", "give True or False"),
    (lambda: mq.ir_grid_map([ONE], D, PS, out=5), "out is a int", "give an array for each output: map"),
    (lambda: mq.ir_grid_map([ONE], D, PS, out=[0, 0, 0]), "out has 3 arrays", "must have 1"),
    (lambda: mq.ir_grid_map([ONE], D, PS, out=[[0, 0, 0]]), "out: map is a list", "give an array np.empty((3,), np.int64)"),
    (lambda: mq.ir_grid_map([ONE], D, PS, out=np.zeros(3)), "out: map has the dtype float64", "give np.empty((3,), np.int64)"),
    (lambda: mq.ir_grid_map([ONE], D, PS, out=np.zeros(3, ">i8")), "out: map has the dtype >i8", "give np.empty((3,), np.int64)"),
    (lambda: mq.neighboring_grid_points([0], [PS], None, D, 2), "table is a NoneType", "bz_grid_addresses"),
    (lambda: mq.list_job("grid"), "job is a str", "jobs/make"),
    (lambda: chain(lattice=REAL), "give either cell", "or lattice"),
    (lambda: chain(cell=None), "give either cell", "or lattice"),
    (lambda: chain(cell=REAL.astype(complex)), "cell has the dtype complex128", "give real numbers"),
]
VALUES = [
    (lambda: mq.bz_grid_sizes(D, Q, PS, REAL[:2].T, 2), "lattice has the shape (3, 2)", "in columns, np.linalg.inv(cell)"),
    (lambda: mq.snf3x3(ONE.ravel()), "a has the shape (9,)", "a.reshape(3, 3)"),
    (lambda: mq.reciprocal_group(ONE.ravel(), True), "rotations has the shape (9,)", "rotations.reshape(-1, 3, 3)"),
    (lambda: mq.reciprocal_group(ONE, True), "rotations has the shape (3, 3)", "must have (n, 3, 3)"),
    (lambda: mq.all_grid_addresses([]), "d has the shape (0,)", "the diagonal that snf3x3 leaves"),
    (lambda: mq.snf3x3([[1, 2], [3]]), "a is ragged", "shape (3, 3)"),
    (lambda: mq.worst_pair(2**63), "leaves 64 bits", "give a number within"),
    (lambda: mq.ir_grid_map([ONE], D, PS, out=np.zeros(4, int)), "out: map has the shape (4,)", "give np.empty((3,), np.int64)"),
    (lambda: mq.ir_grid_map([ONE], D, PS, out=np.zeros(6, int)[::2]), "not one after the other", "give np.empty((3,), np.int64)"),
    (lambda: mq.ir_grid_map([ONE], D, PS, out=READ_ONLY), "map is read-only", "give np.empty((3,), np.int64)"),
    (lambda: mq.ir_grid_map([ONE], D, READ_ONLY, out=READ_ONLY[:]), "map is read-only", "give np.empty((3,), np.int64)"),
    (lambda: mq.ir_grid_map([ONE], ROOM[:3] + 1, ROOM[3:6], out=ROOM[5:6]), "map overlaps ps", "map.copy()"),
    (lambda: mq.ir_triplets_at_q(0, [1, 1, 3], [ONE], True, True, out=(ROOM[:3], ROOM[2:5])), "map_q overlaps map_triplets", "copy()"),
    (lambda: room(np.frombuffer(bytearray(80), "u1")[1:73].view(np.int64).reshape(3, 3)), "not one after", "np.empty((3, 3), np.int64)"),
    (lambda: mq.class_sheet([0, 1, 0], [[1, 0, 2]]), "triplets has 1 rows, and class_map 2 classes", "give a row for each class"),
    (lambda: chain(grid_matrix=(1, 3)), "grid_matrix has the shape (2,)", "three whole numbers for a mesh"),
    (lambda: chain(cell=REAL[:2]), "cell has the shape (2, 3)", "a1, a2, a3 are its rows"),
    (lambda: chain(cell=NAN), "cell[0, 0] is nan", "give finite numbers"),
    (lambda: chain(cell=np.ones((3, 3))), "cell has the determinant 0", "not in one plane"),
    (lambda: chain(cell=np.diag([1, 2, 3]), rotations=SQUARE), "1 of 2 do not keep the lengths", "in rows, or lattice with"),
    (lambda: chain(q0=[0.1, 0, 0.1]), "is no point of the grid", "give a q that makes it whole"),
    (lambda: chain(q0=[0.1, 0]), "q has the shape (2,)", "give three real numbers"),
]
REFUSED = [
    (1, lambda: mq.snf3x3(ONE * 0), "the determinant of the matrix is 0", "three rows"),
    (3, lambda: mq.bz_grid_sizes(D, Q, PS, NAN, 2), "lattice[0, 0] is nan", "must be -1,000,000 to 1,000,000"),
    (3, lambda: mq.transform_rotations([ONE * 101], D, Q), "rotations[0, 0, 0] is 101", "-100 to 100"),
    (3, lambda: mq.all_grid_addresses([256, 256, 2]), "makes 131,072 points", "at most 65,536"),
    (3, lambda: mq.ir_triplets_at_q(3, D, [ONE], True, True), "q0 is 3", "the points are 0 to 2"),
    (3, lambda: mq.ir_grid_map([ONE] * 193, D, PS), "rotations has 193 matrices", "may have 192"),
    (3, lambda: mq.convert_bz_grid(TABLE._replace(record=[0] * 7)), "the record is [0, 0, 0, 0, 0, 0, 0]", "LIMITS"),
    (3, lambda: mq.class_sheet([0], [[-(10**10), 0, 0]]), "a class number and a weight have at most 6 characters", "image index 11"),
    (3, lambda: mq.worst_pair(0), "limit is 0", "must be 1 to 1,000,000"),
    (4, lambda: mq.snf3x3([[999999, 123456, 7], [-998877, 5, 654321], [31, -765432, 999983]]), "leaves 64 bits", "smaller rows"),
    (5, lambda: mq.transform_rotations([ONE], D, ONE * 0), "the determinant of q is 0", "snf3x3"),
    (6, lambda: mq.transform_rotations(SQUARE, [1, 2, 1], Q), "1 of 2 rotations do not, the first is rotations[1]", "jobs/from-cell"),
    (6, lambda: chain(rotations=SQUARE, grid_matrix=(2, 3, 1)), "does not keep the grid", "equal numbers along equivalent axes"),
    (7, lambda: mq.reciprocal_rotations([ONE * n for n in range(49)], False), "over 48 rotations", "point group"),
    (8, lambda: mq.reciprocal_rotations([ONE * n for n in range(25)], True), "over 24 rotations", "time_reversal=False"),
    (9, lambda: mq.bz_grid_sizes(D, Q, PS, REAL, 3), "the type is neither", "give bz_grid_type 1 or 2"),
    (10, lambda: mq.bz_grid_sizes(D, ONE * 2, PS, REAL, 2), "neither 1 nor -1", "snf3x3"),
    (11, lambda: mq.bz_grid_sizes(D, Q, PS, REAL * 0, 2), "the determinant of the lattice is 0", "in columns"),
    (12, lambda: mq.bz_grid_sizes(D, Q, PS, np.diag([1e-6, 1, 1]), 2), "over 16 cells", "spglib.niggli_reduce"),
    (14, lambda: mq.rotate_bz_grid_index(9, ONE, TABLE, D, PS, 2), "outside of the table", "0 to len(table.grg) - 1"),
    (15, lambda: mq.list_job(b""), "the header", "jobs/make"),
    (16, lambda: mq.bz_grid_fill(D, Q, PS, REAL, 2, [9, 4, 4]), "the sizes are not those", "bz_grid_sizes"),
    (16, lambda: mq.bz_grid_fill(D, Q, PS, REAL, 2, [-3, 2**62, 2**62]), "the sizes are not those", "bz_grid_sizes"),
    (17, lambda: mq.rotate_bz_grid_index(0, ONE, TABLE, D, [1, 0, 0], 2), "the record is [1, 1, 3, 0, 0, 0, 2]", "d0 d1 d2 ps0"),
    (18, lambda: mq.reciprocal_group([], True), "the identity is not among them", "the identity alone"),
    (18, lambda: chain(rotations=[ONE, ONE]), "rotations[1] is rotations[0] a second time", "np.unique(rotations, axis=0)"),
    (18, lambda: chain(rotations=[ONE, ONE * 2]), "rotations[1] has the determinant 8", "1 or -1"),
    (18, lambda: chain(rotations=[ONE, ONE[[1, 2, 0]]]), "the product of rotations[1] and rotations[1]", "point group"),
    (19, lambda: mq.convert_bz_grid(TABLE._replace(grg=TABLE.grg[::-1].copy())), "no images make this table", "bz_grid_addresses"),
    (20, lambda: mq.mark_candidates(D, Q, PS, [1, 0, 0, 1, 0, 2], [1, 0, 0, 1, 0, 1], 0), "lowest[5] is 2", "lowest <= highest"),
]


class WrongInput(unittest.TestCase):
    def told(self, case, kind, call, words):
        with self.subTest(words[0]), self.assertRaises(kind) as raised:
            call()
        for word in words:
            self.assertIn(word, str(raised.exception), case)
        return raised.exception

    def test_types(self):
        for case, (call, *words) in enumerate(TYPES):
            self.told(case, (TypeError, ValueError), call, words)

    def test_values(self):
        for case, (call, *words) in enumerate(VALUES):
            self.assertNotIsInstance(self.told(case, ValueError, call, words), mq.Refused)

    def test_refusals(self):
        for case, (number, call, *words) in enumerate(REFUSED):
            refused = self.told(case, mq.Refused, call, words)
            self.assertEqual(refused.refusal, number)
        self.assertEqual(set(mq.Refusal) - {row[0] for row in REFUSED}, {2, 13})

    def test_sizes_that_are_wrong_leave_lent_outputs_filled(self):
        out = np.zeros((3, 3), int), np.zeros(4, int), np.zeros(3, int)
        for sizes in ([9, 4, 4], [9, 3, 3], [12, 4, 4], [3 * 10**9, 4, 10**9]):
            with self.assertRaises(mq.Refused) as raised:
                mq.bz_grid_fill(D, Q, PS, REAL, 2, sizes, out=None if sizes[2] == 4 and sizes[0] == 12 else out)
            self.assertEqual(raised.exception.refusal, 16)
            self.assertTrue(all((array == -1).all() for array in out))

    def test_anything_at_all(self):
        """Any values end in an answer, a TypeError or a ValueError."""
        random = np.random.default_rng(3)
        pool = [
            None, True, 0, 1, 2, -1, 2**63, 1.5, "x", b"", [], {}, np.nan, PS, D, ONE, -ONE, REAL, NAN, SQUARE, [[1, 2], [3]],
            [ONE], TABLE, TABLE._replace(map=[9, 9]), [2**40] * 3, [[0, 0, 0]], np.zeros((0, 3), int), np.array(3), [0, 1, 0],
        ]
        accepted = 0
        for name in mq.__all__:
            call = getattr(mq, name)
            if not inspect.isfunction(call):
                continue
            names = [parameter for parameter in inspect.signature(call).parameters if parameter != "out"]
            for _ in range(400):
                given = {parameter: pool[random.integers(len(pool))] for parameter in names}
                try:
                    call(**given)
                    accepted += 1
                except (TypeError, ValueError):
                    pass
        self.assertGreater(accepted, 50)

    def test_a_job_that_is_too_large(self):
        one = [1, 0, 0, 0, 1, 0, 0, 0, 1]
        job = struct.pack("<8I", 176, 1, 32, 68, 104, 3, 2, 1) + struct.pack("<18i9d", 257, 0, 0, 0, 1, 0, 0, 0, 1, *one, *one)
        self.assertEqual(self.told(0, mq.Refused, lambda: mq.list_job(job), ["list_job is refused"]).refusal, 3)
        job = struct.pack("<8I", 176, 1, 32, 68, 104, 3, 2, 1) + struct.pack("<18i9d", 20, 0, 0, 0, 20, 0, 0, 0, 1, *one, *one)
        self.assertEqual(self.told(0, mq.Refused, lambda: mq.list_job(job), ["room for 256 points"]).refusal, 13)


if __name__ == "__main__":
    unittest.main()
