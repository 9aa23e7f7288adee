"""What the calls answer: beside their definitions in numpy, the listing of the same job, and lent outputs."""
import importlib.machinery
import importlib.util
import itertools
import pathlib
import pickle
import struct
import unittest

import mossquilt as mq
import numpy as np

JOBS = pathlib.Path(__file__).parent.parent.parent / "jobs"
ONE = np.eye(3, dtype=np.int64)
NO_SHIFT = [0, 0, 0]


def job_maker():
    loader = importlib.machinery.SourceFileLoader("make", str(JOBS / "make"))
    module = importlib.util.module_from_spec(importlib.util.spec_from_loader("make", loader))
    loader.exec_module(module)
    return module


def cubic():
    """The 48 rotations of a cube."""
    return np.array([
        np.diag(signs)[list(axes)] for axes in itertools.permutations(range(3)) for signs in itertools.product((1, -1), repeat=3)
    ])


def crystal(random):
    """A grid and a group that keeps it, in another basis of the cubic lattice."""
    change = np.array(ONE)
    for _ in range(4):
        i, j = random.permutation(3)[:2]
        change[i] += random.integers(-1, 2) * change[j]
    inverse = np.rint(np.linalg.inv(change)).astype(int)
    rotations = inverse.T @ cubic() @ change.T  # x of the new basis is (change⁻¹)ᵀ·x
    sides = random.integers(1, 7, 3)
    kept = [r for r, s in zip(rotations, cubic()) if np.allclose(np.diag(sides) @ s.T % sides[None, :] % sides, 0)]
    a = np.diag(sides) @ inverse
    return change.astype(float), np.array([r for r in kept if keeps(a, r)]), a


def keeps(a, rotation):
    moved = a @ rotation.T @ np.linalg.inv(a)
    return np.allclose(moved, np.rint(moved))


class Answers(unittest.TestCase):
    def test_diagonals(self):
        random = np.random.default_rng(1)
        for _ in range(200):
            a = random.integers(-9, 10, (3, 3))
            size = abs(round(np.linalg.det(a)))
            if size == 0:
                continue
            for made in (mq.snf3x3(a), mq.smith3x3(a)):
                self.assertTrue((made.p @ a @ made.q == np.diag(made.d)).all())
                self.assertEqual((round(np.linalg.det(made.p)), np.prod(made.d)), (1, size))
            d = mq.smith3x3(a).d
            self.assertFalse((d[1:] % d[:-1]).any())
            rows = np.array([[1, 0, 0], [2, 1, 0], [-3, 1, 1]])
            self.assertTrue(mq.same_grid(a, rows @ a))
            self.assertEqual(mq.order_forms(mq.hermite3x3(a), mq.hermite3x3(rows @ a)), 1)

    def test_fold_of_random_grids(self):
        random = np.random.default_rng(2)
        for number in range(60):
            cell, rotations, a = crystal(random)
            if not len(rotations):
                continue
            swappable = bool(number % 2)
            made = [mq.fold(cell=cell, rotations=rotations, grid_matrix=a, q0=0, swappable=swappable, bz_grid_type=t) for t in (1, 2)]
            n = len(made[0].points)
            point = int(random.integers(n))
            made = [
                mq.fold(cell=cell, rotations=rotations, grid_matrix=a, q0=point, swappable=swappable, bz_grid_type=t) for t in (1, 2)
            ]
            self.whole_chain(made[0], rotations, swappable)
            self.one_with_the_other(*made)

    def whole_chain(self, made, rotations, swappable):
        n, d = len(made.points), made.snf.d
        whole = made.q_vectors @ made.grid_matrix.T
        self.assertTrue(np.allclose(whole, np.rint(whole)))
        index = np.array([1, d[0], d[0] * d[1]])
        moved = [np.array(m @ made.points.T).T % d @ index for m in made.rotations]
        keeping = np.array([m for m in moved if m[made.q0] == made.q0])
        lowest = keeping.min(axis=0)
        self.assertTrue((made.map_q == lowest).all())
        self.assertTrue((made.point_classes == np.min(moved, axis=0)).all())
        partner = (-made.points - made.points[made.q0]) % d @ index
        if swappable:
            lowest = np.minimum(lowest, lowest[partner])
        self.assertTrue((made.classes == lowest).all())
        self.assertEqual(made.weights.tolist(), [len(made.members_of(number)) for number in made.numbers])
        self.assertEqual(made.weights.sum(), n)
        self.assertTrue((made.images.grg[made.triplets] == np.stack([np.full(len(made.numbers), made.q0), made.numbers, partner[made.numbers]], 1)).all())
        sums = made.images.addresses[made.triplets].sum(axis=1)
        self.assertTrue((sums == d * made.cells).all())
        self.assertTrue(((made.left == 1) == (sums == 0).all(axis=1)).all())
        lengths = np.linalg.norm(made.lattice @ made.snf.q @ made.cells.T, axis=0) ** 2
        self.assertTrue(np.allclose(lengths, made.left_length))
        self.images(made)

    def images(self, made):
        """Each point's images are its shortest addresses."""
        box = np.array(list(itertools.product(range(-3, 4), repeat=3)))
        steps = (np.linalg.norm(made.lattice, axis=0) / made.snf.d) ** 2
        for point in range(0, len(made.points), 5):
            q = made.q_vectors[point] - np.rint(made.q_vectors[point])
            lengths = ((q + box) @ made.lattice.T) ** 2 @ [1, 1, 1]
            mine = made.q_of(made.images.addresses[made.images.images_of(point)])
            found = (mine @ made.lattice.T) ** 2 @ [1, 1, 1]
            self.assertLessEqual(found.max(), lengths.min() + 0.0201 * steps.max() + 1e-9)
            self.assertGreaterEqual(len(mine), (lengths < lengths.min() + 1e-9).sum())

    def one_with_the_other(self, sparse, dense):
        self.assertTrue((sparse.classes == dense.classes).all())
        for made, other in ((sparse, dense), (dense, sparse)):
            for mine, its in zip(mq.convert_bz_grid(made.images), other.images):
                self.assertTrue((mine == its).all())
        addresses = [made.images.addresses[made.triplets] for made in (sparse, dense)]
        self.assertTrue((addresses[0] == addresses[1]).all())
        d, table = dense.snf.d, dense.images
        indices = np.arange(len(table.grg))
        rotation = dense.rotations[-1]
        burst = mq.rotate_bz_grid_indices(indices, rotation, table, d, NO_SHIFT, 2)
        self.assertFalse(burst.fallbacks.any())
        self.assertTrue((table.addresses[burst.images] == table.addresses @ rotation.T).all())
        self.assertEqual(mq.rotate_bz_grid_index(0, rotation, table, d, NO_SHIFT, 2), (burst.images[0], False))
        near = mq.neighboring_grid_points(indices, [NO_SHIFT, [1, 0, 0]], table, d, 2)
        self.assertTrue((near[:, 0] == indices).all())
        for point in range(len(dense.points)):
            moved = mq.rotate_grid_index(point, rotation, d, NO_SHIFT)
            there = rotation @ dense.points[point]
            self.assertEqual(moved, mq.grid_index_from_address(there, d))
            self.assertTrue((dense.points[moved.point] + d * moved.cell == there).all())
        weights = mq.class_weights(dense.rotations, d, NO_SHIFT, dense.q0)
        numbers, counts = np.unique(dense.point_classes, return_counts=True)
        self.assertTrue((weights.weights == counts).all())
        self.assertEqual(counts[numbers == dense.point_classes[dense.q0]] * len(weights.keepers), len(dense.rotations))

    def test_fold_lists_what_the_job_does(self):
        make = job_maker()
        for file in sorted(JOBS.glob("*.txt")):
            job = make.job_of(file.read_text())
            _, count, at_a, at_rotations, at_lattice, flags, kind, q0 = struct.unpack_from("<8I", job)
            made = mq.fold(
                lattice=np.frombuffer(job, "<f8", 9, at_lattice).reshape(3, 3),
                rotations=np.frombuffer(job, "<i4", 9 * count, at_rotations).reshape(-1, 3, 3),
                grid_matrix=np.frombuffer(job, "<i4", 9, at_a).reshape(3, 3),
                q0=q0, time_reversal=bool(flags & 1), swappable=bool(flags & 2), bz_grid_type=kind,
            )
            lines = [("grid", made.snf.d), ("map", made.classes), ("ir", [len(made.numbers)])]
            lines += [("triplet", triplet) for triplet in made.triplets]
            text = "".join(" ".join([word, *map(str, numbers)]) + "\n" for word, numbers in lines)
            self.assertEqual(mq.list_job(job), text, file.name)
            sheet = mq.class_sheet(made.classes, made.triplets)
            rows = [list(map(int, line.split())) for line in sheet.splitlines() if len(line.split()) == 5]
            self.assertEqual(rows, np.column_stack([made.numbers, made.weights, made.triplets]).tolist())

    def test_q0_by_its_coordinates(self):
        made = mq.fold(cell=np.eye(3), rotations=cubic(), grid_matrix=(4, 4, 4))
        for point, q in enumerate(made.q_vectors):
            self.assertEqual(made.point_of(q + [1, -2, 0]), point)
        self.assertEqual(mq.fold(cell=np.eye(3), rotations=cubic(), grid_matrix=(4, 4, 4), q0=[0.25, 0, 0]).q0, made.point_of([0.25, 0, 0]))

    def test_reciprocal_lists(self):
        third = np.array([[0, -1, 0], [1, -1, 0], [0, 0, 1]])
        rotations = np.array([ONE, third, third @ third])
        both = mq.reciprocal_group(rotations, True)
        self.assertTrue((both == np.concatenate([rotations.transpose(0, 2, 1), -rotations.transpose(0, 2, 1)])).all())
        self.assertTrue((mq.reciprocal_rotations(np.concatenate([rotations, rotations]), True) == both).all())
        self.assertTrue((mq.reciprocal_point_group(rotations, False, False) == rotations).all())
        self.assertEqual(mq.reciprocal_rotations([], False).shape, (0, 3, 3))

    def test_lent_outputs(self):
        d, q = [1, 1, 3], ONE
        addresses, grid_map, grg = np.empty((3, 3), int), np.empty(4, int), np.empty(3, int)
        table = mq.bz_grid_addresses(d, q, NO_SHIFT, ONE, 2, out=(addresses, grid_map, grg))
        self.assertIs(table.addresses, addresses)
        made = mq.bz_grid_fill(d, q, NO_SHIFT, ONE, 2, mq.bz_grid_sizes(d, q, NO_SHIFT, ONE, 2))
        self.assertTrue(all((mine == its).all() for mine, its in zip(table, made)))
        out = np.empty(3, int)
        self.assertIs(mq.ir_grid_map([ONE], d, NO_SHIFT, out=out).map, out)
        with self.assertRaises(mq.Refused):
            mq.ir_grid_map([ONE * 200_000], d, NO_SHIFT, out=out)
        self.assertEqual(out.tolist(), [-1, -1, -1])

    def test_inputs_of_any_layout_and_whole_kind(self):
        a = np.array([[2, 1, 0], [0, 3, 0], [0, 0, 4]])
        whole = mq.snf3x3(a)
        for other in (a.astype(np.int8), a.astype(">i4"), a.tolist(), np.asfortranarray(a), np.repeat(a, 2, axis=1)[:, ::2]):
            self.assertTrue(all(np.array_equal(mine, its) for mine, its in zip(mq.snf3x3(other), whole)))

    def test_a_refusal_can_be_pickled(self):
        refused = mq.Refused("snf3x3", mq.Refusal.SINGULAR, "so")
        self.assertEqual(str(pickle.loads(pickle.dumps(refused))), str(refused))


if __name__ == "__main__":
    unittest.main()
