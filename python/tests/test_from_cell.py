"""jobs/from-cell: texts of crystals, which jobs/make takes, and what is wrong with others."""
import pathlib
import subprocess
import tempfile
import unittest

import mossquilt as mq

JOBS = pathlib.Path(__file__).parent.parent.parent / "jobs"
SALT = """salt
5.69
1 0 0
0 1 0
0 0 1
Na Cl
4 4
Direct
0 0 0
0 .5 .5
.5 0 .5
.5 .5 0
.5 .5 .5
.5 0 0
0 .5 0
0 0 .5
"""
HEXAGONAL = """magnesium
1.0
3.21 0 0
-1.605 2.7799415461480477 0
0 0 5.21
2
Selective dynamics
Cartesian
0 1.8532943640986985 1.3025 T T T
1.605 0.926647182049349 3.9075 T T T
"""
ALUMINIUM = """aluminium
-16.607531250000005
0 .5 .5
.5 0 .5
.5 .5 0
Al
1
Direct
0 0 0
"""
DOUBLED = """polonium
3 3 6
1 0 0
0 1 0
0 0 1
Po
2
Direct
0 0 0
0 0 .5
"""
SKEWED = """skewed
3
1 0 0
7 1 0
0 0 1
Po
1
Direct
0 0 0
"""


def run(program, *arguments, given=None):
    done = subprocess.run([JOBS / program, *map(str, arguments)], input=given, capture_output=True)
    return done.returncode, done.stdout, done.stderr.decode()


class FromCell(unittest.TestCase):
    def setUp(self):
        folder = tempfile.TemporaryDirectory()
        self.addCleanup(folder.cleanup)
        self.poscar = pathlib.Path(folder.name, "POSCAR")

    def from_cell(self, poscar, arguments):
        self.poscar.write_text(poscar)
        return run("from-cell", self.poscar, *arguments.split())

    def test_texts(self):
        for poscar, arguments, group, points in [
            (SALT, "--mesh 2 2 2", "Fm-3m (225), 48 rotations. Basis: the reduced primitive cell", 32),
            (SALT, "--mesh 4 4 4 --q 1/4 1/4 0 --type 1", "Fm-3m (225)", 256),
            (HEXAGONAL, "--mesh 6 6 3 --q 1/3 1/3 0", "P6_3/mmc (194), 24 rotations. Basis: the cell of the file", 108),
            (HEXAGONAL, "--mesh 2 2 2 --no-swapping --no-time-reversal --q0 3", "P6_3/mmc (194)", 8),
            (ALUMINIUM, "--matrix -2 2 2 2 -2 2 2 2 -2", "Fm-3m (225), 48 rotations. Basis: the cell of the file", 32),
            (DOUBLED, "--mesh 4 4 2", "Pm-3m (221), 48 rotations. Basis: the reduced primitive cell", 64),
            (SKEWED, "--mesh 3 3 3", "Pm-3m (221), 48 rotations. Basis: the reduced primitive cell", 27),
        ]:
            status, text, said = self.from_cell(poscar, arguments)
            self.assertEqual((status, said), (0, ""), arguments)
            self.assertIn(group, text.decode())
            status, job, said = run("make", "-", given=text)
            self.assertEqual((status, said), (0, ""))
            listing = mq.list_job(job).splitlines()
            self.assertEqual(len(listing[1].split()) - 1, points)
            self.assertEqual(f"classes: {listing[2].split()[1]}", text.decode().splitlines()[4].split(", ")[-1])

    def test_the_point_that_q_means(self):
        _, text, _ = self.from_cell(SALT, "--mesh 4 4 4 --q 1/4 1/4 0")
        words = text.decode().split()
        at = words.index("lattice")
        q0 = int(words[-1])
        made = mq.fold(
            lattice=[[float(word) for word in words[at + 1 + 3 * i : at + 4 + 3 * i]] for i in range(3)],
            rotations=[[[1, 0, 0], [0, 1, 0], [0, 0, 1]]], grid_matrix=[[-4, 4, 4], [4, -4, 4], [4, 4, -4]],
        )
        off = 5.69 * made.lattice @ made.q_vectors[q0] - [0.25, 0.25, 0]  # a reciprocal vector of the primitive cell
        self.assertLess(abs(off - off.round()).max(), 1e-9)
        self.assertEqual(len(set(off.round() % 2)), 1)

    def test_the_nearest_grid(self):
        for poscar, arguments, words in [
            (HEXAGONAL, "--mesh 12 10 12", "is --mesh 12 12 12, with 1,728 points"),
            (ALUMINIUM, "--mesh 5 6 6", "is --mesh 6 6 6, with 216 points"),
            (ALUMINIUM, "--mesh 1 1 200", "is --mesh 6 6 6, with 216 points"),
            (ALUMINIUM, "--matrix -2 2 2 2 -2 2 2 1 -2", "is --matrix -2 2 2 2 -2 2 2 2 -2, with 32 points"),
            (DOUBLED, "--mesh 4 4 4", "is --mesh 4 4 2, with 64 points"),
            (DOUBLED, "--mesh 1 1 99", "is --mesh 6 6 3, with 216 points"),
        ]:
            status, text, said = self.from_cell(poscar, arguments)
            self.assertEqual((status, text), (1, b""), arguments)
            self.assertIn("(refusal 6: ", said)
            self.assertIn(words, said)
            self.assertEqual(said.count("\n"), 1)
            named = said.split(" does not is ")[1].split(", with")[0]
            self.assertEqual(self.from_cell(poscar, named)[0], 0, named)

    def test_mistakes(self):
        for poscar, arguments, status, words in [
            ("", "--mesh 1 1 1", 1, "the file ends before the title"),
            (SALT[:20], "--mesh 1 1 1", 1, "is not a basis vector"),
            (SALT.replace("5.69", "0"), "--mesh 1 1 1", 1, "a scale of 0"),
            (SALT.replace("0 0 1", "1 1 0"), "--mesh 1 1 1", 1, "in one plane"),
            (SALT.replace("4 4", "4 x"), "--mesh 1 1 1", 1, ":7: 4 x is not a count"),
            (SALT.replace("4 4", "4 5"), "--mesh 1 1 1", 1, "the file ends before a position"),
            (SALT.replace("Direct", "Fractional"), "--mesh 1 1 1", 1, ":8: Fractional is neither"),
            (SALT.replace("0 .5 .5", "0 nan .5"), "--mesh 1 1 1", 1, ":10: 0 nan .5 is not a position"),
            (SALT.replace("0 .5 .5", "0 0 0"), "--mesh 1 1 1", 1, "spglib"),
            (SALT, "--mesh 0 1 1", 1, "(1, SINGULAR)"),
            (SALT, "--mesh 100 100 100", 1, "a grid has at most 65,536"),
            (SALT, "--mesh 4 4 4 --q 1/3 0 0", 1, "is no point of the grid"),
            (SALT, "--mesh 4 4 4 --q0 256", 1, "the points are 0 to 255"),
            (SALT, "", 2, "one of the arguments --mesh --matrix is required"),
            (SALT, "--mesh 1 1", 2, "expected 3 arguments"),
        ]:
            answer, text, said = self.from_cell(poscar, arguments)
            self.assertEqual((answer, text), (status, b""), words)
            self.assertIn(words, said)
        self.assertEqual(run("from-cell", self.poscar.with_name("none"), "--mesh", 1, 1, 1)[0], 2)


if __name__ == "__main__":
    unittest.main()
