"""The pictures of jobs/show: planes of the Brillouin zone, and the weights of the classes."""
import itertools
import math
from fractions import Fraction

import numpy as np
from matplotlib.figure import Figure
from matplotlib.patheffects import withStroke

# The colours of Okabe and Ito, which the colour-blind can tell, and as a second sign a shape: 7 and 8 have no common
# divisor, so that 56 classes differ in one of the two, and neighbours in both. Every class has its number besides.
COLOURS = ["#E69F00", "#56B4E9", "#009E73", "#F0E442", "#0072B2", "#D55E00", "#CC79A7"]
SHAPES = ["o", "s", "^", "D", "v", "P", "*", "X"]
HALO = [withStroke(linewidth=1.2, foreground="white")]
SMALLEST, LARGEST = 5.2, 16.0  # inches of a plane; it is as large as its numbers need
LEAST_PRINT, MOST_PRINT = 5.0, 9.0  # points
DIGIT = 0.64  # the width of a digit, in the size of the print
LARGEST_SIGN = 24.0  # points
SUBSCRIPTS = str.maketrans("123", "₁₂₃")


class Empty(Exception):
    """A plane without points."""


def terms(letter, numbers):
    """As q₁ − 2·q₂."""
    words = ""
    for i, n in enumerate(numbers, start=1):
        if n:
            sign = (" + " if n > 0 else " − ") if words else ("" if n > 0 else "−")
            words += sign + (f"{abs(n)}·" if abs(n) > 1 else "") + f"{letter}{i}".translate(SUBSCRIPTS)
    return words


def nearest(places):
    """The least distance of two places, 1 of fewer."""
    least = np.inf if len(places) > 1 else 1.0
    for place in places:
        apart = ((places - place) ** 2).sum(axis=1)
        least = min(least, np.sqrt(apart[apart > 0].min(initial=np.inf)))
    return least


class Plane:
    """The plane of the q with normal·q = level, with two Cartesian axes of its own, and its images."""

    def __init__(self, job, normal, level):
        lattice, normal, level = job.lattice, np.array(normal), Fraction(level)
        self.words = f"{terms('q', normal)} = {level}"
        self.images = np.flatnonzero(job.numerators @ normal * level.denominator == level.numerator * job.points)
        if not len(self.images):
            raise Empty(f"the plane {self.words} has no point of the grid")
        across = np.linalg.inv(lattice).T @ normal
        unit = across / np.linalg.norm(across)
        self.centre = unit * float(level) / np.linalg.norm(across)
        # The first axis goes along a reciprocal vector in the plane: there is one within the size of the normal.
        reach = range(-abs(normal).max(), abs(normal).max() + 1)
        inside = [m for m in itertools.product(reach, repeat=3) if any(m) and np.dot(m, normal) == 0]
        shortest = min(np.linalg.norm(lattice @ m) for m in inside)
        self.along = max(m for m in inside if np.linalg.norm(lattice @ m) < shortest * (1 + 1e-9))
        first = lattice @ self.along / np.linalg.norm(lattice @ self.along)
        self.axes = np.array([first, np.cross(unit, first)])

        self.border = self.section(lattice)
        self.places = (job.cartesian()[self.images] - self.centre) @ self.axes.T
        self.classes = job.place[job.grg[self.images]]
        self.at_q0 = self.places[job.grg[self.images] == job.q0]
        outline = np.concatenate([self.border, self.places])
        room = 0.07 * np.ptp(outline, axis=0).max()
        self.low, self.high = outline.min(axis=0) - room, outline.max(axis=0) + room
        self.apart = 0.86 * nearest(self.places)
        self.digits = max(2, len(str(job.classes[self.classes].max())))

    def section(self, lattice):
        """The corners of the zone's border, in turn: what is not nearer to a reciprocal vector than to 0."""
        steps = np.array([m for m in itertools.product(range(-3, 4), repeat=3) if any(m)]) @ lattice.T
        corners = 2 * np.linalg.norm(lattice, axis=0).sum() * np.array([[-1, -1], [1, -1], [1, 1], [-1, 1]])
        for step in steps:
            room = step @ step / 2 - step @ self.centre - corners @ (self.axes @ step)
            kept = []
            for i, corner in enumerate(corners):
                if (room[i - 1] < 0) != (room[i] < 0):
                    kept.append(corners[i - 1] + (corner - corners[i - 1]) * room[i - 1] / (room[i - 1] - room[i]))
                if room[i] >= 0:
                    kept.append(corner)
            corners = np.array(kept).reshape(-1, 2)
        return corners

    def inches(self):
        """The side at which the numbers can be read."""
        sign = LEAST_PRINT * DIGIT * self.digits
        return min(LARGEST, max(SMALLEST, 1.05 * sign / 72 * (self.high - self.low).max() / self.apart))

    def draw(self, axes, job, looks, inches):
        axes.set(xlim=(self.low[0], self.high[0]), ylim=(self.low[1], self.high[1]), aspect="equal")
        axes.fill(*self.border.T, facecolor="#f4f4f4", edgecolor="black", linewidth=1.2, zorder=1)
        size = min(LARGEST_SIGN, 72 * inches / 1.05 * self.apart / (self.high - self.low).max())
        for colour, shape in sorted(set(looks[self.classes])):
            here = [looks[i] == (colour, shape) for i in self.classes]
            axes.scatter(*self.places[here].T, s=0.8 * size**2, c=colour, marker=shape, edgecolors="black",
                         linewidths=min(0.6, size / 24), zorder=3)
        print_size = min(MOST_PRINT, size / (DIGIT * self.digits))
        readable = print_size >= 0.99 * LEAST_PRINT
        if readable:
            for i, (x, y) in zip(self.classes, self.places):
                number = axes.text(x, y, job.classes[i], fontsize=print_size, ha="center", va="center_baseline",
                                   path_effects=HALO, zorder=4)
                number.set_in_layout(False)
        axes.scatter(*self.at_q0.T, s=(1.5 * size) ** 2, facecolors="none", edgecolors="black", linewidths=1.3, zorder=5)
        axes.set_title(self.words + ("" if readable else "; the numbers find no room"), fontsize=10)
        axes.set_xlabel(f"along {terms('b', self.along)}", fontsize=8)
        axes.tick_params(labelsize=7)


def draw_weights(axes, job, looks, inches):
    """A bar for each class, with its sign above."""
    count, top = len(job.classes), job.weights.max()
    each = 72 * inches / count
    if each > 4:
        axes.bar(range(count), job.weights, width=0.75, color=[colour for colour, _ in looks], edgecolor="black", linewidth=0.5)
        for i, weight in enumerate(job.weights):
            colour, shape = looks[i]
            axes.scatter(i, weight + 0.05 * top, s=min(80, each**2 / 2), c=colour, marker=shape, edgecolors="black", linewidths=0.5)
    else:
        axes.stairs(job.weights, np.arange(count + 1) - 0.5, fill=True, color="#777777")
    every = math.ceil(10 / each)
    shown = range(0, count, every)
    turned = len(str(job.classes[-1])) * 5 > each * every
    axes.set_xticks(shown, job.classes[::every], fontsize=7, rotation=90 if turned else 0)
    axes.set(xlim=(-0.8, count - 0.2), ylim=(0, 1.14 * top))
    axes.yaxis.get_major_locator().set_params(integer=True)
    axes.tick_params(axis="y", labelsize=7)
    axes.set_title(f"weights of the {count} classes", fontsize=10)
    axes.set_xlabel("class, by its lowest point", fontsize=8)


def looks_of(job, planes):
    """A colour and a shape of each class, dealt first to those that are seen."""
    seen = np.concatenate([plane.classes for plane in planes] + [np.arange(len(job.classes))])
    order = seen[np.sort(np.unique(seen, return_index=True)[1])]
    looks = np.empty(len(order), dtype=object)
    for turn, i in enumerate(order):
        looks[i] = (COLOURS[turn % len(COLOURS)], SHAPES[turn % len(SHAPES)])
    return looks


def draw(job, normals, level, name, progress):
    progress("looking for the planes ..")
    planes = [Plane(job, normal, level) for normal in normals]
    looks = looks_of(job, planes)
    inches = max(plane.inches() for plane in planes)
    rows, columns = (1, 2) if len(planes) == 1 else (2, 2)
    figure = Figure(figsize=(columns * (inches + 0.6), rows * (inches + 0.6) + 0.4), layout="constrained")
    *spots, bars = figure.subplots(rows, columns).flat
    for axes, plane in zip(spots, planes):
        progress(f"drawing {plane.words} ..")
        plane.draw(axes, job, looks, inches)
    draw_weights(bars, job, looks, inches)
    d = " × ".join(map(str, job.d))
    ringed = " (ringed)" if any(len(plane.at_q0) for plane in planes) else ""
    figure.suptitle(f"grid {d}, triplet classes at q0 = point {job.q0}{ringed}; colour, shape and number tell the class", fontsize=11)
    progress(f"writing {name} ..")
    figure.savefig(name, dpi=110)
