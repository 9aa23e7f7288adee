"""The crystals that oracle/peers compares on: their primitive cells, reduced, as spglib takes them."""
import numpy as np
import spglib

# The name, spglib's Hall number, the lengths (of a, b, c in Å) and angles (in degrees) of the conventional cell, and one
# atom of each orbit: its atomic number and its position. The kyanite is without its oxygen, which makes no symmetry less.
CRYSTALS = [
    ("aluminium, fcc", 523, (4.05, 4.05, 4.05, 90, 90, 90), [(13, (0, 0, 0))]),
    ("tungsten, bcc", 529, (3.165, 3.165, 3.165, 90, 90, 90), [(74, (0, 0, 0))]),
    ("silicon, diamond", 526, (5.431, 5.431, 5.431, 90, 90, 90), [(14, (1 / 8, 1 / 8, 1 / 8))]),
    ("sphalerite, zinc blende", 512, (5.409, 5.409, 5.409, 90, 90, 90), [(30, (0, 0, 0)), (16, (1 / 4, 1 / 4, 1 / 4))]),
    ("magnesium, hcp", 488, (3.209, 3.209, 5.211, 90, 90, 120), [(12, (1 / 3, 2 / 3, 1 / 4))]),
    ("zinc oxide, wurtzite", 480, (3.25, 3.25, 5.207, 90, 90, 120), [(30, (1 / 3, 2 / 3, 0)), (8, (1 / 3, 2 / 3, 0.382))]),
    ("titanium dioxide, rutile", 419, (4.594, 4.594, 2.959, 90, 90, 90), [(22, (0, 0, 0)), (8, (0.305, 0.305, 0))]),
    ("quartz", 443, (4.913, 4.913, 5.405, 90, 90, 120), [(14, (0.47, 0, 2 / 3)), (8, (0.413, 0.267, 0.786))]),
    ("strontium titanate, perovskite", 517, (3.905, 3.905, 3.905, 90, 90, 90),
     [(38, (1 / 2, 1 / 2, 1 / 2)), (22, (0, 0, 0)), (8, (1 / 2, 0, 0))]),
    ("indium, body-centred tetragonal", 424, (3.253, 3.253, 4.947, 90, 90, 90), [(49, (0, 0, 0))]),
    ("bismuth, rhombohedral", 458, (4.546, 4.546, 11.862, 90, 90, 120), [(83, (0, 0, 0.234))]),
    ("baddeleyite, monoclinic", 81, (5.15, 5.21, 5.32, 90, 99.2, 90),
     [(40, (0.275, 0.040, 0.208)), (8, (0.070, 0.332, 0.345)), (8, (0.450, 0.757, 0.479))]),
    ("kyanite, triclinic", 2, (7.126, 7.852, 5.572, 89.99, 101.11, 106.03),
     [(13, (0.325, 0.704, 0.458)), (13, (0.297, 0.699, 0.951)), (14, (0.296, 0.065, 0.707)), (14, (0.291, 0.332, 0.189))]),
]


def basis(a, b, c, alpha, beta, gamma):
    """Basis vectors in rows, the first along x and the second in the plane of x and y."""
    cosines = np.cos(np.radians([alpha, beta, gamma]))
    cos_a, cos_b, cos_c = np.where(np.abs(cosines) < 1e-12, 0, cosines)
    sin_c = np.sqrt(1 - cos_c**2)
    across = (cos_a - cos_b * cos_c) / sin_c
    return np.array([[a, 0, 0], [b * cos_c, b * sin_c, 0], [c * cos_b, c * across, c * np.sqrt(1 - cos_b**2 - across**2)]])


def orbit(operations, position):
    """The positions, from 0 to 1, that the operations carry one to; each once."""
    found = []
    for rotation, shift in zip(operations["rotations"], operations["translations"]):
        x = rotation @ position + shift
        if not any(np.abs(x - y - np.rint(x - y)).max() < 1e-4 for y in found):
            found.append(x - np.floor(x + 1e-6))
    return found


def cell_of(hall_number, lengths_and_angles, atoms):
    """The reduced primitive cell: basis vectors in rows, positions, atomic numbers."""
    operations = spglib.get_symmetry_from_database(hall_number)
    placed = [(x, number) for number, position in atoms for x in orbit(operations, np.array(position, dtype=float))]
    positions, numbers = zip(*placed)
    lattice, positions, numbers = spglib.find_primitive((basis(*lengths_and_angles), positions, numbers))
    reduced = spglib.niggli_reduce(lattice)
    return reduced, (positions @ lattice @ np.linalg.inv(reduced)) % 1.0, numbers


def cells():
    """The names and the cells of all."""
    return [(name, cell_of(*crystal)) for name, *crystal in CRYSTALS]
