/* zone.h: the zone folding of a diffuse-scattering camera. Archive libzone_c.a (`tools/archive zone_c`), for C99,
 * C++ and Rust on x86-64 Linux; it needs memcpy and memset and nothing else. examples/ folds a crystal in C and in
 * Rust.
 *
 * Given a crystal and a grid of points q in its reciprocal space, the calls tell which points are equivalent, where
 * each lies in the first Brillouin zone (its images), and for a point q0 the classes of triplets q0 + q1 + q2 = G,
 * a vector of the reciprocal lattice, with one triplet of images for each class.
 *
 * CALLS
 *
 * A slice is a pointer and its length in places (numbers, not bytes); name[n] below says which length it must have.
 * Matrices are by rows, nine places each. Inputs stand before outputs. Each function answers 0, or the number of its
 * refusal, for any numbers in any slices. `told` holds what it answers besides. After a refusal every place of every
 * output holds -1 (left_length -1.0, text 0).
 *
 * THE CRYSTAL
 *
 * All of these are said in one basis a1, a2, a3 of the crystal's lattice, best a reduced one (Niggli):
 *
 *   rotations  Direct-space, as spglib gives them: R carries the fractional coordinates x of a position to R·x.
 *   lattice    Reciprocal: the basis vectors b1, b2, b3 are the COLUMNS, so lattice[3 * i + j] is the Cartesian
 *              component i of vector j; ai·bj is 1 (or 2 pi) for i = j, else 0. It is the inverse (or 2 pi times it)
 *              of the matrix whose rows are a1, a2, a3.
 *   A          The grid: the points are the q, in units of b1, b2, b3, for which A·q is whole. diag(n0, n1, n2)
 *              makes a mesh of n0 by n1 by n2; rows that are n0, n1, n2 times the vectors of a conventional cell,
 *              in units of a1, a2, a3, make such a mesh of that cell.
 *
 * THE GRID
 *
 * zone_snf3x3 makes A diagonal, P·A·Q = D = diag(d). The grid has N = d0·d1·d2 = |det A| points, 0 to
 * N - 1. Point p has the address (p % d0, p / d0 % d1, p / (d0·d1)); any address a belongs to the point
 * r2·d0·d1 + r1·d0 + r0, where rk is the remainder of ak by dk that is not negative. Address a stands for
 *
 *   q = Q·D⁻¹·(a + ps/2),   q_i = sum over k of Q[3 * i + k] * (a[k] + ps[k] / 2.0) / d[k]
 *
 * in units of b1, b2, b3; lattice·q is the Cartesian vector. The q of two addresses of one point differ by a vector of
 * the reciprocal lattice. The shift ps moves the grid by half a step along its own axes, the columns of Q·D⁻¹. With a
 * shift other than 0 a class map is one of equivalent q only if M·ps - ps is even in each number for every matrix M of
 * the transformed list, which no call tests; and triplets, which add addresses alone, no longer sum to a G.
 *
 * THE ROTATIONS
 *
 *   as given       zone_reciprocal_group, zone_reciprocal_rotations and zone_reciprocal_point_group take the
 *                  direct-space list
 *   reciprocal     R transposed acts on q; zone_transform_rotations takes this list, the told part of those calls'
 *                  output (9 * told[0] places)
 *   transformed    M = D·Q⁻¹·R·Q·D⁻¹, for each R of the reciprocal list, acts on addresses; zone_ir_grid_map,
 *                  zone_class_weights and zone_ir_triplets_at_q take this list, zone_rotate_grid_index,
 *                  zone_rotate_bz_grid_index and zone_rotate_bz_grid_indices a matrix of it
 *
 * No call can tell one of these lists from another. A list is a group if it holds the identity, no matrix twice, only
 * determinants of 1 and -1, and every product of two. For other lists a class map need not be one of classes:
 * zone_reciprocal_group and zone_list refuse them, every other call takes them.
 *
 * IMAGES
 *
 * The images of a point are its addresses whose q is shortest, up to a tolerance: one inside the zone, several on its
 * border. Image i of a table has the address addresses[3 * i], .. [3 * i + 2] and belongs to point grg[i]. The images
 * of point p are
 *
 *   type 2 (dense)    the places map[p] to map[p + 1] - 1; map has N + 1 places
 *   type 1 (sparse)   the place p, and the places N + map[8 * N + p] to N + map[8 * N + p + 1] - 1; map has 9 * N + 1
 *                     places, of which the first 8 * N are a doubled mesh: place i stands at the index of its address
 *                     with 2·d for d (of several that fall together the last), and 8 * N where no image falls
 *
 * The record of a table tells the grid that it is for: d0 d1 d2 ps0 ps1 ps2 type. Keep it with the table, in files too;
 * each call that reads the table takes it as `table`, and gives 17 where it has not the d, ps and type of the call.
 *
 * Both types have the same images, and zone_convert_bz_grid makes either of the other. Squared lengths are compared up
 * to the tolerance, 0.01 times the largest of |bj|² / dj²; a basis that is far from reduced makes it so large that
 * images are not the shortest.
 *
 * THE ORDER OF THE CALLS
 *
 *   1  zone_snf3x3                 A                                    d, q
 *   2  zone_reciprocal_group       the rotations, time_reversal         the reciprocal list
 *   3  zone_transform_rotations    the reciprocal list, d, q            the transformed list
 *      zone_ir_grid_map            the transformed list, d, ps          the classes of the points, if wanted
 *      zone_class_weights          the same, a point                    their weights and members, likewise
 *   4  zone_bz_grid_addresses      d, q, ps, lattice, type              addresses, map, grg, the record
 *  or  zone_bz_grid_sizes          the same                             the lengths of addresses, map, grg
 * and  zone_bz_grid_fill           the same, the lengths                addresses, map, grg, the record
 *      zone_convert_bz_grid        the record, addresses, map, grg      the same of the other type, if wanted
 *      zone_mark_candidates        d, q, ps, ranges of the cell,        which addresses of a point are the shortest
 *                                  a point                              whatever the cell is, if wanted
 *   5  zone_ir_triplets_at_q       q0, d, the transformed list,         map_triplets, map_q
 *                                  time_reversal, swappable
 *   6  zone_bz_triplets_at_q       q0 or an image of it, addresses,     a triplet of images for each class
 *                                  map, the record, map_triplets, d,
 *                                  q, lattice, type
 *      zone_class_sheet            map_triplets, the triplets           a line of text for each class, if wanted
 *
 * time_reversal says that q and -q are equivalent, swappable that q1 and q2 may change places. d, q, ps, lattice,
 * type and time_reversal are the same in every call that takes them. It is proved of calls 1 to 6, each accepted: two
 * points q1 have one number in map_triplets exactly if a matrix of the transformed list that keeps q0 carries one to
 * the other or, if swappable, to the other's partner -q0-q1; the number is the lowest point of the class; the triplet
 * of a class sums to zero if any choice of images does, and else no choice has a squared length that is smaller by
 * more than the tolerance. With zone_reciprocal_rotations or zone_reciprocal_point_group as call 2 that holds of
 * rotations that are a group (with their negatives, where time reversal joins them).
 *
 * MEMORY
 *
 * No output may overlap another output or an input; inputs may overlap. A pointer is aligned as its type (8 bytes for
 * int64_t and double) and has as many places as its length says; with length 0 it may be NULL. Nothing is kept after
 * a call, and there are no globals, no allocation and no input or output: any thread may make any call at any time.
 * Stack, as built: under 104 KiB for zone_list, under 16 KiB for zone_mark_candidates, under 8 KiB for every other call.
 * The floating-point environment is that of a C program's start: rounding to nearest, no traps, subnormal numbers kept
 * (so no -ffast-math when linking).
 *
 * LIMITS (else 3)
 *
 *   A            entries of size at most 1,000,000
 *   Q            entries of size at most 1,000; call 1 may leave larger ones
 *   d            each 1 to 256, N at most 65,536; call 1 may leave larger ones
 *   ps           each 0 or 1
 *   rotations    at most 192, entries of size at most 100 in zone_transform_rotations, 100,000 elsewhere
 *   lattice      finite, of size at most 1,000,000
 *   lowest,      of size at most 1,000,000
 *     highest
 *   offsets      of size at most 1,000
 *   q0           0 to N - 1 (an image index in zone_bz_triplets_at_q of type 2: there 14)
 *   point        0 to N - 1
 *   limit        1 to 1,000,000
 *   sheet        a class number and a weight of at most 6 characters, an image index of at most 11
 *
 * A list of matrices has a multiple of 9 places, one of addresses a multiple of 3. Tables that are read may have any
 * length and hold anything; their record has seven places with any numbers, which are only compared, as are the three
 * lengths that zone_bz_grid_fill takes. zone_convert_bz_grid alone, which has no d, ps and type but the record's, asks
 * of these what is said above.
 *
 * REFUSALS stand with each call in the order of their tests; the first that applies is the answer. A length that hangs
 * on a number outside its limits is not tested: then 3 is given. */
#ifndef ZONE_H
#define ZONE_H

#include <stdbool.h>
#include <stddef.h>
#include <stdint.h>

#ifdef __cplusplus
extern "C" {
#endif

enum zone_refusal {
    ZONE_ACCEPTED = 0,
    ZONE_SINGULAR = 1,                     /* the determinant of A is 0 */
    ZONE_NOT_CONVERGED = 2,                /* 100 rounds end without a diagonal: never given, since 82 are enough */
    ZONE_OUTSIDE_LIMITS = 3,               /* a number is outside its limits, above */
    ZONE_OVERFLOW = 4,                     /* a number that zone_snf3x3, zone_smith3x3 or zone_hermite3x3 works out, in
                                              its order, leaves 64 bits */
    ZONE_SINGULAR_Q = 5,                   /* the determinant of Q is 0 */
    ZONE_SYMMETRY_BROKEN = 6,              /* a transformed entry is over 1e-5 from whole: R does not keep the grid */
    ZONE_TOO_MANY_ROTATIONS = 7,           /* a 49th distinct rotation */
    ZONE_TOO_MANY_FOR_INVERSION = 8,       /* over 24 distinct, and time reversal has their negatives to join */
    ZONE_BAD_GRID_TYPE = 9,                /* the type is neither 1 nor 2 */
    ZONE_NOT_UNIMODULAR_Q = 10,            /* the determinant of Q is neither 1 nor -1 */
    ZONE_SINGULAR_RECIPROCAL_LATTICE = 11, /* the determinant of the lattice, worked out in double, is 0 */
    ZONE_SEARCH_FAILED = 12,               /* at a point the search for images leaves -16..16 cells along a basis
                                              vector or finds none: the basis is skewed, or very unequal in length */
    ZONE_WRONG_LENGTH = 13,                /* a slice has another length than it must, or an image output is short */
    ZONE_OUTSIDE_TABLE = 14,               /* an index asked for or read is outside its slice, a number read from an
                                              image map outside 0..2^40, or an address read outside -10^13..10^13 */
    ZONE_BAD_HEADER = 15,                  /* the header of a job file is wrong */
    ZONE_OTHER_SIZES = 16,                 /* the lengths that zone_bz_grid_fill takes are not those of its tables */
    ZONE_OTHER_GRID = 17,                  /* a table's record has another diagonal, shift or type than the call */
    ZONE_NOT_GROUP = 18,                   /* the rotations, as given, are no group: the identity is missing, one stands
                                              twice, one has a determinant other than 1 or -1, or the product of two
                                              is not among them */
    ZONE_COULD_NOT_STAND = 19,             /* no lists of images make the table that zone_convert_bz_grid takes */
    ZONE_INVERTED_RANGE = 20               /* the lowest of an inner product is above its highest */
};

#define ZONE_MOST_ROTATIONS 192
#define ZONE_GROUP_LENGTH 432 /* of the reciprocal list: room for 48 matrices */
#define ZONE_MOST_POINTS 65536
#define ZONE_CANDIDATES 125 /* of a point, whose marks zone_mark_candidates gives */
#define ZONE_MAP_LENGTH(type, n) ((type) == 1 ? 9 * (n) + 1 : (n) + 1) /* of the image map of n points */
#define ZONE_RECORD_LENGTH 7 /* of an image table's record, which starts at told + 3 where the table is made */
#define ZONE_MOST_IMAGES INT64_C(2363359232) /* in a table, whatever the lattice */
#define ZONE_SHEET_LENGTH(k) (46 * ((k) + ((k) + 39) / 40)) /* of the sheet of k classes */
#define ZONE_JOB_LENGTH 8192                 /* of the longest job file, in bytes */
#define ZONE_TEXT_LENGTH 6940                /* no listing is longer, in bytes */

/* A made diagonal: P·A·Q = diag(d), det P = 1, det Q = 1 or -1. The diagonal is not always the Smith form
 * (zone_smith3x3): diag(2,2,3) gives 2 1 6. In: a[9]. Out: d[3], p[9], q[9], told[1]: the rounds, at most 82.
 * Refusals: 13, 3, 1, 4; of random matrices 4 meets 1 of 10,000 with entries up to 100, and 7 of 100 with entries up to
 * 1,000. */
int64_t zone_snf3x3(const int64_t *a, size_t a_len, int64_t *d, size_t d_len, int64_t *p, size_t p_len, int64_t *q,
                    size_t q_len, int64_t *told, size_t told_len);

/* The Smith form of A, for tables of invariant factors: P·A·Q = diag(d), d0 divides d1 and d1 divides d2, all three
 * positive; det P = 1, det Q = 1 or -1 as det A is positive or negative. No other such diagonal can be made of A.
 * diag(2,2,3) gives 1 2 6. P and Q are not the only ones: they are those of zone_snf3x3 on A and on the diagonal that
 * it gives, multiplied. In: a[9]. Out: d[3], p[9], q[9]. Refusals: 13, 3, 1, 4: that of either walk, or a number of
 * one of the two products that leaves 64 bits. */
int64_t zone_smith3x3(const int64_t *a, size_t a_len, int64_t *d, size_t d_len, int64_t *p, size_t p_len, int64_t *q,
                      size_t q_len);

/* The Hermite form of A: 0 below the diagonal, which is positive, and each entry above it from 0 to one less than the
 * diagonal number of its column. It is U·A for a whole matrix U with det U = 1 or -1, and no other Hermite form is; so
 * it makes the same points q whole as A does. In: a[9]. Out: h[9]. Refusals: 13, 3, 1, 4: a number of the row steps
 * leaves 64 bits, as for none of 100,000 random matrices with entries up to 1,000, 18 of 100 with entries up to 10,000,
 * and nearly all beyond. */
int64_t zone_hermite3x3(const int64_t *a, size_t a_len, int64_t *h, size_t h_len);

/* The order of two forms g[9] and h[9], or of any nine numbers: the first place that differs decides. Out: told[1]: 0
 * if g comes before h, 1 if they are equal, 2 if g comes after h. Refusals: 13. */
int64_t zone_order_forms(const int64_t *g, size_t g_len, const int64_t *h, size_t h_len, int64_t *told,
                         size_t told_len);

/* Whether a[9] and b[9] make the same grid, that is, have the same points: told[1] is 1 or 0. It is so exactly if their
 * Hermite forms are equal, and exactly if a whole matrix of determinant 1 or -1, on the left of a, makes b. Refusals: 13,
 * then those of zone_hermite3x3 for a, then for b. */
int64_t zone_same_grid(const int64_t *a, size_t a_len, const int64_t *b, size_t b_len, int64_t *told,
                       size_t told_len);

/* For burn-in: the pair of numbers from 1 to `limit` on which the extended gcd inside of zone_snf3x3 divides most often;
 * among such pairs the least sum, then the least first number. Out: told[3]: the first number, the second, how often
 * it divides. 1 gives 1 1 1, 2 gives 1 2 2, and 1,000,000 gives 514229 832040 29. Refusals: 13, 3. */
int64_t zone_worst_pair(int64_t limit, int64_t *told, size_t told_len);

/* The reciprocal list of a direct-space list: each rotation once, in the order of its first place, transposed; then,
 * under time reversal, their negatives in the same order, unless the inversion is among them. Out:
 * out[ZONE_GROUP_LENGTH], with -1 past the list; told[1]: the count. Refusals: 13, 3, 7, 8. */
int64_t zone_reciprocal_rotations(const int64_t *rotations, size_t rotations_len, bool time_reversal, int64_t *out,
                                  size_t out_len, int64_t *told, size_t told_len);

/* The same for rotations that are a group, before negatives are joined; any other list, also the empty one, gives 18.
 * Refusals: 13, 3, 18, 7, 8. (No group has so many members that it would meet 7 or 8.) */
int64_t zone_reciprocal_group(const int64_t *rotations, size_t rotations_len, bool time_reversal, int64_t *out,
                              size_t out_len, int64_t *told, size_t told_len);

/* As zone_reciprocal_rotations, transposed only if `transpose` says so. */
int64_t zone_reciprocal_point_group(const int64_t *rotations, size_t rotations_len, bool time_reversal,
                                    bool transpose, int64_t *out, size_t out_len, int64_t *told, size_t told_len);

/* Each R of the reciprocal list as M = D·Q⁻¹·R·Q·D⁻¹, which acts on addresses. For det Q = 1 or -1 the call is exact:
 * it accepts if all entries are whole, and writes those. In: d[3], q[9]. Out: out[rotations_len]. Refusals: 13, 3, 5,
 * 6. */
int64_t zone_transform_rotations(const int64_t *rotations, size_t rotations_len, const int64_t *d, size_t d_len,
                                 const int64_t *q, size_t q_len, int64_t *out, size_t out_len);

/* The class map of the points: from the lowest point up, the first rotation of the transformed list that carries a
 * point to a lower one gives it that one's number; else it keeps its own. For a group (and a shift as above) that is
 * the lowest point of its class; for other lists it need not be: d (1,1,7) with diag(1,1,2) alone gives
 * 0 1 2 3 1 3 3. M carries address a to (M·(2·a + ps) - ps) / 2, rounded toward 0. In: d[3], ps[3]. Out: map[N],
 * told[1]: how many points keep their own number. Refusals: 13, 3. */
int64_t zone_ir_grid_map(const int64_t *rotations, size_t rotations_len, const int64_t *d, size_t d_len,
                         const int64_t *ps, size_t ps_len, int64_t *map, size_t map_len, int64_t *told,
                         size_t told_len);

/* The weights and the members of those classes, and the rotations that keep a point. In: the transformed list, d[3],
 * ps[3], as for zone_ir_grid_map; a point. Out: weights[N]: by rising class number how many points bear it; members[N]:
 * by rising class number the points that bear it, each class rising, so that they fill all places and the first of a
 * class is its number; keepers[rotations_len / 9]: the places in the list, from 0 and rising, of the matrices that
 * carry the point to itself, by the rule of zone_ir_grid_map. What is left of weights and keepers holds -1. told[2]:
 * how many classes there are, and how many keepers. A matrix that stands twice counts twice; without any, each point
 * is a class and there are no keepers. It is proved that the weights add up to N, for any list, and that the weight of
 * the point's class times its keepers is the number of rotations, for a group that call 3 accepted with det Q = 1 or -1
 * and a shift as above. Else it need not be: with d (2,2,1), ps (1,0,0), the identity and the exchange of axes 0 and 1
 * the weights are 3 and 1, and both matrices keep point 0. Refusals: 13, 3. */
int64_t zone_class_weights(const int64_t *rotations, size_t rotations_len, const int64_t *d, size_t d_len,
                           const int64_t *ps, size_t ps_len, int64_t point, int64_t *weights, size_t weights_len,
                           int64_t *members, size_t members_len, int64_t *keepers, size_t keepers_len, int64_t *told,
                           size_t told_len);

/* The addresses of the points 0, 1, .. in turn. In: d[3]. Out: out[3 * N]. Refusals: 13, 3. */
int64_t zone_all_grid_addresses(const int64_t *d, size_t d_len, int64_t *out, size_t out_len);

/* The point of an address, and the cell that it lies in, for an address of any size and sign: a = d·c + r, axis by
 * axis, with the remainders r as under THE GRID and whole quotients c, rounded down also below 0 (proved). In:
 * address[3], d[3]. Out: told[4]: the point, c0, c1, c2. With d (2,3,5) the address (-3,7,-11) gives 27 -2 2 -3.
 * Refusals: 13, 3. */
int64_t zone_grid_index_from_address(const int64_t *address, size_t address_len, const int64_t *d, size_t d_len,
                                     int64_t *told, size_t told_len);

/* Where rotation[9], a matrix of the transformed list, carries a point by the rule of zone_ir_grid_map. In: d[3],
 * ps[3]. Out: told[4]: the point and the cell, as above, of the address that its own address is carried to. Refusals:
 * 13, 3. */
int64_t zone_rotate_grid_index(int64_t point, const int64_t *rotation, size_t rotation_len, const int64_t *d,
                               size_t d_len, const int64_t *ps, size_t ps_len, int64_t *told, size_t told_len);

/* The image table of the grid. In: d[3], q[9], ps[3], lattice[9], the type. Out: of M images addresses (3 * M
 * places), map (ZONE_MAP_LENGTH) and grg (M); told[10]: these three lengths, then the record, which is the call's own
 * d0 d1 d2 ps0 ps1 ps2 type. Outputs may be longer and hold -1 past them. M is not known beforehand: ask
 * zone_bz_grid_sizes, or lend room for 8 * N images, and for twice as many as long as the answer is 13. (A point has at
 * most 8 shortest addresses, and the tolerance seldom adds any.) Refusals: 13 for the inputs and told, 3, 9, 10, 11, 12,
 * 13 for an output that is too short. */
int64_t zone_bz_grid_addresses(const int64_t *d, size_t d_len, const int64_t *q, size_t q_len, const int64_t *ps,
                               size_t ps_len, const double *lattice, size_t lattice_len, int64_t bz_grid_type,
                               int64_t *addresses, size_t addresses_len, int64_t *map, size_t map_len, int64_t *grg,
                               size_t grg_len, int64_t *told, size_t told_len);

/* The lengths of that table, before there is room for it. In: as above. Out: told[3]: the places of addresses (3 * M),
 * map and grg (M). The images of every point are looked for, as above, and not written. Refusals: 13, 3, 9, 10, 11,
 * 12. */
int64_t zone_bz_grid_sizes(const int64_t *d, size_t d_len, const int64_t *q, size_t q_len, const int64_t *ps,
                           size_t ps_len, const double *lattice, size_t lattice_len, int64_t bz_grid_type,
                           int64_t *told, size_t told_len);

/* The same table, by its lengths. In: as above, and sizes[3], what zone_bz_grid_sizes told for the same d, q, ps,
 * lattice and type. Out: addresses, map, grg and told[10], as zone_bz_grid_addresses leaves them in outputs of the same
 * lengths (proved); as many places as sizes says are enough. Any other three numbers are refused by 16, larger ones too.
 * Refusals: 13 for the inputs and told, 3, 9, 10, 11, 12, 16, 13 for an output that is too short. */
int64_t zone_bz_grid_fill(const int64_t *d, size_t d_len, const int64_t *q, size_t q_len, const int64_t *ps,
                          size_t ps_len, const double *lattice, size_t lattice_len, int64_t bz_grid_type,
                          const int64_t *sizes, size_t sizes_len, int64_t *addresses, size_t addresses_len,
                          int64_t *map, size_t map_len, int64_t *grg, size_t grg_len, int64_t *told, size_t told_len);

/* For a cell that is known only roughly: which of 125 addresses of a point are the shortest, whatever the cell is. In:
 * d[3], q[9], ps[3], as for call 4; lowest[6] and highest[6], between which the inner products b1·b1, b1·b2, b1·b3,
 * b2·b2, b2·b3, b3·b3 lie, as whole numbers in any one unit; a point. Out: marks[ZONE_CANDIDATES], for m = (m0, m1, m2)
 * with m0 outermost, each along 0, 1, 2, -2, -1: the i-th, j-th and k-th of these numbers (from 0) stand at
 * 25 * i + 5 * j + k. Candidate m is q - n + m, where q are the point's coordinates, exactly, and n is each of them
 * rounded, halves away from zero. Its mark is
 *
 *   1   nearest for certain: no six numbers in the ranges make it longer than another of the 125
 *   2   beaten for certain: some one other is shorter for all six numbers in the ranges
 *   0   open
 *
 * Lengths are compared exactly, in whole numbers; of candidates that tie for certain each is 1. It is proved that
 * narrower ranges never change a 1 or a 2. The six numbers may be fractions and need not belong to any lattice; of a
 * basis that is far from reduced a shorter address may lie outside of the 125.
 *
 * The address of candidate m is a + d·(Q⁻¹·(m - n)), axis by axis, with a the point's own address and, in whole numbers,
 * X_i = sum over k of Q[3 * i + k] * (2 * a[k] + ps[k]) * (N / d[k]), n_i = (|X_i| + N) / (2 * N) rounded down, with
 * the sign of X_i. Call 4 rounds the same coordinates in double, where an exact half may come out a little below: at
 * about one point in a thousand its n is another. So compare marks and images by addresses, and work out n as here, not
 * in double: else the address is a whole step off at these points. Refusals: 13, 3, 20, 10. */
int64_t zone_mark_candidates(const int64_t *d, size_t d_len, const int64_t *q, size_t q_len, const int64_t *ps,
                             size_t ps_len, const int64_t *lowest, size_t lowest_len, const int64_t *highest,
                             size_t highest_len, int64_t point, int64_t *marks, size_t marks_len);

/* Where rotation[9], a matrix of the transformed list, carries image `index` of a table. In: addresses and map as
 * call 4 left them (here and below: at least their told parts), their record table[7], d[3], ps[3], the type. Out:
 * told[2]. told[0] is the image at the rotated address, told[1] is 0. Where the rotated point has no image there,
 * told[1] is 1, and told[0] is the first image of that point (type 2) or map[that point], which means nothing (type 1;
 * it may be 8 * N). Refusals: 13, 3, 9, 17 where the record has not the d, ps and type of the call, 14. */
int64_t zone_rotate_bz_grid_index(int64_t index, const int64_t *rotation, size_t rotation_len,
                                  const int64_t *addresses, size_t addresses_len, const int64_t *map, size_t map_len,
                                  const int64_t *table, size_t table_len, const int64_t *d, size_t d_len,
                                  const int64_t *ps, size_t ps_len, int64_t bz_grid_type, int64_t *told,
                                  size_t told_len);

/* The same of many images of one table, by one rotation: a burst of points. In: indices, any number of them, also none,
 * repeated or not; the rest as above. Out, each as long as indices: out has in each place what told[0] above is for the
 * index in that place, fallbacks what told[1] is. One index that is refused refuses the whole call, by the refusal of
 * the first such (proved). Without an index nothing is read, and 13, 3, 9 and 17 are given all the same. Refusals: 13,
 * 3, 9, 17 as above, 14. */
int64_t zone_rotate_bz_grid_indices(const int64_t *indices, size_t indices_len, const int64_t *rotation,
                                    size_t rotation_len, const int64_t *addresses, size_t addresses_len,
                                    const int64_t *map, size_t map_len, const int64_t *table, size_t table_len,
                                    const int64_t *d, size_t d_len, const int64_t *ps, size_t ps_len,
                                    int64_t bz_grid_type, int64_t *out, size_t out_len, int64_t *fallbacks,
                                    size_t fallbacks_len);

/* The neighbours of images. In: points, which are image indices of the table; offsets, three numbers each, that are
 * added to their addresses; addresses, map and their record table[7]; d[3], the type. Out: a place for each pair, all
 * offsets of the first point first: the image at the sum or, where there is none, the first image of the sum's point.
 * (Type 1 asks the doubled mesh, so its answer may be another image of that point.) Refusals: 13, 3, 9, 17 where the
 * record has not the d and type of the call (which has no shift, so that any passes), 14; without points or without
 * offsets none of the last three. */
int64_t zone_neighboring_grid_points(const int64_t *points, size_t points_len, const int64_t *offsets,
                                     size_t offsets_len, const int64_t *addresses, size_t addresses_len,
                                     const int64_t *map, size_t map_len, const int64_t *table, size_t table_len,
                                     const int64_t *d, size_t d_len, int64_t bz_grid_type, int64_t *out,
                                     size_t out_len);

/* The table of the other type, with the same images of each point in the same order: between stations that keep sparse
 * tables and such that keep dense ones. In: table[7], the record that was told where the table was made, whose type
 * says which way it goes; addresses, map and grg, at least their told parts, past which nothing is read. Out:
 * out_addresses, out_map and out_grg, which may be longer than needed and hold -1 past the table (3 * M,
 * ZONE_MAP_LENGTH and M places; M stays); told[10]: these lengths and the record, in which only the type is another. A
 * table is converted only if it could stand: the counts in map rise from 0 to the number of images (type 1: of those
 * after the first of each point), each point has an image, each address belongs to its point, which grg names, none
 * stands twice, and the doubled mesh of type 1 is as under IMAGES. It is proved that such tables, and no others, pass;
 * that there and back is the same table and record; that a table of call 4 passes and gives what call 4 leaves for the
 * other type; and that the triplets of call 6 from either have the same addresses, left, left_length and cells, where
 * q0 stands for the same point and class_map has N places. (Neighbours may differ: type 1 asks the doubled mesh.) The
 * addresses of a point are compared two by two, the rest takes as many steps as there are places. Refusals: 13 for
 * table, told, and addresses whose length is no multiple of 3; 3 and 9 for the record; 14 where a number of map, or an
 * image that it counts, cannot be read; 19; 13 for an output that is too short. */
int64_t zone_convert_bz_grid(const int64_t *table, size_t table_len, const int64_t *addresses, size_t addresses_len,
                             const int64_t *map, size_t map_len, const int64_t *grg, size_t grg_len,
                             int64_t *out_addresses, size_t out_addresses_len, int64_t *out_map, size_t out_map_len,
                             int64_t *out_grg, size_t out_grg_len, int64_t *told, size_t told_len);

/* The classes of triplets at the point q0. In: d[3], the transformed list, to which time reversal joins negatives as
 * in zone_reciprocal_rotations. Out: map_q[N], the class map (as of zone_ir_grid_map with ps = 0) of those matrices
 * that keep q0, for each point q1; map_triplets[N], the same or, if swappable, for each number r of it the lower of r
 * and the number of the partner of r, -q0-r; told[1]: how many points keep their own number in map_triplets. The
 * weight of a class is how many points bear its number. Refusals: 13, 3, 7, 8. */
int64_t zone_ir_triplets_at_q(int64_t q0, const int64_t *d, size_t d_len, const int64_t *rotations,
                              size_t rotations_len, bool time_reversal, bool swappable, int64_t *map_triplets,
                              size_t map_triplets_len, int64_t *map_q, size_t map_q_len, int64_t *told,
                              size_t told_len);

/* For each class, by rising number, a triplet of images of q0, q1 and q2, where q1 is the point of that number and q2
 * is -q0-q1. In: q0, a point for type 1, any image of it for type 2; addresses, map and their record table[7];
 * class_map, which is map_triplets or map_q; d[3], q[9], lattice[9], the type. Out: with k places of class_map that
 * hold their own number out[3 * k], left[k], left_length[k] and cells[3 * k]. left is 1 where the three addresses sum
 * to 0. It is 0 where no choice of images does: then the triplet has the shortest sum, up to the tolerance, and
 * left_length its squared length, |lattice·G|² with G = Q·D⁻¹·sum. left and the three places are -1 where one of the
 * points has no image in the table. left_length is 0 but where left is 0. cells has the cell of the sum, as
 * zone_grid_index_from_address tells it; where left is -1 it is -1 -1 -1, which may also be that of a sum. On a table
 * that call 4 left for the same d and type the sum is d times its cell, axis by axis (proved), so that G = Q·cell; on
 * other tables a remainder may be left, which is not told. The choices are tried one after the other until one sums to
 * 0. Refusals: 13, 3, 9, 17 as for the neighbours, with no class too, 14. */
int64_t zone_bz_triplets_at_q(int64_t q0, const int64_t *addresses, size_t addresses_len, const int64_t *map,
                              size_t map_len, const int64_t *table, size_t table_len, const int64_t *class_map,
                              size_t class_map_len, const int64_t *d, size_t d_len, const int64_t *q, size_t q_len,
                              const double *lattice, size_t lattice_len, int64_t bz_grid_type, int64_t *out,
                              size_t out_len, int64_t *left, size_t left_len, double *left_length,
                              size_t left_length_len, int64_t *cells, size_t cells_len);

/* The class sheet of a finished list, a text to pin beside the camera. In: class_map, as call 6 took it, and triplets,
 * its out; either may hold anything. Out: with k places of class_map that hold their own number, and so 3 * k places of
 * triplets, sheet[ZONE_SHEET_LENGTH(k)]. Each place holds the code of a character: blank 32, minus 45, digits 48 to 57,
 * line feed 10. All lines have 45 characters and a line feed. By rising number there is one for each class: its number
 * right in 6 characters, its weight right in 6, its three image indices right in 11 each; the weight is how many places
 * of class_map hold the number. Before the first class and each fortieth after it stands a line with the page number,
 * from 1, right in 45; so class r, counted from 0, has line r + r / 40 + 1. Without classes there is no page. A minus
 * sign is a character, so an index fits from -9,999,999,999 to 99,999,999,999, and a triplet of -1 has its line. Full
 * fields touch: read a sheet by its columns, not by blanks. It is proved that it then gives the same numbers back, and
 * that of what calls 1 to 6 leave, each accepted, every number fits, whatever the list. Refusals: 13, 3. */
int64_t zone_class_sheet(const int64_t *class_map, size_t class_map_len, const int64_t *triplets, size_t triplets_len,
                         int64_t *sheet, size_t sheet_len);

/* Calls 1 to 6 on a job file, for at most 256 points and 1,024 images (else 13), with ps = 0; type 2 starts from the
 * first image of q0. The file has a header of eight 32-bit words. All words are little-endian, and a double is two, the
 * low one first:
 *
 *   0  its length in bytes, 32 to ZONE_JOB_LENGTH      4  the byte at which the lattice stands: 9 doubles
 *   1  the count of rotations, 0 (then 18) to 192      5  flags: 1 time reversal, 2 swappable, or their sum
 *   2  the byte at which A stands: 9 signed words      6  the type
 *   3  the same of the rotations: 9 words each         7  q0, a point
 *
 * Sections stand from byte 32 on and end in the file; they may overlap. 15 if any of this does not hold (of words 6
 * and 7 nothing is asked here). Out: text, with 0 past the listing, for which ZONE_TEXT_LENGTH places are always
 * enough; told[1]: the bytes of the listing. Its lines are `grid` with d, `map` with map_triplets, `ir` with the
 * number of classes, and for each class `triplet` with three image indices. Refusals: 13 for told, 15, those of the
 * calls in their order (13 for the points before call 4), 13 for text. */
int64_t zone_list(const uint8_t *job, size_t job_len, uint8_t *text, size_t text_len, int64_t *told, size_t told_len);

#ifdef __cplusplus
}
#endif

#endif
