/* fold [TYPE Q0]: folds a face-centred cubic crystal, from its cell to the triplets at the point Q0 (2 and 2 if none
 * are given), by the calls of zone.h in their order. The lines `grid`, `map`, `ir` and `triplet` are as zone_list
 * writes them. */
#include "zone.h"

#include <inttypes.h>
#include <stdio.h>
#include <stdlib.h>

/* The basis is (0,1/2,1/2), (1/2,0,1/2), (1/2,1/2,0). Rows of A: twice the vectors of the cubic cell in that basis. */
static const int64_t A[9] = {-2, 2, 2, 2, -2, 2, 2, 2, -2};
/* The reciprocal basis vectors, in columns: the inverse of the matrix with the rows above. */
static const double LATTICE[9] = {-1, 1, 1, 1, -1, 1, 1, 1, -1};
static const int64_t SHIFT[3] = {0, 0, 0};
static const bool TIME_REVERSAL = true, SWAPPABLE = true;

/* The 48 rotations of the crystal in that basis, as spglib would give them: C⁻¹·S·C for each signed permutation S of the
 * Cartesian axes, where the basis vectors are the columns of C. */
static void direct_rotations(int64_t rotations[48 * 9])
{
    static const int axes[6][3] = {{0, 1, 2}, {0, 2, 1}, {1, 0, 2}, {1, 2, 0}, {2, 0, 1}, {2, 1, 0}};
    static const int twice_c[3][3] = {{0, 1, 1}, {1, 0, 1}, {1, 1, 0}};
    static const int inverse_c[3][3] = {{-1, 1, 1}, {1, -1, 1}, {1, 1, -1}};
    for (int n = 0; n < 48; n++)
        for (int i = 0; i < 3; i++)
            for (int j = 0; j < 3; j++) {
                int twice = 0;
                for (int k = 0; k < 3; k++)
                    twice += inverse_c[i][k] * (n >> k & 1 ? -1 : 1) * twice_c[axes[n / 8][k]][j];
                rotations[9 * n + 3 * i + j] = twice / 2;
            }
}

/* Ends the program where a call was refused. */
static void accepted(const char *call, int64_t answer)
{
    if (answer != ZONE_ACCEPTED) {
        fprintf(stderr, "%s is refused: %" PRId64 "\n", call, answer);
        exit(1);
    }
}

static int64_t *places(size_t n)
{
    int64_t *p = (int64_t *)malloc(n * sizeof *p);
    if (p == NULL && n > 0) {
        fprintf(stderr, "no memory\n");
        exit(1);
    }
    return p;
}

static void print_line(const char *word, const int64_t *numbers, size_t n)
{
    printf("%s", word);
    for (size_t i = 0; i < n; i++)
        printf(" %" PRId64, numbers[i]);
    printf("\n");
}

/* q = Q·D⁻¹·(a + ps/2), in units of the reciprocal basis vectors; it is added to `sum`. */
static void print_q(const int64_t *a, const int64_t *d, const int64_t *q, double *sum)
{
    printf(" (");
    for (int i = 0; i < 3; i++) {
        double x = 0.0;
        for (int k = 0; k < 3; k++)
            x += (double)q[3 * i + k] * ((double)a[k] + (double)SHIFT[k] / 2.0) / (double)d[k];
        printf("%s%.3f", i == 0 ? "" : " ", x);
        sum[i] += x;
    }
    printf(")");
}

int main(int argc, char **argv)
{
    int64_t type = argc == 3 ? atoi(argv[1]) : 2;
    int64_t q0 = argc == 3 ? atoi(argv[2]) : 2;
    int64_t told[1];

    /* 1: the grid */
    int64_t d[3], p[9], q[9];
    accepted("zone_snf3x3", zone_snf3x3(A, 9, d, 3, p, 9, q, 9, told, 1));
    size_t n = (size_t)(d[0] * d[1] * d[2]);

    /* 2 and 3: the rotations, as they act on q and on addresses */
    int64_t direct[48 * 9], reciprocal[ZONE_GROUP_LENGTH], rotations[ZONE_GROUP_LENGTH];
    direct_rotations(direct);
    accepted("zone_reciprocal_group",
             zone_reciprocal_group(direct, 48 * 9, TIME_REVERSAL, reciprocal, ZONE_GROUP_LENGTH, told, 1));
    size_t length = 9 * (size_t)told[0];
    accepted("zone_transform_rotations",
             zone_transform_rotations(reciprocal, length, d, 3, q, 9, rotations, length));

    /* 4: the images, in room of the lengths that are told first */
    int64_t sizes[3], made[3 + ZONE_RECORD_LENGTH], *record = made + 3; /* the lengths again, and the record */
    accepted("zone_bz_grid_sizes", zone_bz_grid_sizes(d, 3, q, 9, SHIFT, 3, LATTICE, 9, type, sizes, 3));
    size_t addresses_length = (size_t)sizes[0], map_length = (size_t)sizes[1], grg_length = (size_t)sizes[2];
    int64_t *addresses = places(addresses_length), *map = places(map_length), *grg = places(grg_length);
    accepted("zone_bz_grid_fill",
             zone_bz_grid_fill(d, 3, q, 9, SHIFT, 3, LATTICE, 9, type, sizes, 3, addresses, addresses_length, map,
                               map_length, grg, grg_length, made, 10));

    /* 5: the classes at q0 */
    int64_t *map_triplets = places(n), *map_q = places(n);
    accepted("zone_ir_triplets_at_q", zone_ir_triplets_at_q(q0, d, 3, rotations, length, TIME_REVERSAL, SWAPPABLE,
                                                            map_triplets, n, map_q, n, told, 1));
    size_t classes = (size_t)told[0];

    /* 6: a triplet for each class; type 2 wants an image of q0, here the first */
    int64_t *triplets = places(3 * classes), *left = places(classes);
    double *left_length = (double *)places(classes);
    int64_t *cells = places(3 * classes);
    accepted("zone_bz_triplets_at_q",
             zone_bz_triplets_at_q(type == 1 ? q0 : map[q0], addresses, addresses_length, map, map_length, record,
                                   ZONE_RECORD_LENGTH, map_triplets, n, d, 3, q, 9, LATTICE, 9, type, triplets,
                                   3 * classes, left, classes, left_length, classes, cells, 3 * classes));

    print_line("grid", d, 3);
    print_line("map", map_triplets, n);
    print_line("ir", told, 1);
    for (size_t i = 0, c = 0; i < n; i++) {
        int64_t weight = 0;
        double sum[3] = {0.0, 0.0, 0.0};
        if (map_triplets[i] != (int64_t)i)
            continue;
        for (size_t j = 0; j < n; j++)
            weight += map_triplets[j] == (int64_t)i;
        print_line("triplet", triplets + 3 * c, 3);
        printf("  weight %" PRId64 ":", weight);
        for (int k = 0; k < 3; k++)
            print_q(addresses + 3 * triplets[3 * c + k], d, q, sum);
        printf(", sum %.3f %.3f %.3f, squared length %.3f", sum[0], sum[1], sum[2], left_length[c]);
        printf(", cell %" PRId64 " %" PRId64 " %" PRId64 "\n", cells[3 * c], cells[3 * c + 1], cells[3 * c + 2]);
        c++;
    }
    free(map), free(addresses), free(grg), free(map_triplets), free(map_q), free(triplets), free(left);
    free(left_length), free(cells);
    return 0;
}
