/* convert: makes the sparse image table of a small grid, converts it to the dense one and back, and prints the maps and
 * the addresses of both. Status 1 where the way back leads elsewhere. */
#include "zone.h"

#include <inttypes.h>
#include <stdio.h>
#include <stdlib.h>
#include <string.h>

/* A table with its record, in room for 8 images a point and for either map. */
struct table {
    int64_t addresses[3 * 16], map[ZONE_MAP_LENGTH(1, 2)], grg[16];
    int64_t told[3 + ZONE_RECORD_LENGTH]; /* the three lengths, then the record */
};

static void accepted(const char *call, int64_t answer)
{
    if (answer != ZONE_ACCEPTED) {
        fprintf(stderr, "%s is refused: %" PRId64 "\n", call, answer);
        exit(1);
    }
}

/* Of a table the told parts are handed on, and its record. */
static void convert(const struct table *from, struct table *to)
{
    const int64_t *lengths = from->told, *record = from->told + 3;
    accepted("zone_convert_bz_grid",
             zone_convert_bz_grid(record, ZONE_RECORD_LENGTH, from->addresses, (size_t)lengths[0], from->map,
                                  (size_t)lengths[1], from->grg, (size_t)lengths[2], to->addresses, 48, to->map,
                                  ZONE_MAP_LENGTH(1, 2), to->grg, 16, to->told, 10));
}

static void print(const struct table *t)
{
    printf("type %" PRId64 ": map", t->told[9]);
    for (int64_t i = 0; i < t->told[1]; i++)
        printf(" %" PRId64, t->map[i]);
    printf(", addresses");
    for (int64_t i = 0; i < t->told[2]; i++)
        printf(" (%" PRId64 " %" PRId64 " %" PRId64 ")", t->addresses[3 * i], t->addresses[3 * i + 1],
               t->addresses[3 * i + 2]);
    printf("\n");
}

int main(void)
{
    static const int64_t d[3] = {2, 1, 1}, ps[3] = {0, 0, 0}, q[9] = {1, 0, 0, 0, 1, 0, 0, 0, 1};
    static const double lattice[9] = {1, 0, 0, 0, 1, 0, 0, 0, 1};
    static struct table sparse, dense, back;
    accepted("zone_bz_grid_addresses",
             zone_bz_grid_addresses(d, 3, q, 9, ps, 3, lattice, 9, 1, sparse.addresses, 48, sparse.map,
                                    ZONE_MAP_LENGTH(1, 2), sparse.grg, 16, sparse.told, 10));
    convert(&sparse, &dense);
    convert(&dense, &back);
    print(&sparse);
    print(&dense);
    return memcmp(&sparse, &back, sizeof back) == 0 ? 0 : 1;
}
