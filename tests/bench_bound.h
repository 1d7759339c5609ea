/* How many comparisons lookups take, beside the most that they may take: h + n in each chunk of their trails (docs/FORMAT.md, Q12). */
#include <stddef.h>
#include <stdint.h>

#include "../include/hodsplinter.h"

/* Sums over lookups; `above` is how many of them took more than they may. */
struct taken { uint64_t lookups, chunks, comparisons, most, above; };

/* Of a chunk with so many entries: n is 1 + 2^density, h the least whole number for which 2^h is at least the number of its groups. */
static uint64_t most_in_chunk(uint64_t entries, uint64_t density) {
    uint64_t h = 0, n = 1 + (UINT64_C(1) << density), groups = 1 + (entries - 1) / n;
    while (UINT64_C(1) << h < groups) h++;
    return h + n;
}

/* Adds a lookup that found or did not. The last two bytes of a chunk are its number of entries. */
static void add_lookup(struct taken *sum, const uint8_t *file, const uint64_t *record, const uint32_t *trail, const uint64_t *answer) {
    uint64_t most = 0;
    for (uint64_t i = 0; i < answer[0]; i++) {
        const uint8_t *end = file + record[3] + 84 + 4096 * ((size_t)trail[i] + 1);
        most += most_in_chunk(end[-2] + 256u * end[-1], record[5]);
    }
    sum->lookups++;
    sum->chunks += answer[0];
    sum->comparisons += answer[HODS_LOOKUP - 1];
    sum->most += most;
    sum->above += answer[HODS_LOOKUP - 1] > most;
}

/* One of the sums a lookup. */
static double each(const struct taken *sum, uint64_t of) { return (double)of / (double)sum->lookups; }
