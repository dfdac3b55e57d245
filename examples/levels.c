/*
 * The multiplications of each instance's deciphering netlist by depth, for tools/picture: one bit of record, key indices in
 * order, whitening and IV 0. For each instance a line with its name, depth and multiplications, and then for each level a
 * line with name, level, AND gates and MUX gates.
 */
#include "probe.h"

#include <inttypes.h>
#include <stdio.h>

/* No netlist here is deeper than it has levels of room. */
enum { LEVELS = 128 };

static uint32_t indices[LARGEST_ROW], net[MOST_WORDS], depths[MOST_WIRES];
static uint8_t whitening[LARGEST_ROW];

static int print_levels(uint32_t instance)
{
    const char *name = instances[instance - 1].name;
    uint32_t row = instances[instance - 1].row;
    struct level levels[LEVELS];
    struct metering m;

    struct reply r = probe_emit_decipher(instance, 1, indices, row, whitening, row > 0 ? row : IV_BITS, net, MOST_WORDS);
    if (r.number != 0) {
        fprintf(stderr, "%s: emission refused with %" PRIu32 "\n", name, r.number);
        return 1;
    }
    probe_meter(&m, net, words_of(net), depths, MOST_WIRES, levels, LEVELS);
    if (m.number != 0) {
        fprintf(stderr, "%s: metering refused with %" PRIu32 "\n", name, m.number);
        return 1;
    }
    printf("%s %" PRIu32 " %" PRIu32 "\n", name, m.depth, m.multiplications);
    /* The records up to the largest depth of any gate hold every multiplication. */
    for (uint32_t level = 0, left = m.multiplications; left > 0; level++) {
        printf("%s %" PRIu32 " %" PRIu32 " %" PRIu32 "\n", name, level, levels[level].ands, levels[level].muxes);
        left -= levels[level].ands + levels[level].muxes;
    }
    return 0;
}

int main(void)
{
    for (uint32_t i = 0; i < LARGEST_ROW; i++) {
        indices[i] = i;
    }
    for (uint32_t instance = 1; instance <= INSTANCES; instance++) {
        if (print_levels(instance) != 0) {
            return 1;
        }
    }
    return 0;
}
