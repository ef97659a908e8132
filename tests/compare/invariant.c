/* The list of the conjuncts, and the walk down it. */
#include "invariant.h"

const struct conjunct_entry invariant_conjuncts[] = {
    {"T", invariant_T},
    {"F", invariant_F},
    {"0", invariant_0},
    {"S1", invariant_S1},
    {"S2", invariant_S2},
    {"S3", invariant_S3},
    {"B", invariant_B},
    {"M0", invariant_M0},
    {"M1", invariant_M1},
    {"M3", invariant_M3},
    {"MT", invariant_MT},
    {"M7", invariant_M7},
    {"M8", invariant_M8},
    {"M9", invariant_M9},
    {"M10", invariant_M10},
    {"U", invariant_U},
    {"K1", invariant_K1},
    {"K2", invariant_K2},
    {"K3", invariant_K3},
    {"K4", invariant_K4},
    {"K5", invariant_K5},
    {"K6", invariant_K6},
    {"cells, bounds", invariant_cells_bounds},
    {"cells, i = j", invariant_cells_own},
    {"cells, i alive", invariant_cells_live_sender},
    {"cells, i dead, not asked", invariant_cells_not_asked},
    {"cells, i dead, asked", invariant_cells_asked},
    {"L1", invariant_L1},
    {"L2", invariant_L2},
    {"L3", invariant_L3},
    {"C", invariant_C},
};

const unsigned invariant_conjunct_count = sizeof invariant_conjuncts / sizeof invariant_conjuncts[0];

static uint64_t tested;

uint64_t invariant_tested(void)
{
    return tested;
}

const char *invariant_broken(const struct session *s)
{
    /* Static for its size alone. */
    static struct census census;
    if (!second_is_sound(s))
        return "sound";
    census_take(&census, s);
    tested++;
    for (unsigned n = 0; n < invariant_conjunct_count; n++)
        if (!invariant_conjuncts[n].holds(s, &census))
            return invariant_conjuncts[n].name;
    return NULL;
}
