/* The greatest packing of bad combinations, by GLPK. */
#ifndef PACKING_H
#define PACKING_H

#include <stdbool.h>
#include <stdint.h>

/* The most uses any packing has: bad[m] for each mask m of six segments but the empty one, and each segment's capacity. */
unsigned glpk_most_uses(const bool bad[64], const uint32_t capacity[6]);

#endif
