/* The code that generate.py writes for an exercise. */
#ifndef BENCH_GENERATED_H
#define BENCH_GENERATED_H

#include "engine.h"

/* The block that the code was written from, and its search, which takes no other. */
struct generated {
  const uint8_t *block;
  size_t length;
  struct answer (*find)(const struct query *query, const uint32_t *table, uint8_t *plan);
};

extern const struct generated generated_tiles;
extern const struct generated generated_pancake;
extern const struct generated generated_slots;
extern const struct generated generated_many_rules;

#endif
