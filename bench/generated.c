/* The generated engine: it has code for the exercises of the searches only, and nothing but the search. */
#include "generated.h"

#include <stdio.h>
#include <stdlib.h>
#include <string.h>

static const struct generated *const codes[] = {&generated_tiles, &generated_pancake, &generated_slots,
                                                &generated_many_rules};

/* The code is found by its block in each call, which is little beside a search. */
static struct answer find(const uint8_t *block, size_t length, const struct query *query, const uint32_t *table,
                          uint8_t *plan) {
  for (size_t k = 0; k < sizeof codes / sizeof *codes; k++) {
    const struct generated *code = codes[k];
    if (code->length == length && memcmp(code->block, block, length) == 0) return code->find(query, table, plan);
  }
  fprintf(stderr, "bench: there is no generated code for an exercise\n");
  exit(1);
}

const struct engine generated_engine = {.name = "generated", .find = find};
