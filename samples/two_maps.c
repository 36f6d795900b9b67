/* Fills tables and searches with one map and with two, and prints what each search takes.
 *
 *   tools/build
 *   cc -I include samples/two_maps.c target/staticlib/libmikjuqan.a
 *
 * Seven pancakes lie in a pile, and rule k turns over the first k + 2 of them, at cost 1. The exercise's own map tells
 * the last three from the others, the further map odd ones from even ones: a table with two abstract labels has 128
 * entries. rust/examples/two_maps.rs is the same program in Rust. */
#include "mikjuqan.h"

#include <stdio.h>

static const char text[] =
    "0707020601\n00000000010101\n"
    "011011FFFFFFFFFF1110FFFFFFFFFF\n01101112FFFFFFFF121110FFFFFFFF\n"
    "0110111213FFFFFF13121110FFFFFF\n011011121314FFFF1413121110FFFF\n"
    "01101112131415FF151413121110FF\n011011121314151616151413121110\n"
    "00010203040506\n";

/* K, and the abstract label of each label. */
static const uint8_t further_map[] = {2, 0, 1, 0, 1, 0, 1, 0};

static const uint8_t start[] = {4, 6, 2, 5, 1, 3, 0};

static uint8_t block[MIKJUQAN_BLOCK_LENGTH];
static size_t block_length;

static int refused(uint32_t number) {
  fprintf(stderr, "refused with %u: %s\n", (unsigned)number, mikjuqan_refusal_text(number));
  return 1;
}

/* Fills all tables and searches by them; 0 where a plan is found. */
static int search(const char *name, const uint8_t *maps, size_t maps_length, size_t entries) {
  static uint32_t tables[MIKJUQAN_TABLE_LENGTH];
  uint32_t filled = mikjuqan_fill_table(block, block_length, maps, maps_length, tables, entries);
  if (filled != MIKJUQAN_ACCEPTED) return refused(filled);

  uint8_t plan[MIKJUQAN_PLAN_LENGTH];
  mikjuqan_limits limits;
  limits.steps = sizeof plan;
  limits.cost = 100;
  limits.visits = UINT32_MAX;
  mikjuqan_search told = mikjuqan_find_plan(block, block_length, maps, maps_length, start, sizeof start, limits, tables,
                                            entries, plan, sizeof plan);
  if (told.refusal != MIKJUQAN_ACCEPTED) return refused(told.refusal);
  if (told.status != MIKJUQAN_FOUND) return 1;

  printf("%s, %u entries: rules", name, (unsigned)entries);
  for (size_t i = 0; i < told.plan.steps; i++) printf(" %u", plan[i]);
  printf(", cost %u, %u visits\n", (unsigned)told.plan.cost, (unsigned)told.plan.visits);
  return 0;
}

int main(void) {
  mikjuqan_length read = mikjuqan_read_exercise((const uint8_t *)text, sizeof text - 1, block, sizeof block);
  if (read.refusal != MIKJUQAN_ACCEPTED) return refused(read.refusal);
  block_length = read.bytes;
  if (search("one map", NULL, 0, 128) != 0) return 1;
  return search("two maps", further_map, sizeof further_map, 256);
}
