/* Our library as an engine. Each of its calls checks its block again, and its search tests its table. */
#include "block.h"
#include "engine.h"
#include "mikjuqan.h"

#include <stdio.h>
#include <stdlib.h>

/* Fill, test and search are handed only what is accepted: a refusal has no answer to be compared with. */
static void must_accept(const char *call, uint32_t refusal) {
  if (refusal == MIKJUQAN_ACCEPTED) return;
  fprintf(stderr, "bench: the library's %s refuses its input with %u: %s\n", call, refusal,
          mikjuqan_refusal_text(refusal));
  exit(1);
}

static uint32_t read_text(const uint8_t *text, size_t text_length, uint8_t *block, size_t room, size_t *length) {
  mikjuqan_length done = mikjuqan_read_exercise(text, text_length, block, room);
  if (done.refusal == MIKJUQAN_ACCEPTED) *length = done.bytes;
  return done.refusal;
}

static void fill(const uint8_t *block, size_t length, uint32_t *table) {
  struct exercise e = open_block(block);
  must_accept("fill", mikjuqan_fill_table(block, length, NULL, 0, table, count_entries(&e)));
}

void library_fill_by_maps(const uint8_t *block, size_t length, const uint8_t *maps, size_t maps_length,
                          uint32_t *table) {
  must_accept("fill", mikjuqan_fill_table(block, length, maps, maps_length, table, MOST_ENTRIES));
}

static bool test(const uint8_t *block, size_t length, const uint32_t *table) {
  struct exercise e = open_block(block);
  mikjuqan_decision passes = mikjuqan_test_table(block, length, NULL, 0, table, count_entries(&e));
  must_accept("test", passes.refusal);
  return passes.yes == 1;
}

static struct answer answer_of(mikjuqan_search told) {
  must_accept("search", told.refusal);
  return (struct answer){told.status, (uint32_t)told.plan.steps, told.plan.cost, told.plan.visits, told.plan.goal};
}

static mikjuqan_limits limits_of(const struct query *query) {
  return (mikjuqan_limits){.steps = query->steps, .cost = query->cost, .visits = query->visits};
}

static struct answer find(const uint8_t *block, size_t length, const struct query *query, const uint32_t *table,
                          uint8_t *plan) {
  struct exercise e = open_block(block);
  return answer_of(mikjuqan_find_plan(block, length, NULL, 0, query->start, e.positions, limits_of(query), table,
                                      count_entries(&e), plan, query->steps));
}

struct answer library_find_by_maps(const uint8_t *block, size_t length, const uint8_t *maps, size_t maps_length,
                                   const struct query *query, const uint32_t *table, uint8_t *plan) {
  struct exercise e = open_block(block);
  return answer_of(mikjuqan_find_plan(block, length, maps, maps_length, query->start, e.positions, limits_of(query),
                                      table, MOST_ENTRIES, plan, query->steps));
}

size_t library_find_batch(const uint8_t *block, size_t length, const uint8_t *queries, size_t queries_length,
                          const uint32_t *table, uint8_t *answers, size_t room) {
  struct exercise e = open_block(block);
  mikjuqan_length done =
      mikjuqan_find_plans(block, length, NULL, 0, queries, queries_length, table, count_entries(&e), answers, room);
  must_accept("search of a batch", done.refusal);
  return done.bytes;
}

const struct engine library_engine = {"ours", read_text, mikjuqan_check_block, fill, test, find, NULL};
const struct engine single_engine = {.name = "singly", .find = find};
