/* Searches from many starts of one exercise in one call, and prints what is told of each.
 *
 *   tools/build
 *   cc -I include samples/many_starts.c target/staticlib/libmikjuqan.a
 *
 * Three slots hold the labels 0 (empty), 1 and 2. A label moves to an empty neighbour at cost 1, and from one end to
 * the other at cost 3; the goal is <2,1,0>. Of the starts one has no way to the goal, and one is no state.
 * rust/examples/many_starts.rs is the same program in Rust. */
#include "mikjuqan.h"

#include <stdio.h>
#include <string.h>

static const char text[] =
    "0303020601\n000101\n"
    "011000FF0010FF\n010010FF1000FF\n01FF1000FF0010\n01FF0010FF1000\n0310FF0000FF10\n0300FF1010FF00\n"
    "020100\n";

enum { POSITIONS = 3, ENTRIES = 8, STARTS = 8, QUERY = POSITIONS + MIKJUQAN_LIMITS_LENGTH };

static const uint8_t starts[STARTS][POSITIONS] = {{0, 1, 2}, {0, 2, 1}, {1, 0, 2}, {1, 2, 0},
                                                  {2, 0, 1}, {2, 1, 0}, {1, 1, 0}, {1, 2, 3}};

static int refused(uint32_t number) {
  fprintf(stderr, "refused with %u: %s\n", (unsigned)number, mikjuqan_refusal_text(number));
  return 1;
}

static void print_list(const uint8_t *numbers, size_t length) {
  printf("[");
  for (size_t i = 0; i < length; i++) printf("%s%u", i > 0 ? ", " : "", numbers[i]);
  printf("]");
}

static void print_answer(const uint8_t *start, const uint8_t *record) {
  mikjuqan_search told = mikjuqan_read_answer(record);
  print_list(start, POSITIONS);
  if (told.refusal != MIKJUQAN_ACCEPTED) {
    printf(": refused with %u\n", (unsigned)told.refusal);
  } else if (told.status == MIKJUQAN_FOUND) {
    printf(": rules ");
    print_list(record + MIKJUQAN_ANSWER_PLAN, told.plan.steps);
    printf(", cost %u, %u visits\n", (unsigned)told.plan.cost, (unsigned)told.plan.visits);
  } else {
    const char *words = told.status == MIKJUQAN_NO_PLAN ? "no plan" : "spent";
    printf(": %s, %u visits\n", words, (unsigned)told.plan.visits);
  }
}

int main(void) {
  uint8_t block[MIKJUQAN_BLOCK_LENGTH];
  mikjuqan_length read = mikjuqan_read_exercise((const uint8_t *)text, sizeof text - 1, block, sizeof block);
  if (read.refusal != MIKJUQAN_ACCEPTED) return refused(read.refusal);
  uint32_t table[ENTRIES];
  uint32_t filled = mikjuqan_fill_table(block, read.bytes, NULL, 0, table, ENTRIES);
  if (filled != MIKJUQAN_ACCEPTED) return refused(filled);

  mikjuqan_limits limits;
  limits.steps = MIKJUQAN_PLAN_LENGTH;
  limits.cost = 100;
  limits.visits = 1000;
  uint8_t queries[STARTS * QUERY];
  for (size_t i = 0; i < STARTS; i++) {
    memcpy(queries + i * QUERY, starts[i], POSITIONS);
    mikjuqan_write_limits(limits, queries + i * QUERY + POSITIONS);
  }
  uint8_t answers[STARTS * MIKJUQAN_ANSWER_LENGTH];
  mikjuqan_length told = mikjuqan_find_plans(block, read.bytes, NULL, 0, queries, sizeof queries, table, ENTRIES,
                                             answers, sizeof answers);
  if (told.refusal != MIKJUQAN_ACCEPTED) return refused(told.refusal);
  for (size_t i = 0; i < STARTS; i++) print_answer(starts[i], answers + i * MIKJUQAN_ANSWER_LENGTH);
  return 0;
}
