/* The layout of an exercise block: a head of five bytes, the map, the rules, the goals. */
#ifndef BENCH_BLOCK_H
#define BENCH_BLOCK_H

#include <stdbool.h>
#include <stddef.h>
#include <stdint.h>

enum {
  HEAD_LENGTH = 5,
  MOST_POSITIONS = 16,
  MOST_LABELS = 16,
  MOST_RULES = 64,
  MOST_GOALS = 8,
  MOST_STEPS = 64,
  MOST_ENTRIES = 16384,
  MOST_BLOCK = HEAD_LENGTH + MOST_LABELS + MOST_RULES * (1 + 2 * MOST_POSITIONS) + MOST_GOALS * MOST_POSITIONS
};

#define NO_PATH UINT32_MAX

/* Terms: a label below 0x10, a variable below 0x20, a dash. */
enum { FIRST_VARIABLE = 0x10, BEHIND_VARIABLES = 0x20, DASH = 0xFF };

static inline bool is_label(uint8_t term) { return term < FIRST_VARIABLE; }

static inline bool is_variable(uint8_t term) { return term >= FIRST_VARIABLE && term < BEHIND_VARIABLES; }

/* An exercise: its block, the numbers of its head, and where its parts stand. */
struct exercise {
  const uint8_t *block;
  unsigned positions;
  unsigned labels;
  unsigned abstract_labels;
  unsigned rules;
  unsigned goals;
  unsigned rule_width;
  size_t rules_at;
  size_t goals_at;
};

/* Reads no more than the head, so that the head can be looked at before anything else. */
static inline struct exercise open_block(const uint8_t *block) {
  struct exercise e = {.block = block, .positions = block[0], .labels = block[1], .abstract_labels = block[2]};
  e.rules = block[3];
  e.goals = block[4];
  e.rule_width = 1 + 2 * e.positions;
  e.rules_at = HEAD_LENGTH + e.labels;
  e.goals_at = e.rules_at + e.rules * e.rule_width;
  return e;
}

static inline const uint8_t *map_of(const struct exercise *e) { return e->block + HEAD_LENGTH; }

static inline const uint8_t *rule_at(const struct exercise *e, unsigned r) {
  return e->block + e->rules_at + r * e->rule_width;
}

static inline unsigned cost_of(const struct exercise *e, unsigned r) { return rule_at(e, r)[0]; }

static inline const uint8_t *left_side(const struct exercise *e, unsigned r) { return rule_at(e, r) + 1; }

static inline const uint8_t *right_side(const struct exercise *e, unsigned r) {
  return rule_at(e, r) + 1 + e->positions;
}

static inline const uint8_t *goal_at(const struct exercise *e, unsigned g) {
  return e->block + e->goals_at + g * e->positions;
}

static inline size_t block_length(const struct exercise *e) { return e->goals_at + e->goals * e->positions; }

/* K to the power n; or a number over 16,384 as soon as it passes that, since 16 to the power 16 fits no word. */
static inline uint32_t count_entries(const struct exercise *e) {
  uint32_t entries = 1;
  for (unsigned i = 0; i < e->positions && entries <= MOST_ENTRIES; i++) entries *= e->abstract_labels;
  return entries;
}

static inline bool head_ok(const struct exercise *e) {
  return e->positions >= 1 && e->positions <= MOST_POSITIONS && e->labels >= 1 && e->labels <= MOST_LABELS &&
         e->abstract_labels >= 1 && e->abstract_labels <= e->labels && e->rules <= MOST_RULES && e->goals >= 1 &&
         e->goals <= MOST_GOALS && count_entries(e) <= MOST_ENTRIES;
}

#endif
