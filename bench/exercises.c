/* The inputs of the benchmark. */
#include "exercises.h"

#include <string.h>

enum { MOST_VISITS = 5000000 };

/* ---- building a block: the head and the map, then rules, then goals ---- */

/* Labels are mapped by `map`, or to themselves modulo the number of abstract labels where it is NULL. */
static void begin(struct input *input, uint8_t positions, uint8_t labels, uint8_t abstract_labels, const uint8_t *map) {
  const uint8_t head[HEAD_LENGTH] = {positions, labels, abstract_labels, 0, 0};
  memcpy(input->block, head, HEAD_LENGTH);
  for (uint8_t x = 0; x < labels; x++) input->block[HEAD_LENGTH + x] = map ? map[x] : x % abstract_labels;
  input->length = HEAD_LENGTH + labels;
}

/* A rule of dashes; its left terms are handed back, and its right terms stand behind them. */
static uint8_t *add_rule(struct input *input, unsigned cost) {
  unsigned positions = input->block[0];
  uint8_t *rule = input->block + input->length;
  rule[0] = (uint8_t)cost;
  memset(rule + 1, DASH, 2 * positions);
  input->length += 1 + 2 * positions;
  input->block[3]++;
  return rule + 1;
}

static void add_goal(struct input *input, const uint8_t *terms) {
  unsigned positions = input->block[0];
  memcpy(input->block + input->length, terms, positions);
  input->length += positions;
  input->block[4]++;
}

/* A goal with one term at every position. */
static void add_even_goal(struct input *input, uint8_t term) {
  uint8_t terms[MOST_POSITIONS];
  memset(terms, term, sizeof terms);
  add_goal(input, terms);
}

/* A rule that exchanges the label at `from` with a 0 at `to`. */
static void add_exchange(struct input *input, unsigned cost, unsigned from, unsigned to) {
  uint8_t *left = add_rule(input, cost);
  uint8_t *right = left + input->block[0];
  left[from] = FIRST_VARIABLE;
  left[to] = 0;
  right[from] = 0;
  right[to] = FIRST_VARIABLE;
}

/* Pairs of digits for `count` bytes, and a line feed. */
static void add_line(struct input *input, const uint8_t *bytes, unsigned count) {
  static const char digits[] = "0123456789ABCDEF";
  uint8_t *line = input->text + input->text_length;
  for (unsigned i = 0; i < count; i++) {
    line[2 * i] = (uint8_t)digits[bytes[i] / 16];
    line[2 * i + 1] = (uint8_t)digits[bytes[i] % 16];
  }
  line[2 * count] = '\n';
  input->text_length += 2 * count + 1;
}

void write_text(struct input *input) {
  struct exercise e = open_block(input->block);
  input->text_length = 0;
  add_line(input, input->block, HEAD_LENGTH);
  add_line(input, map_of(&e), e.labels);
  for (unsigned r = 0; r < e.rules; r++) add_line(input, rule_at(&e, r), e.rule_width);
  for (unsigned g = 0; g < e.goals; g++) add_line(input, goal_at(&e, g), e.positions);
}

/* A query with the largest step limit, and visits enough. */
static struct query query_of(const uint8_t *start, unsigned positions, uint32_t cost) {
  struct query query = {.steps = MOST_STEPS, .cost = cost, .visits = MOST_VISITS};
  memcpy(query.start, start, positions);
  return query;
}

/* ---- for the search ---- */

/* The eight tiles: few of the 24 rules apply to a state. Rules go by the empty place, and by the tiles above it, to its
 * left, to its right and below it. The table tells odd tiles from even ones. */
static void make_tiles(struct input *input, struct query *query) {
  static const uint8_t goal[9] = {0, 1, 2, 3, 4, 5, 6, 7, 8};
  static const uint8_t start[9] = {7, 6, 5, 3, 8, 0, 2, 4, 1};
  begin(input, 9, 9, 2, NULL);
  for (unsigned empty = 0; empty < 9; empty++) {
    if (empty >= 3) add_exchange(input, 1, empty - 3, empty);
    if (empty % 3 > 0) add_exchange(input, 1, empty - 1, empty);
    if (empty % 3 < 2) add_exchange(input, 1, empty + 1, empty);
    if (empty < 6) add_exchange(input, 1, empty + 3, empty);
  }
  add_goal(input, goal);
  *query = query_of(start, 9, 40);
}

/* Eleven pancakes, to be laid with the highest label first: every rule applies to every state, and the first one moves
 * all labels. */
static void make_pancake(struct input *input, struct query *query) {
  static const uint8_t map[11] = {0, 0, 0, 0, 0, 0, 1, 1, 1, 1, 1};
  static const uint8_t goal[11] = {10, 9, 8, 7, 6, 5, 4, 3, 2, 1, 0};
  static const uint8_t start[11] = {5, 3, 4, 10, 0, 7, 2, 1, 9, 8, 6};
  begin(input, 11, 11, 2, map);
  for (unsigned turned = 11; turned >= 2; turned--) {
    uint8_t *left = add_rule(input, 1);
    uint8_t *right = left + 11;
    for (unsigned i = 0; i < turned; i++) left[i] = right[turned - 1 - i] = (uint8_t)(FIRST_VARIABLE + i);
  }
  add_goal(input, goal);
  *query = query_of(start, 11, 40);
}

/* Seven slots in a row, two of them empty: slots two apart are exchanged at cost 3, neighbours at cost 2. */
static void make_slots(struct input *input, struct query *query) {
  static const uint8_t map[6] = {0, 1, 2, 3, 2, 1};
  static const uint8_t goal[7] = {5, 4, 0, 3, 0, 2, 1};
  static const uint8_t start[7] = {3, 0, 2, 1, 4, 5, 0};
  begin(input, 7, 6, 4, map);
  for (unsigned i = 0; i < 7; i++) {
    for (unsigned apart = 2; apart > 0; apart--) {
      if (i + apart >= 7) continue;
      add_exchange(input, 1 + apart, i + apart, i);
      add_exchange(input, 1 + apart, i, i + apart);
    }
  }
  add_goal(input, goal);
  *query = query_of(start, 7, 100);
}

/* A rule that turns the labels of three positions round. */
static void add_rotation(struct input *input, unsigned cost, unsigned a, unsigned b, unsigned c) {
  uint8_t *left = add_rule(input, cost);
  uint8_t *right = left + input->block[0];
  left[a] = right[b] = FIRST_VARIABLE;
  left[b] = right[c] = FIRST_VARIABLE + 1;
  left[c] = right[a] = FIRST_VARIABLE + 2;
}

/* 64 rules, of which most apply to a state: three neighbours are turned round, and a label is exchanged with a 0 two to
 * four places apart. The allowance ends the search. */
static void make_many_rules(struct input *input, struct query *query) {
  static const uint8_t goal[12] = {0, 0, 0, 0, 0, 0, 1, 2, 3, 4, 5, 6};
  static const uint8_t start[12] = {3, 0, 1, 2, 0, 0, 0, 0, 5, 0, 4, 6};
  begin(input, 12, 7, 2, NULL);
  for (unsigned i = 0; i + 2 < 12; i++) {
    add_rotation(input, 3, i, i + 1, i + 2);
    add_rotation(input, 3, i + 2, i + 1, i);
  }
  for (unsigned apart = 2; input->block[3] < MOST_RULES; apart++) {
    for (unsigned i = 0; i + apart < 12 && input->block[3] < MOST_RULES; i++) {
      add_exchange(input, 1 + apart, i, i + apart);
      add_exchange(input, 1 + apart, i + apart, i);
    }
  }
  add_goal(input, goal);
  *query = query_of(start, 12, 200);
  query->visits = 1000000;
}

/* ---- further maps for the searches: each has as many abstract labels as the exercise's own ---- */

/* Low tiles from high ones, and two more halves. */
static const uint8_t tiles_maps[] = {2, 0, 0, 0, 0, 0, 1, 1, 1, 1,  //
                                     2, 0, 0, 1, 1, 0, 0, 1, 1, 0,  //
                                     2, 0, 0, 0, 1, 1, 0, 0, 1, 1};

/* Odd pancakes from even ones, pairs by turns, those in the middle from the others. */
static const uint8_t pancake_maps[] = {2, 0, 1, 0, 1, 0, 1, 0, 1, 0, 1, 0,  //
                                       2, 0, 0, 1, 1, 0, 0, 1, 1, 0, 0, 1,  //
                                       2, 0, 0, 0, 1, 1, 1, 1, 1, 0, 0, 0};

/* With four abstract labels the table of the slots is as large as can be: here it has three. */
static const uint8_t slots_smaller_map[] = {3, 0, 1, 1, 2, 2, 2};
static const uint8_t slots_maps[] = {3, 0, 1, 2, 0, 1, 2,  //
                                     3, 0, 1, 2, 2, 1, 1,  //
                                     3, 0, 1, 2, 1, 1, 2};

/* Low labels from high ones, and two more halves. All four tables together are as large as can be. */
static const uint8_t many_rules_maps[] = {2, 0, 0, 0, 0, 1, 1, 1,  //
                                          2, 0, 0, 1, 1, 0, 0, 1,  //
                                          2, 0, 1, 1, 0, 0, 1, 1};

const struct search_input search_inputs[SEARCHES] = {
    {"tiles", "tiles", make_tiles, tiles_maps, NULL},
    {"pancake", "pancake", make_pancake, pancake_maps, NULL},
    {"slots", "slots", make_slots, slots_maps, slots_smaller_map},
    {"many_rules", "64 rules", make_many_rules, many_rules_maps, NULL},
};

size_t make_for_maps(const struct search_input *search, unsigned maps, struct input *input, struct query *query) {
  search->make(input, query);
  query->visits = MOST_VISITS;
  unsigned labels = input->block[1];
  if (search->smaller_map) {
    input->block[2] = search->smaller_map[0];
    memcpy(input->block + HEAD_LENGTH, search->smaller_map + 1, labels);
  }
  return (maps - 1) * (1 + labels);
}

const struct search_input *search_named(const char *name) {
  for (unsigned k = 0; k < SEARCHES; k++) {
    if (strcmp(search_inputs[k].name, name) == 0) return &search_inputs[k];
  }
  return NULL;
}

/* ---- a batch of queries for each search ---- */

/* Makes a state into what a rule makes of it; false where the rule does not apply. In the rules of the searches no
 * variable stands twice on the left, so that constants alone decide that. */
static bool follow_rule(const struct exercise *e, unsigned r, uint8_t *state) {
  const uint8_t *left = left_side(e, r), *right = right_side(e, r);
  uint8_t bound[BEHIND_VARIABLES];
  for (unsigned i = 0; i < e->positions; i++) {
    if (is_label(left[i]) && left[i] != state[i]) return false;
    if (is_variable(left[i])) bound[left[i]] = state[i];
  }
  for (unsigned i = 0; i < e->positions; i++) {
    if (right[i] != DASH) state[i] = is_label(right[i]) ? right[i] : bound[right[i]];
  }
  return true;
}

/* Whether one of the first queries has this start. */
static bool is_start(const struct query *queries, unsigned count, const uint8_t *state, unsigned positions) {
  unsigned q = 0;
  while (q < count && memcmp(queries[q].start, state, positions) != 0) q++;
  return q < count;
}

/* The goal of a search is a state, and each of its rules is undone by one of the same cost: so the states that rules
 * lead to from the goal, taken in order, are those from which fewest rules lead there. */
void make_batch(const struct search_input *search, struct input *input, struct query_batch *batch) {
  search->make(input, &batch->queries[0]);
  struct exercise e = open_block(input->block);
  memcpy(batch->queries[0].start, goal_at(&e, 0), e.positions);
  unsigned count = 1;
  for (unsigned q = 0; count < BATCH_SIZE; q++) {
    for (unsigned r = 0; r < e.rules && count < BATCH_SIZE; r++) {
      struct query next = batch->queries[q];
      if (!follow_rule(&e, r, next.start) || is_start(batch->queries, count, next.start, e.positions)) continue;
      batch->queries[count++] = next;
    }
  }
  uint8_t *end = batch->records;
  for (unsigned q = 0; q < BATCH_SIZE; q++) end = write_query(end, &batch->queries[q], e.positions);
  batch->length = (size_t)(end - batch->records);
}

/* ---- for tables: seven digits below 4, or 14 below 2 ---- */

enum { DIGITS = 7, BASE = 4, BITS = 14 };

/* A counter that goes down to 0: a digit falls by one where all below it are 0, and these become the highest. The
 * lowest digit is the last position, or the first one where it is reversed. From the highest number to the goal it
 * takes 16,383 rules. */
void make_counter(struct input *input, bool reversed) {
  begin(input, DIGITS, BASE, BASE, NULL);
  for (unsigned falling = DIGITS; falling-- > 0;) {
    for (uint8_t digit = 1; digit < BASE; digit++) {
      uint8_t *left = add_rule(input, 2);
      uint8_t *right = left + DIGITS;
      for (unsigned below = 0; below <= falling; below++) {
        unsigned at = reversed ? below : DIGITS - 1 - below;
        left[at] = below < falling ? 0 : digit;
        right[at] = below < falling ? BASE - 1 : digit - 1;
      }
    }
  }
  add_even_goal(input, 0);
}

/* Rings: a ring turns where the one below it is 1 and all below that are 0, which makes one long walk through all
 * states. */
void make_rings(struct input *input) {
  begin(input, BITS, 2, 2, NULL);
  for (unsigned ring = 0; ring < BITS; ring++) {
    for (uint8_t old = 0; old < 2; old++) {
      uint8_t *left = add_rule(input, 1);
      uint8_t *right = left + BITS;
      for (unsigned below = 0; below < ring; below++) left[BITS - 1 - below] = below + 1 == ring;
      left[BITS - 1 - ring] = old;
      right[BITS - 1 - ring] = !old;
    }
  }
  add_even_goal(input, 0);
}

/* Numbers that look random and are the same in every run. */
static unsigned next_random(uint64_t *seed, unsigned below) {
  *seed = *seed * UINT64_C(6364136223846793005) + UINT64_C(1442695040888963407);
  return (unsigned)((*seed >> 33) % below);
}

/* A random left term: one in six is a constant, so that a rule applies to a fair part of the states. */
static uint8_t random_left(uint64_t *seed) {
  unsigned kind = next_random(seed, 12);
  if (kind < 2) return (uint8_t)kind;
  if (kind < 7) return (uint8_t)(FIRST_VARIABLE + next_random(seed, 12));
  return DASH;
}

/* A random right term: a constant, a dash, or a left term of the rule, which binds what it names. */
static uint8_t random_right(uint64_t *seed, const uint8_t *left) {
  unsigned kind = next_random(seed, 16);
  if (kind < 2) return (uint8_t)kind;
  return kind < 8 ? left[next_random(seed, BITS)] : DASH;
}

void make_random_rules(struct input *input) {
  uint64_t seed = 7;
  begin(input, BITS, 2, 2, NULL);
  for (unsigned r = 0; r < MOST_RULES; r++) {
    uint8_t *left = add_rule(input, 1 + next_random(&seed, 255));
    uint8_t *right = left + BITS;
    for (unsigned i = 0; i < BITS; i++) left[i] = random_left(&seed);
    for (unsigned i = 0; i < BITS; i++) right[i] = random_right(&seed, left);
  }
  add_even_goal(input, 1);
}

/* ---- for opening ---- */

/* Input E of the specification: three positions, six rules. */
void make_small(struct input *input) {
  static const uint8_t map[3] = {0, 1, 1};
  static const uint8_t goal[3] = {2, 1, 0};
  begin(input, 3, 3, 2, map);
  for (unsigned i = 0; i < 2; i++) {
    add_exchange(input, 1, i, i + 1);
    add_exchange(input, 1, i + 1, i);
  }
  add_exchange(input, 3, 0, 2);
  add_exchange(input, 3, 2, 0);
  add_goal(input, goal);
  write_text(input);
}

/* The largest block there is: 16 positions and labels, 64 rules, 8 goals. The variable 0x1F is bound nowhere. */
void make_largest(struct input *input) {
  begin(input, MOST_POSITIONS, MOST_LABELS, 1, NULL);
  for (unsigned r = 0; r < MOST_RULES; r++) {
    uint8_t *left = add_rule(input, r);
    uint8_t *right = left + MOST_POSITIONS;
    for (unsigned i = 0; i + 1 < MOST_POSITIONS; i++) {
      left[i] = (uint8_t)((i + r) % 3 == 0 ? i : FIRST_VARIABLE + i);
      right[i] = left[MOST_POSITIONS - 2 - i];
    }
  }
  for (unsigned g = 0; g < MOST_GOALS; g++) add_even_goal(input, (uint8_t)(g % 2 ? g : FIRST_VARIABLE + g));
  write_text(input);
}

void make_damaged(struct input *input) {
  make_largest(input);
  struct exercise e = open_block(input->block);
  input->block[e.goals_at - 1] = BEHIND_VARIABLES - 1;
  write_text(input);
}
