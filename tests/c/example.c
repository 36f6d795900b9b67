/* Every call of the library on one exercise, as a program that uses it would make them, those that take further maps
 * with and without them, those that tell a goal on a second exercise, and every buffer of every call once as NULL.
 *
 * Build it in the repository's directory, once tools/build has made the library, as C or as C++:
 *
 *   gcc -std=c11 tests/c/example.c tests/c/texts.c target/staticlib/libmikjuqan.a
 *   g++ -std=c++17 tests/c/example.c tests/c/texts.c target/staticlib/libmikjuqan.a
 *
 * Three slots hold the labels 0 (empty), 1 and 2. Rules 0 to 3 move a label to an empty neighbour at cost 1, rules 4
 * and 5 move one between the ends at cost 3. For the table labels 1 and 2 count as one. Goal 0 is <2,1,0>.
 */
#include "../../include/mikjuqan.h"
#include "findings.h"

#include <stdio.h>
#include <string.h>

static const char text[] =
    "0303020601\n" /* 3 positions, 3 labels, 2 abstract labels, 6 rules, 1 goal */
    "000101\n"     /* label 0 stays 0, labels 1 and 2 become 1 */
    "011000FF0010FF\n"
    "010010FF1000FF\n"
    "01FF1000FF0010\n"
    "01FF0010FF1000\n"
    "0310FF0000FF10\n"
    "0300FF1010FF00\n"
    "020100\n";

enum { POSITIONS = 3, RULES = 6, ENTRIES = 8, STEPS = 8 };

static const uint8_t start[POSITIONS] = {1, 2, 0};
static const uint8_t goal[POSITIONS] = {2, 1, 0};
static const uint8_t list[] = {2, 0, 5, 5};

static int failures = 0;

void expect(int holds, const char *finding) {
  printf("%s %s\n", holds ? "yes:" : "NO: ", finding);
  if (!holds) {
    failures++;
  }
}

static int same(const uint8_t *state, uint8_t first, uint8_t second, uint8_t third) {
  return state[0] == first && state[1] == second && state[2] == third;
}

/* Limits by the names of their members. */
static mikjuqan_limits within(size_t steps, uint32_t cost, uint32_t visits) {
  mikjuqan_limits limits;
  limits.steps = steps;
  limits.cost = cost;
  limits.visits = visits;
  return limits;
}

enum { QUERY = POSITIONS + MIKJUQAN_LIMITS_LENGTH };

/* Writes a query record. */
static void write_query(uint8_t *record, const uint8_t *state, mikjuqan_limits limits) {
  memcpy(record, state, POSITIONS);
  mikjuqan_write_limits(limits, record + POSITIONS);
}

/* ---- the exercise ---- */

/* Reads the exercise into `block`, and gives its length. */
static size_t read_block(uint8_t *block) {
  mikjuqan_length read =
      mikjuqan_read_exercise((const uint8_t *)text, strlen(text), block, MIKJUQAN_BLOCK_LENGTH);
  expect(read.refusal == MIKJUQAN_ACCEPTED && read.bytes == 53, "the text is a block of 53 bytes");
  expect(mikjuqan_check_block(block, read.bytes) == MIKJUQAN_ACCEPTED, "the block is accepted");

  read = mikjuqan_read_exercise((const uint8_t *)text, strlen(text) - 1, block, MIKJUQAN_BLOCK_LENGTH);
  expect(read.refusal == MIKJUQAN_REFUSED_CHARACTER && read.bytes == 0, "an unended last line is refused with 1");
  expect(mikjuqan_check_block(block, 52) == MIKJUQAN_REFUSED_LENGTH, "a block that is cut short is refused with 4");
  return 53;
}

static void relabel(const uint8_t *block, size_t block_length) {
  uint8_t out[MIKJUQAN_BLOCK_LENGTH] = {0};
  mikjuqan_length relabelled = mikjuqan_relabel_block(block, block_length, out, sizeof out);
  expect(relabelled.refusal == MIKJUQAN_ACCEPTED && relabelled.bytes == 52,
         "the relabelled block has a map of two labels, not three");
  expect(same(out + 49, 1, 1, 0), "its goal is <1,1,0>");

  relabelled = mikjuqan_relabel_block(block, block_length, out, 51);
  expect(relabelled.refusal == MIKJUQAN_REFUSED_BUFFER && relabelled.bytes == 0,
         "a buffer of 51 bytes is refused with 11");
}

/* ---- states and rules ---- */

static int meets(mikjuqan_goal met, uint8_t number) { return met.refusal == MIKJUQAN_ACCEPTED && met.goal == number; }

static void apply_and_test(const uint8_t *block, size_t block_length) {
  uint8_t out[POSITIONS] = {9, 9, 9};
  mikjuqan_decision applied = mikjuqan_apply_rule(block, block_length, 0, start, POSITIONS, out, POSITIONS);
  expect(applied.refusal == MIKJUQAN_ACCEPTED && !applied.yes && same(out, 9, 9, 9),
         "rule 0 does not apply in <1,2,0>, and nothing is written");
  applied = mikjuqan_apply_rule(block, block_length, 2, start, POSITIONS, out, POSITIONS);
  expect(applied.refusal == MIKJUQAN_ACCEPTED && applied.yes && same(out, 1, 0, 2), "rule 2 leads to <1,0,2>");
  applied = mikjuqan_apply_rule(block, block_length, RULES, start, POSITIONS, out, POSITIONS);
  expect(applied.refusal == MIKJUQAN_REFUSED_RULE && !applied.yes && same(out, 1, 0, 2), "rule 6 is refused with 9");

  expect(meets(mikjuqan_test_goals(block, block_length, goal, POSITIONS), 0), "<2,1,0> meets goal 0");
  expect(meets(mikjuqan_test_goals(block, block_length, start, POSITIONS), MIKJUQAN_NO_GOAL), "<1,2,0> meets none");
  mikjuqan_goal met = mikjuqan_test_goals(block, block_length, goal, POSITIONS - 1);
  expect(met.refusal == MIKJUQAN_REFUSED_STATE && met.goal == MIKJUQAN_NO_GOAL,
         "a state of two labels is refused with 8");
}

static void step_back(const uint8_t *block, size_t block_length) {
  static const uint8_t state[POSITIONS] = {1, 0, 2};
  uint8_t out[POSITIONS] = {9, 9, 9};
  mikjuqan_decision found = mikjuqan_first_predecessor(block, block_length, 2, state, POSITIONS, out, POSITIONS);
  expect(found.refusal == MIKJUQAN_ACCEPTED && found.yes && same(out, 1, 2, 0), "rule 2 leads there from <1,2,0>");
  uint8_t earlier[POSITIONS];
  memcpy(earlier, out, POSITIONS);
  found = mikjuqan_next_predecessor(block, block_length, 2, state, POSITIONS, earlier, POSITIONS, out, POSITIONS);
  expect(found.refusal == MIKJUQAN_ACCEPTED && !found.yes, "and from no other state");

  found = mikjuqan_first_predecessor(block, block_length, 2, state, POSITIONS, out, POSITIONS - 1);
  expect(found.refusal == MIKJUQAN_REFUSED_BUFFER && !found.yes, "room for two labels is refused with 11");
  earlier[0] = 3;
  found = mikjuqan_next_predecessor(block, block_length, 2, state, POSITIONS, earlier, POSITIONS, out, POSITIONS);
  expect(found.refusal == MIKJUQAN_REFUSED_STATE && !found.yes, "a label 3 in the earlier state is refused with 8");

  mikjuqan_decision reversible = mikjuqan_test_reversible(block, block_length, 2);
  expect(reversible.refusal == MIKJUQAN_ACCEPTED && reversible.yes, "rule 2 is reversible by form");
  reversible = mikjuqan_test_reversible(block, block_length, 255);
  expect(reversible.refusal == MIKJUQAN_REFUSED_RULE && !reversible.yes, "rule 255 is refused with 9");
}

static int ends(mikjuqan_replay run, uint32_t stuck, size_t steps, uint32_t cost, uint8_t reached) {
  return run.refusal == MIKJUQAN_ACCEPTED && run.stuck == stuck && run.end.steps == steps && run.end.cost == cost &&
         run.end.goal == reached;
}

static void replay(const uint8_t *block, size_t block_length) {
  uint8_t out[POSITIONS] = {9, 9, 9};
  mikjuqan_replay run = mikjuqan_replay_run(block, block_length, start, POSITIONS, list, 3, out, POSITIONS);
  expect(ends(run, 0, 3, 5, 0) && same(out, 2, 1, 0), "rules 2, 0, 5 lead to goal 0, <2,1,0>, in 3 steps at cost 5");
  run = mikjuqan_replay_run(block, block_length, start, POSITIONS, list, 2, out, POSITIONS);
  expect(ends(run, 0, 2, 2, MIKJUQAN_NO_GOAL) && same(out, 0, 1, 2), "without rule 5 they lead to no goal");
  run = mikjuqan_replay_run(block, block_length, start, POSITIONS, list, 4, out, POSITIONS);
  expect(ends(run, 1, 3, 5, MIKJUQAN_NO_GOAL) && same(out, 2, 1, 0),
         "with rule 5 once more they are stuck at <2,1,0>, at index 3, and no goal is told");
  run = mikjuqan_replay_run(block, block_length, start, POSITIONS, list + 1, 3, out, POSITIONS);
  expect(ends(run, 1, 0, 0, MIKJUQAN_NO_GOAL) && same(out, 1, 2, 0), "without rule 2 they are stuck at index 0");

  static const uint8_t zeros[MIKJUQAN_LIST_LENGTH + 1] = {0};
  run = mikjuqan_replay_run(block, block_length, start, POSITIONS, zeros, sizeof zeros, out, POSITIONS);
  expect(run.refusal == MIKJUQAN_REFUSED_LIMIT && !run.stuck && run.end.steps == 0 && run.end.cost == 0 &&
             run.end.goal == MIKJUQAN_NO_GOAL,
         "a list of 4,097 rules is refused with 10");
}

/* ---- tables and the search ---- */

static void fill_and_look_up(const uint8_t *block, size_t block_length, uint32_t *table) {
  static const uint32_t filled[ENTRIES] = {MIKJUQAN_NO_PATH, MIKJUQAN_NO_PATH, MIKJUQAN_NO_PATH, 2,
                                           MIKJUQAN_NO_PATH, 1, 0, MIKJUQAN_NO_PATH};
  expect(mikjuqan_fill_table(block, block_length, NULL, 0, table, ENTRIES) == MIKJUQAN_ACCEPTED &&
             memcmp(table, filled, sizeof filled) == 0,
         "the table is M M M 2 M 1 0 M");
  expect(mikjuqan_fill_table(block, block_length, NULL, 0, table, ENTRIES - 1) == MIKJUQAN_REFUSED_TABLE_SHORT,
         "a table of seven entries is refused with 12");

  mikjuqan_decision passes = mikjuqan_test_table(block, block_length, NULL, 0, table, ENTRIES);
  expect(passes.refusal == MIKJUQAN_ACCEPTED && passes.yes, "the filled table passes the test");
  passes = mikjuqan_test_table(block, block_length, NULL, 0, table, 0);
  expect(passes.refusal == MIKJUQAN_REFUSED_TABLE_SHORT && !passes.yes, "an empty table is refused with 12");

  static const uint8_t far_state[POSITIONS] = {0, 1, 2};
  static const uint8_t lost_state[POSITIONS] = {0, 0, 0};
  mikjuqan_entry estimate =
      mikjuqan_look_up_estimate(block, block_length, NULL, 0, far_state, POSITIONS, table, ENTRIES);
  expect(estimate.refusal == MIKJUQAN_ACCEPTED && estimate.entry == 2, "the estimate of <0,1,2> is 2");
  estimate = mikjuqan_look_up_estimate(block, block_length, NULL, 0, lost_state, POSITIONS, table, ENTRIES);
  expect(estimate.refusal == MIKJUQAN_ACCEPTED && estimate.entry == MIKJUQAN_NO_PATH,
         "from <0,0,0> there is no path");
  estimate = mikjuqan_look_up_estimate(block, 4, NULL, 0, far_state, POSITIONS, table, ENTRIES);
  expect(estimate.refusal == MIKJUQAN_REFUSED_HEAD && estimate.entry == 0, "a block of four bytes is refused with 3");
}

/* Whether a search is refused with a number, and tells nothing else. */
static int is_refused(mikjuqan_search told, uint32_t refusal) {
  return told.refusal == refusal && told.status == 0 && told.plan.steps == 0 && told.plan.cost == 0 &&
         told.plan.visits == 0 && told.plan.goal == MIKJUQAN_NO_GOAL;
}

static int finds(mikjuqan_search told, size_t steps, uint32_t cost, uint32_t visits, uint8_t reached) {
  return told.refusal == MIKJUQAN_ACCEPTED && told.status == MIKJUQAN_FOUND && told.plan.steps == steps &&
         told.plan.cost == cost && told.plan.visits == visits && told.plan.goal == reached;
}

/* Whether a search ends without a plan. */
static int lacks(mikjuqan_search told, uint32_t status, uint32_t visits) {
  return told.refusal == MIKJUQAN_ACCEPTED && told.status == status && told.plan.steps == 0 && told.plan.cost == 0 &&
         told.plan.visits == visits && told.plan.goal == MIKJUQAN_NO_GOAL;
}

static void search(const uint8_t *block, size_t block_length, uint32_t *table) {
  uint8_t plan[STEPS] = {255, 255, 255, 255, 255, 255, 255, 255};
  mikjuqan_limits limits = within(STEPS, 100, 100);
  mikjuqan_search told =
      mikjuqan_find_plan(block, block_length, NULL, 0, start, POSITIONS, limits, table, ENTRIES, plan, STEPS);
  expect(finds(told, 3, 5, 10, 0), "there is a plan of 3 steps at cost 5 to goal 0, found with 10 visits");
  expect(same(plan, 2, 0, 5) && plan[3] == 255, "its rules are 2, 0, 5, and nothing is written behind them");

  mikjuqan_limits lower_cost = within(STEPS, 4, 100);
  told = mikjuqan_find_plan(block, block_length, NULL, 0, start, POSITIONS, lower_cost, table, ENTRIES, plan, STEPS);
  expect(lacks(told, MIKJUQAN_NO_PLAN, 6), "there is none at cost 4, which takes 6 visits to know");
  mikjuqan_limits fewer_visits = within(STEPS, 100, 9);
  told = mikjuqan_find_plan(block, block_length, NULL, 0, start, POSITIONS, fewer_visits, table, ENTRIES, plan, STEPS);
  expect(lacks(told, MIKJUQAN_SPENT, 9), "with 9 visits the search is spent");
  mikjuqan_limits more_steps = within(MIKJUQAN_PLAN_LENGTH + 1, 100, 100);
  told = mikjuqan_find_plan(block, block_length, NULL, 0, start, POSITIONS, more_steps, table, ENTRIES, plan, STEPS);
  expect(is_refused(told, MIKJUQAN_REFUSED_LIMIT), "a step limit of 65 is refused with 10");

  table[6] = 1; /* the goal's own entry */
  told = mikjuqan_find_plan(block, block_length, NULL, 0, start, POSITIONS, limits, table, ENTRIES, plan, STEPS);
  expect(is_refused(told, MIKJUQAN_REFUSED_TABLE_FAILS), "a table with 1 for the goal is refused with 13");
  table[6] = 0;
}

/* ---- further maps ---- */

/* Each is its K, and a byte for each label: all labels are told from one another; 0 and 1 count as one; all three do; 1
 * and 2 do. The tables of the first three have 27, 8 and 1 entries, behind the eight of the block's own. */
static const uint8_t further[] = {3, 0, 1, 2, 2, 0, 0, 1, 1, 0, 0, 0, 2, 0, 1, 1};

enum { MAP = 4, ALL_ENTRIES = ENTRIES + 27 + 8 + 1 };

static void fill_and_look_up_by_maps(const uint8_t *block, size_t length, uint32_t *tables) {
  uint32_t own[ENTRIES];
  tables[ALL_ENTRIES] = 77;
  expect(mikjuqan_fill_table(block, length, NULL, 0, own, ENTRIES) == MIKJUQAN_ACCEPTED &&
             mikjuqan_fill_table(block, length, further, 3 * MAP, tables, ALL_ENTRIES + 1) == MIKJUQAN_ACCEPTED &&
             memcmp(tables, own, sizeof own) == 0 && tables[ALL_ENTRIES - 1] == 0 && tables[ALL_ENTRIES] == 77,
         "with three further maps four tables are filled, the block's own first, and nothing behind them");
  expect(tables[ENTRIES + 21] == 0 && tables[ENTRIES + 15] == 5,
         "by the first of them <2,1,0> has 0 and <1,2,0> has 5");
  expect(mikjuqan_fill_table(block, length, further, 3 * MAP, tables, ALL_ENTRIES - 1) == MIKJUQAN_REFUSED_TABLE_SHORT,
         "43 entries are refused with 12");

  mikjuqan_entry one = mikjuqan_look_up_estimate(block, length, NULL, 0, start, POSITIONS, tables, ENTRIES);
  mikjuqan_entry two = mikjuqan_look_up_estimate(block, length, further, MAP, start, POSITIONS, tables, ALL_ENTRIES);
  expect(one.refusal == MIKJUQAN_ACCEPTED && two.refusal == MIKJUQAN_ACCEPTED && one.entry == 0 && two.entry == 5,
         "the estimate of <1,2,0> is 0 by one map and 5 by two");
  static const uint8_t lost_state[POSITIONS] = {1, 1, 0};
  two = mikjuqan_look_up_estimate(block, length, further, MAP, lost_state, POSITIONS, tables, ALL_ENTRIES);
  expect(two.refusal == MIKJUQAN_ACCEPTED && two.entry == MIKJUQAN_NO_PATH,
         "from <1,1,0> there is no path by the second, and so none by both");
}

static void search_by_maps(const uint8_t *block, size_t length, uint32_t *tables) {
  uint8_t plan[STEPS] = {255, 255, 255, 255, 255, 255, 255, 255};
  mikjuqan_limits limits = within(STEPS, 100, 100);
  mikjuqan_search told = mikjuqan_find_plan(block, length, further, MAP, start, POSITIONS, limits, tables, ALL_ENTRIES,
                                            plan, STEPS);
  expect(finds(told, 3, 5, 4, 0) && same(plan, 2, 0, 5) && plan[3] == 255,
         "by two maps the same plan takes 4 visits, not 10");
  told = mikjuqan_find_plan(block, length, further, 3 * MAP, start, POSITIONS, limits, tables, ALL_ENTRIES, plan,
                            STEPS);
  expect(finds(told, 3, 5, 4, 0) && same(plan, 2, 0, 5), "by four maps as well");
  uint8_t query[QUERY], answer[MIKJUQAN_ANSWER_LENGTH];
  write_query(query, start, limits);
  mikjuqan_length answered = mikjuqan_find_plans(block, length, further, 3 * MAP, query, sizeof query, tables,
                                                 ALL_ENTRIES, answer, sizeof answer);
  expect(answered.refusal == MIKJUQAN_ACCEPTED && finds(mikjuqan_read_answer(answer), 3, 5, 4, 0) &&
             same(answer + MIKJUQAN_ANSWER_PLAN, 2, 0, 5),
         "and in a call for many searches");

  tables[ENTRIES + 21] = 1; /* the goal's own entry in the second table */
  mikjuqan_decision passes = mikjuqan_test_table(block, length, further, 3 * MAP, tables, ALL_ENTRIES);
  expect(passes.refusal == MIKJUQAN_ACCEPTED && !passes.yes, "where one of four tables fails the test, all do");
  passes = mikjuqan_test_table(block, length, NULL, 0, tables, ALL_ENTRIES);
  expect(passes.refusal == MIKJUQAN_ACCEPTED && passes.yes, "without further maps it is not looked at");
  told = mikjuqan_find_plan(block, length, further, MAP, start, POSITIONS, limits, tables, ALL_ENTRIES, plan, STEPS);
  expect(is_refused(told, MIKJUQAN_REFUSED_TABLE_FAILS), "a search with it is refused with 13");
  tables[ENTRIES + 21] = 0;
}

/* Whether all five calls that take further maps are refused with a number. */
static int refuse(const uint8_t *block, size_t length, const uint8_t *maps, size_t maps_length, uint32_t *tables,
                  uint32_t refusal) {
  uint8_t plan[STEPS], query[QUERY], answer[MIKJUQAN_ANSWER_LENGTH];
  const size_t none = 0;
  write_query(query, start, within(STEPS, 9, 9));
  mikjuqan_search told = mikjuqan_find_plan(block, length, maps, maps_length, start, POSITIONS, within(STEPS, 9, 9),
                                            tables, none, plan, STEPS);
  return mikjuqan_fill_table(block, length, maps, maps_length, tables, none) == refusal &&
         mikjuqan_test_table(block, length, maps, maps_length, tables, none).refusal == refusal &&
         mikjuqan_look_up_estimate(block, length, maps, maps_length, start, POSITIONS, tables, none).refusal ==
             refusal &&
         is_refused(told, refusal) &&
         mikjuqan_find_plans(block, length, maps, maps_length, query, QUERY, tables, none, answer, sizeof answer)
                 .refusal == refusal;
}

static void further_maps(const uint8_t *block, size_t length) {
  static uint32_t tables[ALL_ENTRIES + 1];
  fill_and_look_up_by_maps(block, length, tables);
  search_by_maps(block, length, tables);

  static const uint8_t high_k[MAP] = {4, 0, 1, 2}, high_byte[MAP] = {2, 0, 1, 2};
  expect(refuse(block, length, further, 4 * MAP, tables, MIKJUQAN_REFUSED_MAPS), "four further maps: 14");
  expect(refuse(block, length, further, MAP + 1, tables, MIKJUQAN_REFUSED_MAPS), "a map and a byte: 14");
  expect(refuse(block, length, high_k, MAP, tables, MIKJUQAN_REFUSED_MAP_RANGE), "a K above L: 15");
  expect(refuse(block, length, high_byte, MAP, tables, MIKJUQAN_REFUSED_MAP_RANGE), "a byte not below its K: 15");
  expect(refuse(block, length, further, MAP, tables, MIKJUQAN_REFUSED_TABLE_SHORT), "a good map and no table: 12");
}

/* ---- many searches in one call ---- */

enum { ASKED = 6, ANSWERS = ASKED * MIKJUQAN_ANSWER_LENGTH };

static void limits_as_bytes(void) {
  static const uint8_t expected[] = {64, 1, 2, 3, 4, 0xFF, 0xFE, 0xFD, 0xFC, 77};
  uint8_t bytes[MIKJUQAN_LIMITS_LENGTH + 1];
  bytes[MIKJUQAN_LIMITS_LENGTH] = 77;
  mikjuqan_write_limits(within(64, 0x01020304, 0xFFFEFDFC), bytes);
  expect(memcmp(bytes, expected, sizeof expected) == 0, "limits are nine bytes, with the high bytes first");
  mikjuqan_write_limits(within(254, 0, 0), bytes);
  expect(bytes[0] == 254, "a step limit of 254 is written as it is");
  mikjuqan_write_limits(within(SIZE_MAX, 0, 0), bytes);
  expect(bytes[0] == 255, "one that does not fit as 255");
}

/* Whether a record holds these bytes, and zeros behind them. */
static int holds(const uint8_t *record, const uint8_t *bytes, size_t length) {
  for (size_t i = length; i < MIKJUQAN_ANSWER_LENGTH; i++) {
    if (record[i] != 0) return 0;
  }
  return memcmp(record, bytes, length) == 0;
}

static void search_all(const uint8_t *block, size_t length, const uint32_t *table) {
  static const uint8_t no_state[POSITIONS] = {1, 2, 3};
  uint8_t queries[ASKED * QUERY], answers[ANSWERS + 1];
  write_query(queries, start, within(STEPS, 100, 100));
  write_query(queries + QUERY, start, within(STEPS, 100, 9));
  write_query(queries + 2 * QUERY, start, within(STEPS, 4, 100));
  write_query(queries + 3 * QUERY, start, within(MIKJUQAN_PLAN_LENGTH + 1, 100, 100));
  write_query(queries + 4 * QUERY, no_state, within(MIKJUQAN_PLAN_LENGTH + 1, 100, 100));
  write_query(queries + 5 * QUERY, goal, within(0, 0, 1));

  memset(answers, 0xEE, sizeof answers);
  mikjuqan_length told =
      mikjuqan_find_plans(block, length, NULL, 0, queries, sizeof queries, table, ENTRIES, answers, sizeof answers);
  expect(told.refusal == MIKJUQAN_ACCEPTED && told.bytes == ANSWERS && answers[ANSWERS] == 0xEE,
         "six queries in one call: six answers, and nothing behind them");
  const uint8_t *record = answers;
  expect(finds(mikjuqan_read_answer(record), 3, 5, 10, 0) && same(record + MIKJUQAN_ANSWER_PLAN, 2, 0, 5),
         "the first is the plan 2, 0, 5");
  static const uint8_t found[] = {0, 0, 3, 0, 0, 0, 5, 0, 0, 0, 10, 2, 0, 5};
  expect(holds(record, found, sizeof found), "its bytes are those that `par` prints, and zeros");
  record += MIKJUQAN_ANSWER_LENGTH;
  static const uint8_t spent[] = {2, 0, 0, 0, 0, 0, 0, 0, 0, 9};
  expect(lacks(mikjuqan_read_answer(record), MIKJUQAN_SPENT, 9) && holds(record, spent, sizeof spent),
         "the second is spent after 9 visits of its own");
  record += MIKJUQAN_ANSWER_LENGTH;
  expect(lacks(mikjuqan_read_answer(record), MIKJUQAN_NO_PLAN, 6), "for the third there is no plan");
  record += MIKJUQAN_ANSWER_LENGTH;
  static const uint8_t refused[] = {0xFF, MIKJUQAN_REFUSED_LIMIT};
  expect(is_refused(mikjuqan_read_answer(record), MIKJUQAN_REFUSED_LIMIT) && holds(record, refused, sizeof refused),
         "the fourth has a step limit of 65, and is refused by itself with 10");
  record += MIKJUQAN_ANSWER_LENGTH;
  expect(is_refused(mikjuqan_read_answer(record), MIKJUQAN_REFUSED_STATE), "the fifth is no state either: 8");
  record += MIKJUQAN_ANSWER_LENGTH;
  expect(finds(mikjuqan_read_answer(record), 0, 0, 1, 0), "the sixth begins at the goal");
}

/* Records with numbers that are large in every byte. */
static void read_records(void) {
  uint8_t record[MIKJUQAN_ANSWER_LENGTH] = {0, 7, 64, 1, 2, 3, 4, 0xF5, 6, 0xF7, 8};
  mikjuqan_search told = mikjuqan_read_answer(record);
  expect(finds(told, 64, 0x01020304, 0xF506F708, 7), "a plan is read with all bytes of its numbers");
  static const uint8_t no_plan[MIKJUQAN_ANSWER_LENGTH] = {1, 0, 0, 0, 0, 0, 0xF1, 2, 3, 4};
  expect(lacks(mikjuqan_read_answer(no_plan), MIKJUQAN_NO_PLAN, 0xF1020304), "and so are the visits without a plan");
}

static void many_searches(const uint8_t *block, size_t length, uint32_t *table) {
  static uint8_t queries[(MIKJUQAN_QUERIES + 1) * QUERY];
  static uint8_t answers[(MIKJUQAN_QUERIES + 1) * MIKJUQAN_ANSWER_LENGTH];
  limits_as_bytes();
  search_all(block, length, table);
  read_records();

  for (size_t i = 0; i <= MIKJUQAN_QUERIES; i++) write_query(queries + i * QUERY, goal, within(0, 0, 1));
  const size_t all = MIKJUQAN_QUERIES * QUERY;
  mikjuqan_length told =
      mikjuqan_find_plans(block, length, NULL, 0, queries, all, table, ENTRIES, answers, sizeof answers);
  expect(told.refusal == MIKJUQAN_ACCEPTED && told.bytes == MIKJUQAN_QUERIES * MIKJUQAN_ANSWER_LENGTH,
         "256 queries are answered");
  answers[0] = 77;
  told = mikjuqan_find_plans(block, length, NULL, 0, queries, all + QUERY, table, ENTRIES, answers, sizeof answers);
  expect(told.refusal == MIKJUQAN_REFUSED_RECORDS && told.bytes == 0 && answers[0] == 77,
         "257 are refused with 16, and nothing is written");
  told = mikjuqan_find_plans(block, length, NULL, 0, queries, QUERY + 1, table, ENTRIES, answers, sizeof answers);
  expect(told.refusal == MIKJUQAN_REFUSED_RECORDS && told.bytes == 0, "so are a query and a byte");
  told = mikjuqan_find_plans(block, length, NULL, 0, queries, QUERY, table, ENTRIES, answers,
                             MIKJUQAN_ANSWER_LENGTH - 1);
  expect(told.refusal == MIKJUQAN_REFUSED_RECORDS && told.bytes == 0, "and one with room for 74 bytes");
  table[6] = 1; /* the goal's own entry */
  told = mikjuqan_find_plans(block, length, NULL, 0, queries, QUERY, table, ENTRIES, answers, sizeof answers);
  expect(told.refusal == MIKJUQAN_REFUSED_TABLE_FAILS && told.bytes == 0, "a table with 1 for the goal: 13");
  table[6] = 0;
}

/* ---- several goals ---- */

/* One position and five labels, which count as one for the table. Rule k leads from <k> to <k+1>, at cost 1. Goals 0 to
 * 3 are <3>, <1>, <-> and <1>: <1> meets three of them, and every state goal 2. With its last two goals left out it is
 * another exercise, in which <0>, <2> and <4> meet none. */
static void several_goals(void) {
  uint8_t block[] = {1, 5, 1, 4, 4, 0, 0, 0, 0, 0, 1, 0, 1, 1, 1, 2, 1, 2, 3, 1, 3, 4, 3, 1, 0xFF, 1};
  static const uint8_t labels[] = {0, 1, 2, 3, 4}, rules[] = {0, 1, 2, 3};
  static const uint32_t zero[] = {0};
  uint8_t out[STEPS];
  size_t length = sizeof block;
  expect(meets(mikjuqan_test_goals(block, length, labels + 3, 1), 0), "four goals: <3> meets goal 0");
  expect(meets(mikjuqan_test_goals(block, length, labels + 1, 1), 1), "<1> meets goals 1, 2 and 3: the lowest counts");
  expect(meets(mikjuqan_test_goals(block, length, labels, 1), 2), "<0> meets goal 2");
  mikjuqan_limits limits = within(STEPS, 100, 100);
  mikjuqan_search told = mikjuqan_find_plan(block, length, NULL, 0, labels, 1, limits, zero, 1, out, STEPS);
  expect(finds(told, 0, 0, 1, 2), "so the plan from <0> has no rules");

  block[4] = 2;
  length -= 2;
  told = mikjuqan_find_plan(block, length, NULL, 0, labels, 1, limits, zero, 1, out, STEPS);
  expect(finds(told, 1, 1, 3, 1) && out[0] == 0, "two goals: the plan from <0> is rule 0, to goal 1");
  told = mikjuqan_find_plan(block, length, NULL, 0, labels + 2, 1, limits, zero, 1, out, STEPS);
  expect(finds(told, 1, 1, 3, 0) && out[0] == 2, "that from <2> is rule 2, to goal 0");
  told = mikjuqan_find_plan(block, length, NULL, 0, labels + 4, 1, limits, zero, 1, out, STEPS);
  expect(lacks(told, MIKJUQAN_NO_PLAN, 1), "there is none from <4>");

  expect(ends(mikjuqan_replay_run(block, length, labels, 1, rules, 3, out, STEPS), 0, 3, 3, 0),
         "a replay past goal 1 to goal 0");
  expect(ends(mikjuqan_replay_run(block, length, labels + 1, 1, rules + 1, 1, out, STEPS), 0, 1, 1, MIKJUQAN_NO_GOAL),
         "one that leaves goal 1 for no goal");
  expect(ends(mikjuqan_replay_run(block, length, labels + 1, 1, rules, 0, out, STEPS), 0, 0, 0, 1),
         "one of no rules at goal 1");
  expect(ends(mikjuqan_replay_run(block, length, labels + 1, 1, rules, 1, out, STEPS), 1, 0, 0, MIKJUQAN_NO_GOAL),
         "and one that is stuck there");
}

/* ---- NULL, with length 0 ---- */

static void null_text(void) {
  uint8_t out[MIKJUQAN_BLOCK_LENGTH];
  mikjuqan_length read = mikjuqan_read_exercise(NULL, 0, out, sizeof out);
  expect(read.refusal == MIKJUQAN_REFUSED_LINE && read.bytes == 0, "NULL as text: read_exercise is refused with 2");
  read = mikjuqan_read_exercise((const uint8_t *)text, strlen(text), NULL, 0);
  expect(read.refusal == MIKJUQAN_REFUSED_BUFFER && read.bytes == 0, "NULL to read into is refused with 11");
}

static void null_block(const uint32_t *table) {
  uint8_t out[STEPS], query[QUERY], answer[MIKJUQAN_ANSWER_LENGTH];
  uint32_t filled[ENTRIES];
  mikjuqan_limits limits = within(STEPS, 100, 100);
  const uint32_t refused = MIKJUQAN_REFUSED_HEAD;
  expect(mikjuqan_check_block(NULL, 0) == refused, "NULL as block: check_block is refused with 3");
  expect(mikjuqan_relabel_block(NULL, 0, out, STEPS).refusal == refused, "so is relabel_block");
  expect(mikjuqan_test_reversible(NULL, 0, 0).refusal == refused, "and test_reversible");
  expect(mikjuqan_test_goals(NULL, 0, goal, POSITIONS).refusal == refused, "and test_goals");
  expect(mikjuqan_apply_rule(NULL, 0, 2, start, POSITIONS, out, STEPS).refusal == refused, "and apply_rule");
  expect(mikjuqan_first_predecessor(NULL, 0, 2, start, POSITIONS, out, STEPS).refusal == refused,
         "and first_predecessor");
  expect(mikjuqan_next_predecessor(NULL, 0, 2, start, POSITIONS, goal, POSITIONS, out, STEPS).refusal == refused,
         "and next_predecessor");
  expect(mikjuqan_replay_run(NULL, 0, start, POSITIONS, list, 3, out, STEPS).refusal == refused, "and replay_run");
  expect(mikjuqan_fill_table(NULL, 0, NULL, 0, filled, ENTRIES) == refused, "and fill_table");
  expect(mikjuqan_test_table(NULL, 0, NULL, 0, table, ENTRIES).refusal == refused, "and test_table");
  expect(mikjuqan_look_up_estimate(NULL, 0, NULL, 0, start, POSITIONS, table, ENTRIES).refusal == refused,
         "and look_up_estimate");
  mikjuqan_search told = mikjuqan_find_plan(NULL, 0, NULL, 0, start, POSITIONS, limits, table, ENTRIES, out, STEPS);
  expect(is_refused(told, refused), "and find_plan");
  write_query(query, start, limits);
  expect(mikjuqan_find_plans(NULL, 0, NULL, 0, query, QUERY, table, ENTRIES, answer, sizeof answer).refusal == refused,
         "and find_plans");
}

static void null_state(const uint8_t *block, size_t length, const uint32_t *table) {
  uint8_t out[STEPS];
  mikjuqan_limits limits = within(STEPS, 100, 100);
  const uint32_t refused = MIKJUQAN_REFUSED_STATE;
  expect(mikjuqan_test_goals(block, length, NULL, 0).refusal == refused,
         "NULL as state: test_goals is refused with 8");
  expect(mikjuqan_apply_rule(block, length, 2, NULL, 0, out, STEPS).refusal == refused, "so is apply_rule");
  expect(mikjuqan_first_predecessor(block, length, 2, NULL, 0, out, STEPS).refusal == refused,
         "and first_predecessor");
  expect(mikjuqan_next_predecessor(block, length, 2, NULL, 0, goal, POSITIONS, out, STEPS).refusal == refused,
         "and next_predecessor");
  expect(mikjuqan_next_predecessor(block, length, 2, start, POSITIONS, NULL, 0, out, STEPS).refusal == refused,
         "also for the earlier state");
  expect(mikjuqan_replay_run(block, length, NULL, 0, list, 3, out, STEPS).refusal == refused, "and replay_run");
  expect(mikjuqan_look_up_estimate(block, length, NULL, 0, NULL, 0, table, ENTRIES).refusal == refused,
         "and look_up_estimate");
  mikjuqan_search told = mikjuqan_find_plan(block, length, NULL, 0, NULL, 0, limits, table, ENTRIES, out, STEPS);
  expect(is_refused(told, refused), "and find_plan");
}

static void null_table(const uint8_t *block, size_t length) {
  uint8_t plan[STEPS], query[QUERY], answer[MIKJUQAN_ANSWER_LENGTH];
  mikjuqan_limits limits = within(STEPS, 100, 100);
  const uint32_t refused = MIKJUQAN_REFUSED_TABLE_SHORT;
  expect(mikjuqan_fill_table(block, length, NULL, 0, NULL, 0) == refused,
         "NULL as table: fill_table is refused with 12");
  expect(mikjuqan_test_table(block, length, NULL, 0, NULL, 0).refusal == refused, "so is test_table");
  expect(mikjuqan_look_up_estimate(block, length, NULL, 0, start, POSITIONS, NULL, 0).refusal == refused,
         "and look_up_estimate");
  mikjuqan_search told = mikjuqan_find_plan(block, length, NULL, 0, start, POSITIONS, limits, NULL, 0, plan, STEPS);
  expect(is_refused(told, refused), "and find_plan");
  write_query(query, start, limits);
  expect(mikjuqan_find_plans(block, length, NULL, 0, query, QUERY, NULL, 0, answer, sizeof answer).refusal == refused,
         "and find_plans");
}

static void null_queries(const uint8_t *block, size_t length, const uint32_t *table) {
  uint8_t query[QUERY], answer[MIKJUQAN_ANSWER_LENGTH];
  const uint32_t refused = MIKJUQAN_REFUSED_RECORDS;
  write_query(query, start, within(STEPS, 100, 100));
  expect(mikjuqan_find_plans(block, length, NULL, 0, NULL, 0, table, ENTRIES, answer, sizeof answer).refusal == refused,
         "NULL as queries: find_plans is refused with 16");
  expect(mikjuqan_find_plans(block, length, NULL, 0, query, QUERY, table, ENTRIES, NULL, 0).refusal == refused,
         "so it is for NULL to write answers to");
}

static void null_out(const uint8_t *block, size_t length, const uint32_t *table) {
  mikjuqan_limits limits = within(STEPS, 100, 100);
  const uint32_t refused = MIKJUQAN_REFUSED_BUFFER;
  expect(mikjuqan_relabel_block(block, length, NULL, 0).refusal == refused,
         "NULL to write to: relabel_block is refused with 11");
  expect(mikjuqan_apply_rule(block, length, 2, start, POSITIONS, NULL, 0).refusal == refused, "so is apply_rule");
  expect(mikjuqan_first_predecessor(block, length, 2, start, POSITIONS, NULL, 0).refusal == refused,
         "and first_predecessor");
  expect(mikjuqan_next_predecessor(block, length, 2, start, POSITIONS, goal, POSITIONS, NULL, 0).refusal == refused,
         "and next_predecessor");
  expect(mikjuqan_replay_run(block, length, start, POSITIONS, list, 3, NULL, 0).refusal == refused, "and replay_run");
  mikjuqan_search told = mikjuqan_find_plan(block, length, NULL, 0, start, POSITIONS, limits, table, ENTRIES, NULL, 0);
  expect(is_refused(told, refused), "and find_plan");
}

/* NULL is right where nothing is needed: a list of no rules, room for a plan of no steps, and no further maps, as in
 * most calls above. */
static void null_accepted(const uint8_t *block, size_t length, const uint32_t *table) {
  uint8_t out[POSITIONS] = {9, 9, 9};
  mikjuqan_replay run = mikjuqan_replay_run(block, length, start, POSITIONS, NULL, 0, out, POSITIONS);
  expect(ends(run, 0, 0, 0, MIKJUQAN_NO_GOAL) && same(out, 1, 2, 0), "NULL as list: the replay is done at the start");

  mikjuqan_limits no_steps = within(0, 100, 100);
  mikjuqan_search told = mikjuqan_find_plan(block, length, NULL, 0, goal, POSITIONS, no_steps, table, ENTRIES, NULL, 0);
  expect(finds(told, 0, 0, 1, 0), "NULL for a plan of no steps: it is found from <2,1,0>");
  told = mikjuqan_find_plan(block, length, NULL, 0, start, POSITIONS, no_steps, table, ENTRIES, NULL, 0);
  expect(lacks(told, MIKJUQAN_NO_PLAN, 1), "and there is none from <1,2,0>");
}

int main(void) {
  uint8_t block[MIKJUQAN_BLOCK_LENGTH] = {0};
  uint32_t table[ENTRIES] = {0};
  size_t length = read_block(block);
  relabel(block, length);
  apply_and_test(block, length);
  step_back(block, length);
  replay(block, length);
  fill_and_look_up(block, length, table);
  search(block, length, table);
  further_maps(block, length);
  many_searches(block, length, table);
  several_goals();
  null_text();
  null_block(table);
  null_state(block, length, table);
  null_table(block, length);
  null_queries(block, length, table);
  null_out(block, length, table);
  null_accepted(block, length, table);
  check_texts();
  printf("%d not as expected\n", failures);
  return failures != 0;
}
