/* The C interface of Mikjuqan, a planner for exercises written as PSVN rules.
 *
 * Link libmikjuqan.a (README.md says how to build it). Nothing else is needed: the library allocates nothing, keeps
 * nothing between calls, calls nothing of the C library but memcpy and memset, and may be called from several threads.
 *
 * Every call takes whatever it is handed and refuses what is wrong with a number (MIKJUQAN_REFUSED_.. below). A
 * refused call writes nowhere, and every other member of its answer is 0, a goal MIKJUQAN_NO_GOAL. An accepted call
 * writes at the front of its buffer; what stands behind that keeps its contents.
 *
 * A buffer is a pointer and the number of its elements: bytes, or 32-bit entries for a table. The pointer may be NULL
 * where the length is 0, in every call. A buffer that is written overlaps no other buffer of the same call.
 */
#ifndef MIKJUQAN_H
#define MIKJUQAN_H

#include <stddef.h>
#include <stdint.h>

#ifdef __cplusplus
extern "C" {
#endif

/* The version of this interface. */
#define MIKJUQAN_VERSION "0.3.0"

/* ---- sizes: buffers of these lengths are long enough for every exercise ---- */

#define MIKJUQAN_POSITIONS 16        /* labels of a state */
#define MIKJUQAN_BLOCK_LENGTH 2261   /* bytes of a block, also of a relabelled one and of one read from text */
#define MIKJUQAN_MAPS_LENGTH 51      /* bytes of further maps */
#define MIKJUQAN_TABLE_LENGTH 16384  /* entries of a table, and of all tables together */
#define MIKJUQAN_PLAN_LENGTH 64      /* bytes of a plan, and the largest step limit */
#define MIKJUQAN_LIST_LENGTH 4096    /* the longest list that is replayed */
#define MIKJUQAN_QUERIES 256         /* query records that one call takes */
#define MIKJUQAN_LIMITS_LENGTH 9     /* bytes of a query record behind its start */
#define MIKJUQAN_ANSWER_LENGTH 75    /* bytes of an answer record */
#define MIKJUQAN_ANSWER_PLAN 11      /* those of them in front of a plan */

/* The entry 'no path' of a table. */
#define MIKJUQAN_NO_PATH UINT32_C(4294967295)

/* No goal. Goals have numbers from 0 on, in the order in which they stand in the block. */
#define MIKJUQAN_NO_GOAL 255

/* ---- refusals ----
 * The lowest number wins, but 14 and 15 come behind 7 and before 8, and 16 comes behind 11 and before 12; the order of
 * mikjuqan_read_exercise is 1, 2 (head line), 3, 2 (others), 11, 5, 6, 7. Each comment begins with the number, in
 * decimal and as the two digits that the program `par` prints. */

enum {
  MIKJUQAN_ACCEPTED = 0,
  MIKJUQAN_REFUSED_CHARACTER = 1,    /* 1 = 01: text with another character than 0 to 9, A to F and line feed, a line
                                        with an odd number of digits, or a last line that does not end */
  MIKJUQAN_REFUSED_LINE = 2,         /* 2 = 02: text whose head line is not ten digits, or with a line that is
                                        missing, extra or of another length than the head asks */
  MIKJUQAN_REFUSED_HEAD = 3,         /* 3 = 03: fewer than five bytes, or a number of the head out of its limits */
  MIKJUQAN_REFUSED_LENGTH = 4,       /* 4 = 04: the block is not as long as its head asks */
  MIKJUQAN_REFUSED_MAP = 5,          /* 5 = 05: a map byte is not below K */
  MIKJUQAN_REFUSED_TERM = 6,         /* 6 = 06: a byte of a rule or a goal is no term, or a constant not below L */
  MIKJUQAN_REFUSED_UNBOUND = 7,      /* 7 = 07: a variable on the right of a rule does not stand on its left */
  MIKJUQAN_REFUSED_STATE = 8,        /* 8 = 08: a state has another number of labels than n, or one not below L */
  MIKJUQAN_REFUSED_RULE = 9,         /* 9 = 09: a rule number is not below R, also behind a rule that is stuck */
  MIKJUQAN_REFUSED_LIMIT = 10,       /* 10 = 0A: the step limit is over 64, or a list of rules over 4,096 */
  MIKJUQAN_REFUSED_BUFFER = 11,      /* 11 = 0B: the buffer is shorter than what may be written */
  MIKJUQAN_REFUSED_TABLE_SHORT = 12, /* 12 = 0C: the table has fewer entries than there are abstract states, those of
                                        all maps together */
  MIKJUQAN_REFUSED_TABLE_FAILS = 13, /* 13 = 0D: the table fails the lower-bound test, or one of several does */
  MIKJUQAN_REFUSED_MAPS = 14,        /* 14 = 0E: there are more than three further maps, or their bytes are not K and
                                        L bytes for each */
  MIKJUQAN_REFUSED_MAP_RANGE = 15,   /* 15 = 0F: the K of a further map is not 1 to L, a byte of it is not below its
                                        K, or all tables together have more than 16,384 entries */
  MIKJUQAN_REFUSED_RECORDS = 16      /* 16 = 10: there are no query records or more than 256, their bytes are no whole
                                        number of records, or the answers do not fit */
};

/* What a number in `refusal` says, as a sentence without its full stop. The text lasts as long as the program. */
static inline const char *mikjuqan_refusal_text(uint32_t refusal) {
  switch (refusal) {
    case MIKJUQAN_ACCEPTED: return "the call is accepted";
    case MIKJUQAN_REFUSED_CHARACTER: return "the text holds a wrong character, an odd line or an unended one";
    case MIKJUQAN_REFUSED_LINE: return "a line is missing, extra or of wrong length";
    case MIKJUQAN_REFUSED_HEAD: return "the head is short or out of limits";
    case MIKJUQAN_REFUSED_LENGTH: return "the block is not as long as its head asks";
    case MIKJUQAN_REFUSED_MAP: return "a map byte is no abstract label";
    case MIKJUQAN_REFUSED_TERM: return "a byte is no term, or a constant is no label";
    case MIKJUQAN_REFUSED_UNBOUND: return "a right variable does not stand on the left";
    case MIKJUQAN_REFUSED_STATE: return "a state has a wrong length or a byte that is no label";
    case MIKJUQAN_REFUSED_RULE: return "there is no such rule";
    case MIKJUQAN_REFUSED_LIMIT: return "the step limit is over 64, or the list is over 4,096";
    case MIKJUQAN_REFUSED_BUFFER: return "the buffer is too short";
    case MIKJUQAN_REFUSED_TABLE_SHORT: return "the table is too short";
    case MIKJUQAN_REFUSED_TABLE_FAILS: return "the table fails the lower-bound test";
    case MIKJUQAN_REFUSED_MAPS: return "there are more than three further maps, or a part of one";
    case MIKJUQAN_REFUSED_MAP_RANGE: return "a further map is out of range, or the tables have too many entries";
    case MIKJUQAN_REFUSED_RECORDS: return "the queries are none, over 256 or not whole, or the answers do not fit";
    default: return "no refusal has this number";
  }
}

/* ---- answers: `refusal` is 0, or the number of the refusal; all else is then 0, a goal MIKJUQAN_NO_GOAL ---- */

/* Yes (1) or no (0). */
typedef struct {
  uint32_t refusal;
  uint32_t yes;
} mikjuqan_decision;

/* How many bytes were written. */
typedef struct {
  uint32_t refusal;
  size_t bytes;
} mikjuqan_length;

/* An estimate, which is an entry of a table; MIKJUQAN_NO_PATH is one. */
typedef struct {
  uint32_t refusal;
  uint32_t entry;
} mikjuqan_entry;

/* The goal that a state meets, the one with the lowest number where it meets several; MIKJUQAN_NO_GOAL where it meets
 * none. */
typedef struct {
  uint32_t refusal;
  uint8_t goal;
} mikjuqan_goal;

/* Where a replay ends: how many rules were applied, what they cost, and the goal that the state there meets, told as
 * in mikjuqan_goal. Where it is stuck, `steps` is the index of the rule that does not apply, and `goal` is
 * MIKJUQAN_NO_GOAL, even if the state meets one. */
typedef struct {
  size_t steps;
  uint32_t cost;
  uint8_t goal;
} mikjuqan_run_end;

/* How a replay ends: done (`stuck` is 0, and `end.steps` the length of the list), or stuck (1). */
typedef struct {
  uint32_t refusal;
  uint32_t stuck;
  mikjuqan_run_end end;
} mikjuqan_replay;

/* A plan that was found: how many rules it has, what they cost, the visits that were made to find it, and the goal
 * that its last state meets, told as in mikjuqan_goal. */
typedef struct {
  size_t steps;
  uint32_t cost;
  uint32_t visits;
  uint8_t goal;
} mikjuqan_plan;

enum { MIKJUQAN_FOUND = 0, MIKJUQAN_NO_PLAN = 1, MIKJUQAN_SPENT = 2 };

/* What a search answers. Without a plan its steps and cost are 0 and its goal is MIKJUQAN_NO_GOAL; its visits are told
 * in each case. */
typedef struct {
  uint32_t refusal;
  uint32_t status;
  mikjuqan_plan plan;
} mikjuqan_search;

/* ---- the exercise ----
 * A block begins with five bytes, its head: n, L, K, R, G. A state has n positions and there are L labels, at least
 * one of each and no more than 16. There are K abstract labels, at least one and no more than L, and so few that a
 * table of MIKJUQAN_TABLE_LENGTH entries holds all abstract states, of which there are K to the power n. The number of
 * rules, R, is at most 64, and may be 0; that of goals, G, is at most 8, and at least 1. Behind the head stand the map
 * (a byte for each label), the rules (a cost, then n terms of the left side and n of the right) and the goals (n terms
 * each). A term is 0x00 to 0x0F for a label, 0x10 to 0x1F for a variable, 0xFF for a dash. A state is n labels. */

/* Reads an exercise from its lines of hexadecimal digits and writes the block. Refused with 1, 2, 3, 11, 5, 6, 7. */
mikjuqan_length mikjuqan_read_exercise(const uint8_t *text, size_t text_length, uint8_t *out, size_t out_length);

/* Whether a block is accepted: 0, or 3 to 7. */
uint32_t mikjuqan_check_block(const uint8_t *block, size_t block_length);

/* Writes the relabelled block, which has K map bytes. Refused with 3 to 7, 11. */
mikjuqan_length mikjuqan_relabel_block(const uint8_t *block, size_t block_length, uint8_t *out, size_t out_length);

/* ---- states and rules; `out` has room for n labels, also where nothing will be written ---- */

/* Yes where the rule applies, and the new state is written. Refused with 3 to 7, 8, 9, 11. */
mikjuqan_decision mikjuqan_apply_rule(const uint8_t *block, size_t block_length, size_t rule, const uint8_t *state,
                                      size_t state_length, uint8_t *out, size_t out_length);

/* The goal that the state meets. Refused with 3 to 7, 8. */
mikjuqan_goal mikjuqan_test_goals(const uint8_t *block, size_t block_length, const uint8_t *state,
                                  size_t state_length);

/* Yes where some state is taken to `state` by the rule, and the first one in rank order is written. Refused with 3 to
 * 7, 8, 9, 11. */
mikjuqan_decision mikjuqan_first_predecessor(const uint8_t *block, size_t block_length, size_t rule,
                                             const uint8_t *state, size_t state_length, uint8_t *out,
                                             size_t out_length);

/* The same for the next one after `earlier`, which may be any state. Refused with 3 to 7, 8 (both states), 9, 11. */
mikjuqan_decision mikjuqan_next_predecessor(const uint8_t *block, size_t block_length, size_t rule,
                                            const uint8_t *state, size_t state_length, const uint8_t *earlier,
                                            size_t earlier_length, uint8_t *out, size_t out_length);

/* Yes where the rule is reversible by form. Refused with 3 to 7, 9. */
mikjuqan_decision mikjuqan_test_reversible(const uint8_t *block, size_t block_length, size_t rule);

/* Replays a list of rule numbers, one a byte, and writes the state where it ends, which is the start where the list
 * has length 0. Refused with 3 to 7, 8, 9, 10, 11. */
mikjuqan_replay mikjuqan_replay_run(const uint8_t *block, size_t block_length, const uint8_t *start,
                                    size_t start_length, const uint8_t *list, size_t list_length, uint8_t *out,
                                    size_t out_length);

/* ---- tables ----
 * A table has K to the power n entries, one for each rank. Each call below may be lent up to three further maps beside
 * the block's own; NULL and 0 lend none. A further map is a byte, its own K, and L map bytes, each below that K; the
 * next one stands directly behind. Each map has a table: that of the block's own map stands first in `table`, and those
 * of the further maps behind it, in their order. All together have at most MIKJUQAN_TABLE_LENGTH entries; those behind
 * the last table do not count and are not written. The estimate of a state is the largest of its entries, of which
 * MIKJUQAN_NO_PATH is above all. */

/* Fills all tables with the least costs, each under its own map: 0, or refused with 3 to 7, 14, 15, 12. Needs at most
 * 235 KiB of stack. */
uint32_t mikjuqan_fill_table(const uint8_t *block, size_t block_length, const uint8_t *maps, size_t maps_length,
                             uint32_t *table, size_t table_length);

/* Yes where each table passes the lower-bound test, under its own map. Refused with 3 to 7, 14, 15, 12. Needs at most
 * 96 KiB of stack. */
mikjuqan_decision mikjuqan_test_table(const uint8_t *block, size_t block_length, const uint8_t *maps,
                                      size_t maps_length, const uint32_t *table, size_t table_length);

/* The estimate of a state; the tables are not tested. Refused with 3 to 7, 14, 15, 8, 12. */
mikjuqan_entry mikjuqan_look_up_estimate(const uint8_t *block, size_t block_length, const uint8_t *maps,
                                         size_t maps_length, const uint8_t *state, size_t state_length,
                                         const uint32_t *table, size_t table_length);

/* ---- the search ---- */

/* The limits of a search: the most rules of a plan, which are at most MIKJUQAN_PLAN_LENGTH, the highest cost of a
 * plan, and the most visits. */
typedef struct {
  size_t steps;
  uint32_t cost;
  uint32_t visits;
} mikjuqan_limits;

/* Finds a cheapest plan from a start within the limits, by any tables that pass the test; further maps and their
 * tables are lent as above. A plan that is found is written, one rule number a byte; `plan` has room for `limits.steps`
 * bytes, also where the plan is shorter. Refused with 3 to 7, 14, 15, 8, 10, 11, 12, 13. Needs at most 320 KiB of
 * stack. */
mikjuqan_search mikjuqan_find_plan(const uint8_t *block, size_t block_length, const uint8_t *maps, size_t maps_length,
                                   const uint8_t *start, size_t start_length, mikjuqan_limits limits,
                                   const uint32_t *table, size_t table_length, uint8_t *plan, size_t plan_length);

/* ---- many searches in one call ----
 * A query record is n + MIKJUQAN_LIMITS_LENGTH bytes, those of a query line of `par`: the start, and the limits in the
 * order of mikjuqan_limits, steps as one byte, cost and visits as four each, the high byte first. An answer record is
 * MIKJUQAN_ANSWER_LENGTH bytes, first those of the line that `par` prints, here in hexadecimal, then zeros:
 *
 *   found      00, goal, steps, cost (four bytes, the high byte first), visits (four), the plan
 *   no plan    01, steps and cost, which are 0, visits
 *   spent      02, likewise
 *   refused    FF, the number, which is 08 or 0A
 *
 * Only a plan has a goal: steps stand at offset 2 where one is found, and at offset 1 where none is. */

/* Answers query records, which stand back to back, with an answer record for each: what mikjuqan_find_plan tells of it
 * with the same maps and tables. A record whose start is no state (8), or whose step limit is over 64 (10), is refused
 * by itself, and the others go on. Tells the length of all answer records. The call itself is refused with 3 to 7, 14,
 * 15, 16, 12, 13. Needs at most 320 KiB of stack. */
mikjuqan_length mikjuqan_find_plans(const uint8_t *block, size_t block_length, const uint8_t *maps, size_t maps_length,
                                    const uint8_t *queries, size_t queries_length, const uint32_t *table,
                                    size_t table_length, uint8_t *answers, size_t answers_length);

/* Writes limits as they stand in a query record behind the start: MIKJUQAN_LIMITS_LENGTH bytes. A step limit above 255
 * is written as 255, which is refused with 10 as well. */
static inline void mikjuqan_write_limits(mikjuqan_limits limits, uint8_t *out) {
  out[0] = limits.steps < 255 ? (uint8_t)limits.steps : 255;
  for (int i = 0; i < 4; i++) {
    out[1 + i] = (uint8_t)(limits.cost >> (24 - 8 * i));
    out[5 + i] = (uint8_t)(limits.visits >> (24 - 8 * i));
  }
}

/* What an answer record holds, told as mikjuqan_find_plan tells it: for a record that is refused its number stands in
 * `refusal`. The rules of a plan stand in the record itself, from MIKJUQAN_ANSWER_PLAN on. */
static inline mikjuqan_search mikjuqan_read_answer(const uint8_t *record) {
  mikjuqan_search told = {0, 0, {0, 0, 0, MIKJUQAN_NO_GOAL}};
  if (record[0] == 0xFF) {
    told.refusal = record[1];
    return told;
  }
  told.status = record[0];
  const uint8_t *numbers = record + 1;
  if (told.status == MIKJUQAN_FOUND) told.plan.goal = *numbers++;
  told.plan.steps = numbers[0];
  for (int i = 0; i < 4; i++) {
    told.plan.cost = told.plan.cost << 8 | numbers[1 + i];
    told.plan.visits = told.plan.visits << 8 | numbers[5 + i];
  }
  return told;
}

#ifdef __cplusplus
}
#endif

#endif
