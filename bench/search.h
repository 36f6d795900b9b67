/* The search of generated code: all of it but the goals and the rules. The file that generate.py writes for an
 * exercise includes this and defines the functions that have no body here.
 *
 * What changes from list to list is handed from call to call, in registers; what stands in memory serves one thread. */
#ifndef BENCH_SEARCH_H
#define BENCH_SEARCH_H

#include "block.h"
#include "generated.h"

#include <string.h>

/* What `visit` gives where the search is over: no overshoot is 0. */
enum { ENDED = 0 };

enum { HASH_BITS = 10 };

/* What every visit of a search sees. A list whose state stands at `end` has as many rules as are allowed. */
static struct {
  const uint32_t *table;
  uint64_t threshold;
  uint32_t visits_left;
  const uint64_t *end;
  uint64_t path[MOST_STEPS + 1];
  struct answer answer;
  uint8_t plan[MOST_STEPS];
} search;

/* How many states of the path have each hash: where none has a state's hash, the state is not on the path. */
static uint8_t hashes[1 << HASH_BITS];

/* ---- what the generated file defines ---- */

/* The word and the rank of a start. */
static uint64_t word_of(const uint8_t *start);
static uint32_t rank_of(const uint8_t *start);

static bool meets_goal(uint64_t word);

/* The lowest number of a goal that a state meets, or NO_GOAL. */
static uint32_t met_goal(uint64_t word);

/* Puts the state of a visited list on the path, at `path`, and visits those of its extensions that are due, in rising
 * rule number. `same_hash` counts the states of the path that have its hash. Gives what `visit` gives. */
static __attribute__((noinline)) uint64_t extend(uint64_t word, uint64_t rank, uint64_t cost, uint64_t least,
                                                 uint64_t *path, uint8_t *same_hash);

/* ---- what it uses ---- */

static inline uint64_t turned(uint64_t word, uint32_t bits) { return word << bits | word >> (-bits & 63); }

/* What the estimate after a rule must be below for a figure below the least overshoot; `room` is what the cost before
 * the rule leaves up to that. So one comparison leaves out what is neither due nor a new least, and the mark with it:
 * this is never above the mark, since the least overshoot is at most 2 to the power 32 and the cost is taken off. */
static inline uint32_t room_after(uint64_t room, uint64_t cost) {
  if (cost == 0) return room < NO_PATH ? (uint32_t)room : NO_PATH;
  return room > cost ? (uint32_t)(room - cost) : 0;
}

/* Repeats are mostly recent. */
static inline bool on_path(uint64_t word, const uint64_t *last) {
  while (*last != word) {
    if (last == search.path) return false;
    last--;
  }
  return true;
}

static uint64_t end_without_plan(uint32_t status) {
  search.answer = (struct answer){.status = status, .goal = NO_GOAL};
  return ENDED;
}

static uint64_t end_with_plan(uint64_t word, uint32_t steps, uint32_t cost) {
  search.answer = (struct answer){.status = FOUND, .steps = steps, .cost = cost, .goal = met_goal(word)};
  return ENDED;
}

/* Visits the list whose state is to stand at `path`, and then those of its extensions that are due; unless its state
 * is on the path already, or its figure, which is below the least overshoot so far, is above the threshold. Gives the
 * least overshoot from then on, or ENDED. It stands apart from `extend` because alone it has no registers to save. */
static __attribute__((noinline)) uint64_t visit(uint64_t word, uint64_t rank, uint64_t cost, uint64_t least,
                                                uint64_t *path) {
  uint8_t *same_hash = hashes + (word * UINT64_C(0x9E3779B97F4A7C15) >> (64 - HASH_BITS));
  if (*same_hash > 0 && on_path(word, path - 1)) return least;
  uint64_t figure = cost + search.table[rank];
  if (figure > search.threshold) return figure;
  if (search.visits_left == 0) return end_without_plan(SPENT);
  search.visits_left--;
  if (meets_goal(word)) return end_with_plan(word, (uint32_t)(path - search.path), (uint32_t)cost);
  if (path == search.end) return least;
  return extend(word, rank, cost, least, path, same_hash);
}

/* What a list does when the search has ended in its extension by a rule. */
static inline uint64_t end_after(const uint64_t *path, uint8_t rule) {
  search.plan[path - search.path] = rule;
  return ENDED;
}

/* The rounds, from the start's estimate on. An overshoot above the cost limit is as good as none, so that the number
 * behind the limit stands for none. */
static void run_rounds(uint64_t word, uint32_t rank, uint32_t cost_limit) {
  const uint64_t none = (uint64_t)cost_limit + 1;
  end_without_plan(NO_PLAN);
  if (search.table[rank] == NO_PATH) return;
  search.threshold = search.table[rank];
  while (search.threshold < none) {
    uint64_t least = visit(word, rank, 0, none, search.path);
    if (least == ENDED) return;
    search.threshold = least;
  }
}

static struct answer find(const struct query *query, const uint32_t *table, uint8_t *plan) {
  search.table = table;
  search.visits_left = query->visits;
  search.end = search.path + query->steps;
  memset(hashes, 0, sizeof hashes);
  run_rounds(word_of(query->start), rank_of(query->start), query->cost);
  search.answer.visits = query->visits - search.visits_left;
  memcpy(plan, search.plan, search.answer.steps);
  return search.answer;
}

#endif
