/* The plain engine: a state is its labels, a byte each, each term is looked at anew whenever it is met, and nothing is
 * prepared.
 * It is what one writes first: nothing is done for speed, but nothing is wasted either. */
#include "block.h"
#include "engine.h"

#include <string.h>

/* ---- opening ---- */

static bool is_digit(uint8_t c) { return (c >= '0' && c <= '9') || (c >= 'A' && c <= 'F'); }

static uint8_t digit_value(uint8_t c) { return (uint8_t)(c <= '9' ? c - '0' : c - 'A' + 10); }

/* The length of the line at the front of a text, without its line feed. */
static size_t line_length(const uint8_t *text, size_t text_length) {
  size_t length = 0;
  while (length < text_length && text[length] != '\n') length++;
  return length;
}

/* Whether every line is pairs of digits and ends. */
static bool lines_ok(const uint8_t *text, size_t text_length) {
  size_t at = 0;
  while (at < text_length) {
    size_t length = line_length(text + at, text_length - at);
    if (length % 2 != 0 || at + length == text_length) return false;
    for (size_t i = 0; i < length; i++) {
      if (!is_digit(text[at + i])) return false;
    }
    at += length + 1;
  }
  return true;
}

/* How many bytes frame k has: the head, the map, each rule, each goal. */
static size_t frame_length(const struct exercise *e, unsigned k) {
  if (k == 0) return HEAD_LENGTH;
  if (k == 1) return e->labels;
  return k < 2 + e->rules ? e->rule_width : e->positions;
}

/* Whether the lines are as many and as long as the head asks. */
static bool lines_fit(const struct exercise *e, const uint8_t *text, size_t text_length) {
  unsigned frames = 2 + e->rules + e->goals;
  unsigned k = 0;
  for (size_t at = 0; at < text_length; k++) {
    size_t length = line_length(text + at, text_length - at);
    if (k == frames || length != 2 * frame_length(e, k)) return false;
    at += length + 1;
  }
  return k == frames;
}

/* The bytes of all pairs, up to `most` of them. */
static void decode_pairs(const uint8_t *text, size_t text_length, uint8_t *bytes, size_t most) {
  size_t count = 0;
  size_t at = 0;
  while (at < text_length && count < most) {
    if (text[at] == '\n') {
      at++;
      continue;
    }
    bytes[count++] = (uint8_t)(16 * digit_value(text[at]) + digit_value(text[at + 1]));
    at += 2;
  }
}

static bool map_ok(const struct exercise *e) {
  for (unsigned x = 0; x < e->labels; x++) {
    if (map_of(e)[x] >= e->abstract_labels) return false;
  }
  return true;
}

static bool terms_ok(const struct exercise *e, const uint8_t *terms, unsigned count) {
  for (unsigned i = 0; i < count; i++) {
    if (terms[i] >= e->labels && !is_variable(terms[i]) && terms[i] != DASH) return false;
  }
  return true;
}

static bool all_terms_ok(const struct exercise *e) {
  for (unsigned r = 0; r < e->rules; r++) {
    if (!terms_ok(e, left_side(e, r), 2 * e->positions)) return false;
  }
  return terms_ok(e, goal_at(e, 0), e->goals * e->positions);
}

/* Whether each variable on the right of a rule stands on its left. */
static bool rule_bound(const struct exercise *e, unsigned r) {
  for (unsigned i = 0; i < e->positions; i++) {
    uint8_t term = right_side(e, r)[i];
    if (is_variable(term) && !memchr(left_side(e, r), term, e->positions)) return false;
  }
  return true;
}

/* What a block of the right length is refused for. */
static uint32_t check_content(const struct exercise *e) {
  if (!map_ok(e)) return REFUSED_MAP;
  if (!all_terms_ok(e)) return REFUSED_TERM;
  for (unsigned r = 0; r < e->rules; r++) {
    if (!rule_bound(e, r)) return REFUSED_UNBOUND;
  }
  return ACCEPTED;
}

static uint32_t check(const uint8_t *block, size_t length) {
  if (length < HEAD_LENGTH) return REFUSED_HEAD;
  struct exercise e = open_block(block);
  if (!head_ok(&e)) return REFUSED_HEAD;
  if (length != block_length(&e)) return REFUSED_LENGTH;
  return check_content(&e);
}

static uint32_t read_text(const uint8_t *text, size_t text_length, uint8_t *block, size_t room, size_t *length) {
  uint8_t bytes[MOST_BLOCK];
  if (!lines_ok(text, text_length)) return REFUSED_CHARACTER;
  if (line_length(text, text_length) != 2 * HEAD_LENGTH) return REFUSED_LINE;
  decode_pairs(text, text_length, bytes, HEAD_LENGTH);
  struct exercise e = open_block(bytes);
  if (!head_ok(&e)) return REFUSED_HEAD;
  if (!lines_fit(&e, text, text_length)) return REFUSED_LINE;
  if (room < block_length(&e)) return REFUSED_BUFFER;
  decode_pairs(text, text_length, bytes, MOST_BLOCK);
  uint32_t refusal = check_content(&e);
  if (refusal != ACCEPTED) return refusal;
  *length = block_length(&e);
  memcpy(block, bytes, *length);
  return ACCEPTED;
}

/* ---- states ---- */

/* The labels that variables are bound to; -1 for a variable that is not bound yet. */
struct binding {
  int label[16];
};

/* Whether a state matches a side; the variables are bound on the way. */
static bool matches(const uint8_t *terms, const uint8_t *state, unsigned positions, struct binding *bound) {
  memset(bound, -1, sizeof *bound);
  for (unsigned i = 0; i < positions; i++) {
    if (is_label(terms[i])) {
      if (state[i] != terms[i]) return false;
    } else if (is_variable(terms[i])) {
      int *label = &bound->label[terms[i] - FIRST_VARIABLE];
      if (*label >= 0 && *label != state[i]) return false;
      *label = state[i];
    }
  }
  return true;
}

/* Writes the new state where rule r applies. */
static bool apply(const struct exercise *e, unsigned r, const uint8_t *state, uint8_t *next) {
  struct binding bound;
  if (!matches(left_side(e, r), state, e->positions, &bound)) return false;
  const uint8_t *right = right_side(e, r);
  for (unsigned i = 0; i < e->positions; i++) {
    if (is_label(right[i])) {
      next[i] = right[i];
    } else if (is_variable(right[i])) {
      next[i] = (uint8_t)bound.label[right[i] - FIRST_VARIABLE];
    } else {
      next[i] = state[i];
    }
  }
  return true;
}

/* The lowest number of a goal that a state meets, or NO_GOAL. */
static unsigned met_goal(const struct exercise *e, const uint8_t *state) {
  struct binding bound;
  for (unsigned g = 0; g < e->goals; g++) {
    if (matches(goal_at(e, g), state, e->positions, &bound)) return g;
  }
  return NO_GOAL;
}

static bool meets_goal(const struct exercise *e, const uint8_t *state) { return met_goal(e, state) != NO_GOAL; }

/* The rank of a state's relabelled state. */
static uint32_t rank_of(const struct exercise *e, const uint8_t *state) {
  uint32_t rank = 0;
  for (unsigned i = 0; i < e->positions; i++) rank = rank * e->abstract_labels + map_of(e)[state[i]];
  return rank;
}

/* The abstract state of a rank. */
static void unrank(const struct exercise *e, uint32_t rank, uint8_t *state) {
  for (unsigned i = e->positions; i-- > 0;) {
    state[i] = (uint8_t)(rank % e->abstract_labels);
    rank /= e->abstract_labels;
  }
}

/* ---- tables ---- */

/* The relabelled exercise, whose block is written to `out`. */
static struct exercise relabel(const struct exercise *e, uint8_t *out) {
  unsigned k = e->abstract_labels;
  memcpy(out, e->block, HEAD_LENGTH);
  out[1] = (uint8_t)k;
  struct exercise made = open_block(out);
  for (unsigned x = 0; x < k; x++) out[HEAD_LENGTH + x] = (uint8_t)x;
  memcpy(out + made.rules_at, e->block + e->rules_at, block_length(e) - e->rules_at);
  for (size_t at = made.rules_at; at < block_length(&made); at++) {
    bool is_cost = at < made.goals_at && (at - made.rules_at) % made.rule_width == 0;
    if (!is_cost && is_label(out[at])) out[at] = map_of(e)[out[at]];
  }
  return made;
}

/* The edges into each state: a chain for each, through the edges of all rules. */
static struct {
  uint32_t count;
  int32_t first[MOST_ENTRIES];
  int32_t next[MOST_RULES * MOST_ENTRIES];
  uint32_t source[MOST_RULES * MOST_ENTRIES];
  uint8_t cost[MOST_RULES * MOST_ENTRIES];
} edges;

static void add_edge(uint32_t source, uint32_t target, unsigned cost) {
  uint32_t k = edges.count++;
  edges.source[k] = source;
  edges.cost[k] = (uint8_t)cost;
  edges.next[k] = edges.first[target];
  edges.first[target] = (int32_t)k;
}

/* States that wait, the nearest on top: a binary heap. A state stands in it once for each time that its entry fell. */
static struct {
  uint32_t count;
  struct waiting {
    uint32_t entry;
    uint32_t rank;
  } at[MOST_RULES * MOST_ENTRIES + MOST_ENTRIES];
} heap;

static void push(uint32_t entry, uint32_t rank) {
  uint32_t k = heap.count++;
  while (k > 0 && heap.at[(k - 1) / 2].entry > entry) {
    heap.at[k] = heap.at[(k - 1) / 2];
    k = (k - 1) / 2;
  }
  heap.at[k] = (struct waiting){entry, rank};
}

static struct waiting pop(void) {
  struct waiting top = heap.at[0];
  struct waiting last = heap.at[--heap.count];
  uint32_t k = 0;
  for (uint32_t child = 1; child < heap.count; child = 2 * k + 1) {
    if (child + 1 < heap.count && heap.at[child + 1].entry < heap.at[child].entry) child++;
    if (last.entry <= heap.at[child].entry) break;
    heap.at[k] = heap.at[child];
    k = child;
  }
  heap.at[k] = last;
  return top;
}

/* Finds all edges, and puts the goal states into the heap. */
static void begin_fill(const struct exercise *e, uint32_t entries, uint32_t *table) {
  uint8_t state[MOST_POSITIONS], next[MOST_POSITIONS];
  edges.count = heap.count = 0;
  memset(edges.first, -1, sizeof edges.first);
  for (uint32_t rank = 0; rank < entries; rank++) {
    unrank(e, rank, state);
    bool goal = meets_goal(e, state);
    table[rank] = goal ? 0 : NO_PATH;
    if (goal) push(0, rank);
    for (unsigned r = 0; r < e->rules; r++) {
      if (apply(e, r, state, next)) add_edge(rank, rank_of(e, next), cost_of(e, r));
    }
  }
}

/* Dijkstra's algorithm, backwards from the goals. */
static void fill(const uint8_t *block, size_t length, uint32_t *table) {
  uint8_t relabelled[MOST_BLOCK];
  (void)length;
  struct exercise own = open_block(block);
  struct exercise e = relabel(&own, relabelled);
  begin_fill(&e, count_entries(&e), table);
  while (heap.count > 0) {
    struct waiting near = pop();
    if (near.entry != table[near.rank]) continue;
    for (int32_t k = edges.first[near.rank]; k >= 0; k = edges.next[k]) {
      uint32_t entry = near.entry + edges.cost[k];
      if (entry < table[edges.source[k]]) {
        table[edges.source[k]] = entry;
        push(entry, edges.source[k]);
      }
    }
  }
}

/* Whether the entries of an edge pass. A marked source fails even where the sum is as large as the mark. */
static bool edge_passes(uint32_t source, uint32_t target, unsigned cost) {
  if (target == NO_PATH) return true;
  return source != NO_PATH && source <= (uint64_t)target + cost;
}

static bool test(const uint8_t *block, size_t length, const uint32_t *table) {
  uint8_t relabelled[MOST_BLOCK], state[MOST_POSITIONS], next[MOST_POSITIONS];
  (void)length;
  struct exercise own = open_block(block);
  struct exercise e = relabel(&own, relabelled);
  uint32_t entries = count_entries(&e);
  for (uint32_t rank = 0; rank < entries; rank++) {
    unrank(&e, rank, state);
    if (table[rank] != 0 && meets_goal(&e, state)) return false;
    for (unsigned r = 0; r < e.rules; r++) {
      if (!apply(&e, r, state, next)) continue;
      if (!edge_passes(table[rank], table[rank_of(&e, next)], cost_of(&e, r))) return false;
    }
  }
  return true;
}

/* ---- the search ---- */

/* A list of rules on its way through a round: for each of its states the cost up to it and the next rule to try there.
 * The rule that led on from a state is the one before that. */
struct search {
  struct exercise e;
  const uint32_t *table;
  uint32_t most_steps;
  uint32_t allowance;
  uint32_t visits;
  uint64_t threshold;
  uint64_t least_above;
  uint32_t steps;
  uint8_t states[MOST_STEPS + 1][MOST_POSITIONS];
  uint32_t costs[MOST_STEPS + 1];
  unsigned next_rule[MOST_STEPS + 1];
};

static uint32_t estimate_of(const struct search *s, const uint8_t *state) { return s->table[rank_of(&s->e, state)]; }

/* Whether a state stands on the list's path. */
static bool is_passed(const struct search *s, const uint8_t *state) {
  uint32_t k = 0;
  while (k <= s->steps && memcmp(s->states[k], state, s->e.positions) != 0) k++;
  return k <= s->steps;
}

/* Whether the list with one rule more is to be visited; where its figure is above the threshold that is noted. */
static bool is_due(struct search *s, const uint8_t *state, uint32_t cost) {
  uint32_t estimate = estimate_of(s, state);
  if (estimate == NO_PATH) return false;
  uint64_t figure = (uint64_t)estimate + cost;
  if (figure <= s->threshold) return true;
  if (figure < s->least_above) s->least_above = figure;
  return false;
}

/* Adds to the list the next rule with which it is due. Where there is none the list stays as it is. */
static bool extend(struct search *s) {
  uint32_t at = s->steps;
  if (at == s->most_steps) return false;
  uint8_t *made = s->states[at + 1];
  while (s->next_rule[at] < s->e.rules) {
    unsigned rule = s->next_rule[at]++;
    if (!apply(&s->e, rule, s->states[at], made) || is_passed(s, made)) continue;
    uint32_t cost = s->costs[at] + cost_of(&s->e, rule);
    if (!is_due(s, made, cost)) continue;
    s->steps = at + 1;
    s->costs[at + 1] = cost;
    s->next_rule[at + 1] = 0;
    return true;
  }
  return false;
}

/* One round, from the empty list on: it ends at a plan, at the allowance, or where no list is left. */
static uint32_t run_round(struct search *s) {
  s->steps = 0;
  s->next_rule[0] = 0;
  s->least_above = UINT64_MAX;
  for (;;) {
    if (s->visits == s->allowance) return SPENT;
    s->visits++;
    if (meets_goal(&s->e, s->states[s->steps])) return FOUND;
    while (!extend(s)) {
      if (s->steps == 0) return NO_PLAN;
      s->steps--;
    }
  }
}

/* Rounds with rising thresholds, the first of them the start's estimate. */
static uint32_t run_rounds(struct search *s, uint32_t cost_limit) {
  uint32_t status = NO_PLAN;
  uint32_t first = estimate_of(s, s->states[0]);
  s->least_above = first == NO_PATH ? UINT64_MAX : first;
  while (status == NO_PLAN && s->least_above <= cost_limit) {
    s->threshold = s->least_above;
    status = run_round(s);
  }
  return status;
}

static struct answer find(const uint8_t *block, size_t length, const struct query *query, const uint32_t *table,
                          uint8_t *plan) {
  struct search s = {.e = open_block(block), .table = table, .most_steps = query->steps, .allowance = query->visits};
  (void)length;
  memcpy(s.states[0], query->start, s.e.positions);
  uint32_t status = run_rounds(&s, query->cost);
  struct answer answer = {.status = status, .visits = s.visits, .goal = NO_GOAL};
  if (status != FOUND) return answer;
  for (uint32_t k = 0; k < s.steps; k++) plan[k] = (uint8_t)(s.next_rule[k] - 1);
  answer.steps = s.steps;
  answer.cost = s.costs[s.steps];
  answer.goal = met_goal(&s.e, s.states[s.steps]);
  return answer;
}

const struct engine plain_engine = {"plain", read_text, check, fill, test, find, NULL};
