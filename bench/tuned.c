/* The tuned engine. In the search a state is one word, four bits a position, and rules are compiled to masks and moves,
 * and to what they add to the rank. For a table the edges of a rule are found by adding up ranks, so that no state is
 * matched, and the fill takes its states from buckets. All this uses megabytes of scratch and serves one thread. */
#include "block.h"
#include "engine.h"

#include <string.h>

/* ---- opening ---- */

/* The value of each digit, and a bit above all values for other characters. */
enum { NO_DIGIT = 0x100 };

/* What a term adds to the sum of its side: the bit of its variable, or a bit above these where it is no term. */
enum { NO_TERM = 0x10000 };

static struct {
  bool made;
  uint16_t digits[256];
  uint32_t terms[MOST_LABELS + 1][256];
} lookup;

static void make_lookup(void) {
  for (unsigned c = 0; c < 256; c++) lookup.digits[c] = NO_DIGIT;
  for (uint8_t value = 0; value < 10; value++) lookup.digits['0' + value] = value;
  for (uint8_t value = 10; value < 16; value++) lookup.digits['A' + value - 10] = value;
  for (unsigned labels = 0; labels <= MOST_LABELS; labels++) {
    uint32_t *terms = lookup.terms[labels];
    for (unsigned term = 0; term < 256; term++) terms[term] = term < labels || term == DASH ? 0 : NO_TERM;
    for (unsigned term = FIRST_VARIABLE; term < BEHIND_VARIABLES; term++) terms[term] = 1u << (term - FIRST_VARIABLE);
  }
  lookup.made = true;
}

/* The sum of the terms of a side. */
static inline uint32_t sum_terms(const uint32_t *terms, const uint8_t *side, unsigned count) {
  uint32_t sum = 0;
  for (unsigned i = 0; i < count; i++) sum |= terms[side[i]];
  return sum;
}

/* What a block of the right length is refused for: all terms are looked at once, for 6 and for 7. */
static uint32_t check_content(const struct exercise *e) {
  const uint32_t *terms = lookup.terms[e->labels];
  uint32_t bad_map = 0, all = 0, unbound = 0;
  for (unsigned x = 0; x < e->labels; x++) bad_map |= map_of(e)[x] >= e->abstract_labels;
  if (bad_map) return REFUSED_MAP;
  for (unsigned r = 0; r < e->rules; r++) {
    uint32_t left = sum_terms(terms, left_side(e, r), e->positions);
    uint32_t right = sum_terms(terms, right_side(e, r), e->positions);
    all |= left | right;
    unbound |= right & ~left;
  }
  all |= sum_terms(terms, goal_at(e, 0), e->goals * e->positions);
  if (all & NO_TERM) return REFUSED_TERM;
  return unbound ? REFUSED_UNBOUND : ACCEPTED;
}

static uint32_t check(const uint8_t *block, size_t length) {
  if (!lookup.made) make_lookup();
  if (length < HEAD_LENGTH) return REFUSED_HEAD;
  struct exercise e = open_block(block);
  if (!head_ok(&e)) return REFUSED_HEAD;
  if (length != block_length(&e)) return REFUSED_LENGTH;
  return check_content(&e);
}

/* Decodes a line of `count` pairs and moves both places behind it; false where it is anything else. */
static inline bool decode_line(const uint8_t **text, uint8_t **bytes, size_t count) {
  uint32_t seen = 0;
  const uint8_t *from = *text;
  uint8_t *to = *bytes;
  for (size_t i = 0; i < count; i++) {
    uint32_t pair = (uint32_t)lookup.digits[from[2 * i]] << 4 | lookup.digits[from[2 * i + 1]];
    seen |= pair;
    to[i] = (uint8_t)pair;
  }
  *text = from + 2 * count + 1;
  *bytes = to + count;
  return !(seen & (NO_DIGIT << 4 | NO_DIGIT)) && from[2 * count] == '\n';
}

/* Decodes the lines behind the head of a text that is as long as its head asks; false where a line is not right. */
static bool decode_frames(const struct exercise *e, const uint8_t *text, uint8_t *bytes) {
  bool ok = decode_line(&text, &bytes, e->labels);
  for (unsigned r = 0; r < e->rules; r++) ok &= decode_line(&text, &bytes, e->rule_width);
  for (unsigned g = 0; g < e->goals; g++) ok &= decode_line(&text, &bytes, e->positions);
  return ok;
}

/* Whether every line is pairs of digits and ends. Only texts that are refused come here. */
static bool lines_ok(const uint8_t *text, size_t text_length) {
  size_t begun = 0;
  for (size_t at = 0; at < text_length; at++) {
    if (text[at] == '\n') {
      if ((at - begun) % 2 != 0) return false;
      begun = at + 1;
    } else if (lookup.digits[text[at]] == NO_DIGIT) {
      return false;
    }
  }
  return begun == text_length;
}

/* The number of a text that is refused: 1 beats all others, and is looked for only now. */
static uint32_t refuse_text(const uint8_t *text, size_t text_length, uint32_t refusal) {
  return lines_ok(text, text_length) ? refusal : REFUSED_CHARACTER;
}

/* A text whose lines are right has one length for its head; it is decoded and checked in one pass. */
static uint32_t read_text(const uint8_t *text, size_t text_length, uint8_t *block, size_t room, size_t *length) {
  uint8_t bytes[MOST_BLOCK];
  const uint8_t *from = text;
  uint8_t *to = bytes;
  if (!lookup.made) make_lookup();
  if (text_length <= 2 * HEAD_LENGTH || !decode_line(&from, &to, HEAD_LENGTH)) {
    return refuse_text(text, text_length, REFUSED_LINE);
  }
  struct exercise e = open_block(bytes);
  if (!head_ok(&e)) return refuse_text(text, text_length, REFUSED_HEAD);
  size_t whole = block_length(&e);
  if (text_length != 2 * whole + 2 + e.rules + e.goals || !decode_frames(&e, from, to)) {
    return refuse_text(text, text_length, REFUSED_LINE);
  }
  if (room < whole) return REFUSED_BUFFER;
  uint32_t refusal = check_content(&e);
  if (refusal != ACCEPTED) return refusal;
  memcpy(block, bytes, whole);
  *length = whole;
  return ACCEPTED;
}

/* ---- tables ---- */

/* What a label counts in the rank at each position. */
static void make_weights(const struct exercise *e, uint32_t *weights) {
  uint32_t power = 1;
  for (unsigned i = e->positions; i-- > 0; power *= e->abstract_labels) weights[i] = power;
}

/* The first position of a term that stands on a side. */
static unsigned first_of(const uint8_t *terms, uint8_t term) {
  unsigned i = 0;
  while (terms[i] != term) i++;
  return i;
}

/* The position of the old state that gives its label to position i by this term, which is no constant. */
static unsigned source_of(const uint8_t *left, uint8_t term, unsigned i) {
  return is_variable(term) ? first_of(left, term) : i;
}

/* A rank as a sum: what the constants add, and how much the label at each position of the old state counts. */
struct sum {
  uint32_t constant;
  uint32_t factor[MOST_POSITIONS];
};

/* Adds what the term at position i, of a rule with this left side, counts in the rank. */
static void add_term(struct sum *sum, const struct exercise *e, const uint8_t *left, uint8_t term, unsigned i,
                     uint32_t weight) {
  if (is_label(term)) {
    sum->constant += weight * map_of(e)[term];
  } else {
    sum->factor[source_of(left, term, i)] += weight;
  }
}

/* The edges of one rule: the ranks of the states that it applies to, and of what it makes of them. */
static struct {
  uint32_t count;
  uint16_t source[MOST_ENTRIES];
  uint16_t target[MOST_ENTRIES];
} edges;

/* Takes the edges found so far again for each further label, which adds so much to their two ranks. */
static void multiply_edges(uint32_t labels, uint32_t by_source, uint32_t by_target) {
  uint32_t count = edges.count;
  for (uint32_t label = 1; label < labels; label++) {
    uint16_t *source = edges.source + label * count, *target = edges.target + label * count;
    for (uint32_t k = 0; k < count; k++) source[k] = (uint16_t)(edges.source[k] + label * by_source);
    for (uint32_t k = 0; k < count; k++) target[k] = (uint16_t)(edges.target[k] + label * by_target);
  }
  edges.count = count * labels;
}

/* Finds the edges of a rule. Both ranks are sums over the labels that the left side leaves free, so that all edges come
 * from the first one by additions. A goal is taken for a rule that changes nothing. */
static void find_edges(const struct exercise *e, const uint8_t *left, const uint8_t *right) {
  uint32_t weights[MOST_POSITIONS];
  struct sum source = {0}, target = {0};
  make_weights(e, weights);
  for (unsigned i = 0; i < e->positions; i++) {
    add_term(&source, e, left, left[i], i, weights[i]);
    add_term(&target, e, left, right[i] == DASH ? left[i] : right[i], i, weights[i]);
  }
  edges.count = 1;
  edges.source[0] = (uint16_t)source.constant;
  edges.target[0] = (uint16_t)target.constant;
  for (unsigned i = e->positions; i-- > 0;) {
    if (source.factor[i] > 0) multiply_edges(e->abstract_labels, source.factor[i], target.factor[i]);
  }
}

/* The edges of all rules, as they are found and then sorted by target: those into v stand from head[v] to head[v + 1].
 * Each is its source, with its cost in the higher half. */
static struct {
  uint32_t count;
  uint16_t target[MOST_RULES * MOST_ENTRIES];
  uint32_t found[MOST_RULES * MOST_ENTRIES];
  uint32_t sorted[MOST_RULES * MOST_ENTRIES];
  uint32_t head[MOST_ENTRIES + 1];
} graph;

static void find_graph(const struct exercise *e) {
  graph.count = 0;
  memset(graph.head, 0, sizeof graph.head);
  for (unsigned r = 0; r < e->rules; r++) {
    uint32_t cost = cost_of(e, r) << 16;
    find_edges(e, left_side(e, r), right_side(e, r));
    for (uint32_t k = 0; k < edges.count; k++) graph.found[graph.count + k] = cost | edges.source[k];
    for (uint32_t k = 0; k < edges.count; k++) graph.head[edges.target[k]]++;
    memcpy(graph.target + graph.count, edges.target, edges.count * sizeof *edges.target);
    graph.count += edges.count;
  }
}

/* Sorts by counting: the heads are made the ends of their edges first, and run back to their beginnings. */
static void sort_graph(uint32_t entries) {
  for (uint32_t v = 1; v <= entries; v++) graph.head[v] += graph.head[v - 1];
  for (uint32_t k = graph.count; k-- > 0;) graph.sorted[--graph.head[graph.target[k]]] = graph.found[k];
}

/* States that wait, by their entry modulo 256, which is enough as no rule costs more than 255. A state waits once for
 * each time that its entry fell. */
static struct {
  uint32_t count;
  uint32_t made;
  int32_t first[256];
  struct waiting {
    int32_t next;
    uint32_t rank;
  } at[MOST_RULES * MOST_ENTRIES + MOST_ENTRIES];
} buckets;

static inline void put(uint32_t rank, uint32_t entry) {
  buckets.at[buckets.made] = (struct waiting){buckets.first[entry % 256], rank};
  buckets.first[entry % 256] = (int32_t)buckets.made++;
  buckets.count++;
}

/* Marks all states but those of the goals, which wait first. */
static void begin_fill(const struct exercise *e, uint32_t entries, uint32_t *table) {
  buckets.count = buckets.made = 0;
  memset(buckets.first, -1, sizeof buckets.first);
  memset(table, -1, entries * sizeof *table);
  for (unsigned g = 0; g < e->goals; g++) {
    find_edges(e, goal_at(e, g), goal_at(e, g));
    for (uint32_t k = 0; k < edges.count; k++) {
      if (table[edges.source[k]] != 0) put(edges.source[k], 0);
      table[edges.source[k]] = 0;
    }
  }
}

/* Lowers the entries of the states before v. */
static inline void lower(uint32_t v, uint32_t entry, uint32_t *table) {
  for (uint32_t k = graph.head[v]; k < graph.head[v + 1]; k++) {
    uint32_t u = graph.sorted[k] & 0xFFFF;
    uint32_t by_edge = entry + (graph.sorted[k] >> 16);
    if (by_edge >= table[u]) continue;
    table[u] = by_edge;
    put(u, by_edge);
  }
}

/* Dijkstra's algorithm, backwards from the goals. */
static void fill(const uint8_t *block, size_t length, uint32_t *table) {
  struct exercise e = open_block(block);
  uint32_t entries = count_entries(&e);
  (void)length;
  find_graph(&e);
  sort_graph(entries);
  begin_fill(&e, entries, table);
  for (uint32_t entry = 0; buckets.count > 0; entry++) {
    for (int32_t k; (k = buckets.first[entry % 256]) >= 0;) {
      buckets.first[entry % 256] = buckets.at[k].next;
      buckets.count--;
      if (table[buckets.at[k].rank] == entry) lower(buckets.at[k].rank, entry, table);
    }
  }
}

/* Whether all edges of a rule pass. A marked source fails even where the sum is as large as the mark. */
static bool rule_passes(const struct exercise *e, unsigned r, const uint32_t *table) {
  uint32_t cost = cost_of(e, r);
  bool passes = true;
  find_edges(e, left_side(e, r), right_side(e, r));
  for (uint32_t k = 0; k < edges.count; k++) {
    uint32_t before = table[edges.source[k]], after = table[edges.target[k]];
    passes &= after == NO_PATH || (before != NO_PATH && before <= (uint64_t)after + cost);
  }
  return passes;
}

static bool goal_passes(const struct exercise *e, unsigned g, const uint32_t *table) {
  uint32_t sum = 0;
  find_edges(e, goal_at(e, g), goal_at(e, g));
  for (uint32_t k = 0; k < edges.count; k++) sum |= table[edges.source[k]];
  return sum == 0;
}

static bool test(const uint8_t *block, size_t length, const uint32_t *table) {
  struct exercise e = open_block(block);
  (void)length;
  for (unsigned g = 0; g < e.goals; g++) {
    if (!goal_passes(&e, g, table)) return false;
  }
  for (unsigned r = 0; r < e.rules; r++) {
    if (!rule_passes(&e, r, table)) return false;
  }
  return true;
}

/* ---- rules, compiled for the search ---- */

/* Labels that move, by distance: the word is turned left by `bits`, and `mask` shows their new places. */
struct turns {
  uint32_t count;
  struct turn {
    uint32_t bits;
    uint64_t mask;
  } at[MOST_POSITIONS];
};

/* A left side or a goal: its constants, and the positions where a turn of the state must show its own labels. */
struct side {
  uint64_t mask;
  uint64_t value;
  struct turns ties;
};

/* What a rule adds to the rank, modulo 65,536: a constant, and for each position whose label counts, where it stands in
 * the word and what each label adds. */
struct change {
  uint16_t constant;
  uint16_t count;
  struct part {
    uint16_t bits;
    uint16_t by_label[MOST_LABELS];
  } at[MOST_POSITIONS];
};

struct rule {
  struct side left;
  uint32_t cost;
  struct change change;
  uint64_t keep;
  uint64_t write;
  struct turns moves;
};

static inline uint64_t turned(uint64_t word, uint32_t bits) { return word << bits | word >> (-bits & 63); }

static inline uint64_t label_at(unsigned i, uint64_t label) { return label << 4 * i; }

static void add_turn(struct turns *turns, unsigned from, unsigned to) {
  uint32_t bits = 4 * (to - from) & 63;
  uint32_t k = 0;
  while (k < turns->count && turns->at[k].bits != bits) k++;
  if (k == turns->count) turns->at[turns->count++] = (struct turn){bits, 0};
  turns->at[k].mask |= label_at(to, 15);
}

/* Compiles a left side or a goal. */
static void compile_side(const uint8_t *terms, unsigned positions, struct side *side) {
  side->mask = side->value = side->ties.count = 0;
  for (unsigned i = 0; i < positions; i++) {
    if (is_label(terms[i])) {
      side->mask |= label_at(i, 15);
      side->value |= label_at(i, terms[i]);
    } else if (source_of(terms, terms[i], i) != i) {
      add_turn(&side->ties, source_of(terms, terms[i], i), i);
    }
  }
}

/* Compiles what a rule makes of a state. */
static void compile_effect(const uint8_t *left, const uint8_t *right, unsigned positions, struct rule *rule) {
  rule->keep = rule->write = rule->moves.count = 0;
  for (unsigned i = 0; i < positions; i++) {
    if (is_label(right[i])) {
      rule->write |= label_at(i, right[i]);
    } else if (source_of(left, right[i], i) == i) {
      rule->keep |= label_at(i, 15);
    } else {
      add_turn(&rule->moves, source_of(left, right[i], i), i);
    }
  }
}

/* Compiles what a rule adds to the rank: what the terms that it writes count, less what stood there. */
static void compile_change(const struct exercise *e, const uint8_t *left, const uint8_t *right, struct change *change) {
  uint32_t weights[MOST_POSITIONS];
  struct sum sum = {0};
  make_weights(e, weights);
  for (unsigned i = 0; i < e->positions; i++) {
    if (right[i] == DASH) continue;
    add_term(&sum, e, left, right[i], i, weights[i]);
    add_term(&sum, e, left, left[i], i, -weights[i]);
  }
  change->constant = (uint16_t)sum.constant;
  change->count = 0;
  for (unsigned i = 0; i < e->positions; i++) {
    if (sum.factor[i] == 0) continue;
    struct part *part = &change->at[change->count++];
    part->bits = (uint16_t)(4 * i);
    for (unsigned x = 0; x < e->labels; x++) part->by_label[x] = (uint16_t)(sum.factor[i] * map_of(e)[x]);
  }
}

static void compile_rule(const struct exercise *e, unsigned r, struct rule *rule) {
  rule->cost = cost_of(e, r);
  compile_side(left_side(e, r), e->positions, &rule->left);
  compile_change(e, left_side(e, r), right_side(e, r), &rule->change);
  compile_effect(left_side(e, r), right_side(e, r), e->positions, rule);
}

/* Most sides fail on a constant, which is one comparison. */
static inline bool matches(const struct side *side, uint64_t word) {
  if ((word & side->mask) != side->value) return false;
  for (uint32_t k = 0; k < side->ties.count; k++) {
    if ((turned(word, side->ties.at[k].bits) ^ word) & side->ties.at[k].mask) return false;
  }
  return true;
}

/* The rank after a rule, which is known before the new state is. */
static inline uint16_t next_rank(const struct change *change, uint16_t rank, uint64_t word) {
  uint32_t sum = rank + change->constant;
  for (uint32_t k = 0; k < change->count; k++) sum += change->at[k].by_label[word >> change->at[k].bits & 15];
  return (uint16_t)sum;
}

static inline uint64_t next_word(const struct rule *rule, uint64_t word) {
  uint64_t next = (word & rule->keep) | rule->write;
  for (uint32_t k = 0; k < rule->moves.count; k++) {
    next |= turned(word, rule->moves.at[k].bits) & rule->moves.at[k].mask;
  }
  return next;
}

/* ---- the search ---- */

/* What every visit of a search sees. `least` is the least overshoot of the round so far. */
static struct {
  uint32_t rules;
  uint32_t goals;
  struct rule rule[MOST_RULES];
  struct side goal[MOST_GOALS];
  const uint32_t *table;
  uint32_t steps;
  uint32_t allowance;
  uint32_t visits;
  uint64_t threshold;
  uint64_t least;
  uint64_t path[MOST_STEPS + 1];
  uint8_t plan[MOST_STEPS];
  uint32_t plan_steps;
  uint32_t plan_cost;
} search;

enum ending { ENDED_ON, ENDED_FOUND, ENDED_SPENT };

static inline bool meets_goal(uint64_t word) {
  for (uint32_t g = 0; g < search.goals; g++) {
    if (matches(&search.goal[g], word)) return true;
  }
  return false;
}

/* The lowest number of a goal that a state meets, which meets one. */
static uint32_t met_goal(uint64_t word) {
  uint32_t g = 0;
  while (!matches(&search.goal[g], word)) g++;
  return g;
}

/* Repeats are mostly recent. */
static inline bool on_path(uint32_t depth, uint64_t word) {
  for (uint32_t i = depth + 1; i-- > 0;) {
    if (search.path[i] == word) return true;
  }
  return false;
}

/* Whether the extension by a rule is due; its state is then written to the path. The figure is looked at first: most
 * are above the threshold and no new least, and then the state need not be worked out. */
static inline bool extend(uint32_t depth, const struct rule *rule, uint64_t figure) {
  if (figure > search.threshold && figure >= search.least) return false;
  uint64_t next = next_word(rule, search.path[depth]);
  if (on_path(depth, next)) return false;
  if (figure > search.threshold) {
    search.least = figure;
    return false;
  }
  search.path[depth + 1] = next;
  return true;
}

/* Visits the list of `depth` rules whose states stand in the path, and then those of its extensions that are due. */
static enum ending visit(uint32_t depth, uint32_t cost, uint16_t rank) {
  const uint64_t word = search.path[depth];
  if (search.visits == search.allowance) return ENDED_SPENT;
  search.visits++;
  if (meets_goal(word)) {
    search.plan_steps = depth;
    search.plan_cost = cost;
    return ENDED_FOUND;
  }
  if (depth == search.steps) return ENDED_ON;
  for (uint32_t r = 0; r < search.rules; r++) {
    const struct rule *rule = &search.rule[r];
    if (!matches(&rule->left, word)) continue;
    uint16_t next = next_rank(&rule->change, rank, word);
    uint32_t estimate = search.table[next];
    if (estimate == NO_PATH) continue;
    if (!extend(depth, rule, (uint64_t)cost + rule->cost + estimate)) continue;
    search.plan[depth] = (uint8_t)r;
    enum ending ending = visit(depth + 1, cost + rule->cost, next);
    if (ending != ENDED_ON) return ending;
  }
  return ENDED_ON;
}

/* The rounds, from the start's estimate on; the next threshold is the least overshoot. */
static uint32_t run_rounds(uint32_t cost_limit, uint16_t rank) {
  if (search.table[rank] == NO_PATH) return NO_PLAN;
  for (search.threshold = search.table[rank]; search.threshold <= cost_limit; search.threshold = search.least) {
    search.least = UINT64_MAX;
    enum ending ending = visit(0, 0, rank);
    if (ending == ENDED_FOUND) return FOUND;
    if (ending == ENDED_SPENT) return SPENT;
  }
  return NO_PLAN;
}

static void compile_exercise(const struct exercise *e) {
  search.rules = e->rules;
  search.goals = e->goals;
  for (unsigned r = 0; r < e->rules; r++) compile_rule(e, r, &search.rule[r]);
  for (unsigned g = 0; g < e->goals; g++) compile_side(goal_at(e, g), e->positions, &search.goal[g]);
}

/* Puts the start at the front of the path; gives its rank. */
static uint16_t begin_search(const struct exercise *e, const struct query *query) {
  uint32_t rank = 0;
  search.steps = query->steps;
  search.allowance = query->visits;
  search.visits = search.plan_steps = search.plan_cost = 0;
  search.path[0] = 0;
  for (unsigned i = 0; i < e->positions; i++) {
    search.path[0] |= label_at(i, query->start[i]);
    rank = rank * e->abstract_labels + map_of(e)[query->start[i]];
  }
  return (uint16_t)rank;
}

/* Searches in the exercise that was compiled last. */
static struct answer find_again(const uint8_t *block, size_t length, const struct query *query, const uint32_t *table,
                                uint8_t *plan) {
  struct exercise e = open_block(block);
  (void)length;
  search.table = table;
  uint32_t status = run_rounds(query->cost, begin_search(&e, query));
  uint32_t goal = status == FOUND ? met_goal(search.path[search.plan_steps]) : NO_GOAL;
  memcpy(plan, search.plan, search.plan_steps);
  return (struct answer){status, search.plan_steps, search.plan_cost, search.visits, goal};
}

static struct answer find(const uint8_t *block, size_t length, const struct query *query, const uint32_t *table,
                          uint8_t *plan) {
  struct exercise e = open_block(block);
  compile_exercise(&e);
  return find_again(block, length, query, table, plan);
}

const struct engine tuned_engine = {"tuned", read_text, check, fill, test, find, find_again};
