/* Runs the library, the tuned engine, the plain engine and the generated engine on the same inputs in turns, compares
 * every answer, and prints the medians and their ratios; then the searches of batches, where the library's single calls
 * run too, and the library's searches with further maps. */
#define _POSIX_C_SOURCE 200809L

#include "engine.h"
#include "exercises.h"

#include <stdio.h>
#include <stdlib.h>
#include <string.h>
#include <time.h>

enum { ENGINES = 5, MOST_TASKS = 40, MOST_ROUNDS = 101, USUAL_ROUNDS = 7 };

/* The library stands first: the others are compared with it, in their answers and in their times. Its single calls
 * stand last, since they have columns for batches alone. */
static const struct engine *const engines[ENGINES] = {&library_engine, &tuned_engine, &plain_engine, &generated_engine,
                                                      &single_engine};
enum { TUNED = 1, SINGLE = ENGINES - 1 };

/* A short call is repeated until it takes about this long, in seconds, so that the clock's grain does not count. */
static const double LONG_ENOUGH = 0.02;

/* ---- tasks ---- */

enum action { READ, CHECK, FILL, TEST, FIND, FIND_BATCH };

/* What is measured: an action on an input, and the time of one call by each engine in each round. A search by a number
 * of maps is the library's alone; that number is 0 for all else. */
struct task {
  const char *heading;
  const char *name;
  enum action action;
  struct input input;
  struct query query;
  struct query_batch batch;
  unsigned map_count;
  const uint8_t *maps;
  size_t maps_length;
  uint32_t table[MOST_ENTRIES];
  unsigned long repetitions[ENGINES];
  double seconds[ENGINES][MOST_ROUNDS];
};

static struct task tasks[MOST_TASKS];
static unsigned task_count;

/* Everything that a call gives back or may write to. */
struct outcome {
  uint32_t refusal;
  bool passes;
  size_t length;
  struct answer answer;
  uint8_t bytes[BATCH_ANSWERS];
  uint32_t table[MOST_ENTRIES];
};

/* What stands in an outcome before the call, so that a write too many shows as well. */
static void clear(struct outcome *outcome) {
  memset(outcome, 0, sizeof *outcome);
  memset(outcome->bytes, 0xA5, sizeof outcome->bytes);
  memset(outcome->table, 0xA5, sizeof outcome->table);
}

/* Whether an engine has the call for an action. */
static bool has_call(const struct engine *engine, enum action action) {
  switch (action) {
    case READ:
      return engine->read;
    case CHECK:
      return engine->check;
    case FILL:
      return engine->fill;
    case TEST:
      return engine->test;
    case FIND:
    case FIND_BATCH:
      return engine->find;
  }
  return false;
}

/* Whether an engine can perform a task; where it cannot, it is left out. */
static bool can_perform(const struct engine *engine, const struct task *task) {
  if (task->map_count > 0) return engine == engines[0];
  if (engine == engines[SINGLE]) return task->action == FIND_BATCH;
  return has_call(engine, task->action);
}

/* Finds the plans of a batch: the library in one call. The others are asked one query a call, and their answers are
 * written as the library writes its own; what an engine prepares for the first query serves all where it can. */
static size_t find_batch(const struct engine *engine, const struct task *task, uint8_t *answers) {
  const struct input *in = &task->input;
  const struct query_batch *batch = &task->batch;
  if (engine == engines[0]) {
    return library_find_batch(in->block, in->length, batch->records, batch->length, task->table, answers,
                              BATCH_ANSWERS);
  }
  for (unsigned q = 0; q < BATCH_SIZE; q++) {
    uint8_t plan[MOST_STEPS];
    const struct query *query = &batch->queries[q];
    bool prepared = q > 0 && engine->find_again;
    struct answer answer = prepared ? engine->find_again(in->block, in->length, query, task->table, plan)
                                    : engine->find(in->block, in->length, query, task->table, plan);
    write_answer(answers + q * ANSWER_LENGTH, &answer, plan);
  }
  return BATCH_ANSWERS;
}

static inline void perform(const struct engine *engine, const struct task *task, struct outcome *outcome) {
  const struct input *in = &task->input;
  switch (task->action) {
    case READ:
      outcome->refusal = engine->read(in->text, in->text_length, outcome->bytes, MOST_BLOCK, &outcome->length);
      break;
    case CHECK:
      outcome->refusal = engine->check(in->block, in->length);
      break;
    case FILL:
      engine->fill(in->block, in->length, outcome->table);
      break;
    case TEST:
      outcome->passes = engine->test(in->block, in->length, task->table);
      break;
    case FIND:
      outcome->answer = task->map_count == 0
                            ? engine->find(in->block, in->length, &task->query, task->table, outcome->bytes)
                            : library_find_by_maps(in->block, in->length, task->maps, task->maps_length, &task->query,
                                                   task->table, outcome->bytes);
      break;
    case FIND_BATCH:
      outcome->length = find_batch(engine, task, outcome->bytes);
      break;
  }
}

/* ---- comparing ---- */

/* Names the part in which two outcomes differ, or NULL. */
static const char *difference(const struct outcome *a, const struct outcome *b) {
  if (a->refusal != b->refusal) return "refusal";
  if (a->passes != b->passes) return "test";
  if (a->length != b->length) return "length";
  if (a->answer.status != b->answer.status) return "status";
  if (a->answer.steps != b->answer.steps) return "steps";
  if (a->answer.cost != b->answer.cost) return "cost";
  if (a->answer.visits != b->answer.visits) return "visits";
  if (a->answer.goal != b->answer.goal) return "goal";
  if (memcmp(a->bytes, b->bytes, sizeof a->bytes) != 0) return "bytes written";
  if (memcmp(a->table, b->table, sizeof a->table) != 0) return "table";
  return NULL;
}

/* Ends the run where an engine's outcome is not the one that is expected. */
static void compare(const struct task *task, unsigned e, const struct outcome *outcome,
                    const struct outcome *expected) {
  const char *part = difference(outcome, expected);
  if (!part) return;
  fprintf(stderr, "bench: '%s' and '%s' differ (%s) in: %s, %s\n", engines[0]->name, engines[e]->name, part,
          task->heading, task->name);
  exit(1);
}

/* Ends the run where the outcome by several maps is another than that by one, but for the visits. */
static void compare_with_one_map(const struct task *task, const struct outcome *outcome, const struct outcome *by_one) {
  static struct outcome changed;
  changed = *outcome;
  changed.answer.visits = by_one->answer.visits;
  const char *part = difference(&changed, by_one);
  if (!part && outcome->answer.status == FOUND) return;
  fprintf(stderr, "bench: %u maps and one map differ (%s) in: %s, %s\n", task->map_count, part ? part : "no plan",
          task->heading, task->name);
  exit(1);
}

/* ---- the clock ---- */

/* The time that this process has had, in seconds: what other processes take does not count. */
static double now(void) {
  struct timespec t;
  clock_gettime(CLOCK_PROCESS_CPUTIME_ID, &t);
  return (double)t.tv_sec + (double)t.tv_nsec * 1e-9;
}

/* The time of one call, over so many of them. */
static double time_calls(const struct task *task, unsigned e, unsigned long repetitions, struct outcome *outcome) {
  clear(outcome);
  double begun = now();
  for (unsigned long k = 0; k < repetitions; k++) perform(engines[e], task, outcome);
  return (now() - begun) / (double)repetitions;
}

/* Finds how often a call is repeated to take long enough. */
static unsigned long count_repetitions(const struct task *task, unsigned e, struct outcome *outcome) {
  unsigned long repetitions = 1;
  while (time_calls(task, e, repetitions, outcome) * (double)repetitions < LONG_ENOUGH) repetitions *= 2;
  return repetitions;
}

/* ---- the run ---- */

static struct outcome expected[MOST_TASKS];

/* Every engine performs every task that it can; from now on the others are compared with the library's outcome. */
static void prepare(void) {
  static struct outcome outcome;
  for (unsigned t = 0; t < task_count; t++) {
    for (unsigned e = 0; e < ENGINES; e++) {
      if (!can_perform(engines[e], &tasks[t])) continue;
      tasks[t].repetitions[e] = count_repetitions(&tasks[t], e, &outcome);
      if (e == 0) expected[t] = outcome;
      compare(&tasks[t], e, &outcome, &expected[t]);
    }
  }
}

/* The searches by several maps have the plan of that of the same exercise by one map, which stands before them; the
 * tuned engine searches that one too. */
static void compare_by_maps(void) {
  static struct outcome outcome;
  for (unsigned t = 0, one = 0; t < task_count; t++) {
    const struct task *task = &tasks[t];
    if (task->map_count == 0) continue;
    if (task->map_count == 1) {
      one = t;
      clear(&outcome);
      const struct input *in = &task->input;
      outcome.answer = tuned_engine.find(in->block, in->length, &task->query, task->table, outcome.bytes);
      compare(task, TUNED, &outcome, &expected[t]);
    }
    compare_with_one_map(task, &expected[t], &expected[one]);
  }
}

/* One round: each task by all engines that can, in an order that is turned round from round to round. */
static void run_round(unsigned round) {
  static struct outcome outcome;
  for (unsigned t = 0; t < task_count; t++) {
    for (unsigned k = 0; k < ENGINES; k++) {
      unsigned e = round % 2 ? ENGINES - 1 - k : k;
      if (!can_perform(engines[e], &tasks[t])) continue;
      tasks[t].seconds[e][round] = time_calls(&tasks[t], e, tasks[t].repetitions[e], &outcome);
      compare(&tasks[t], e, &outcome, &expected[t]);
    }
  }
}

static int by_size(const void *a, const void *b) {
  double x = *(const double *)a, y = *(const double *)b;
  return (x > y) - (x < y);
}

static double median(const double *values, unsigned count) {
  double sorted[MOST_ROUNDS];
  memcpy(sorted, values, count * sizeof *values);
  qsort(sorted, count, sizeof *sorted, by_size);
  return count % 2 ? sorted[count / 2] : (sorted[count / 2 - 1] + sorted[count / 2]) / 2;
}

/* The library's time as a multiple of an engine's: the median of what the rounds say, since the calls of one round
 * stand close together and a machine that slows down slows down both. */
static double median_ratio(const struct task *task, unsigned e, unsigned rounds) {
  double ratios[MOST_ROUNDS];
  for (unsigned k = 0; k < rounds; k++) ratios[k] = task->seconds[0][k] / task->seconds[e][k];
  return median(ratios, rounds);
}

/* ---- the inputs ---- */

static struct task *add_task(const char *heading, const char *name, enum action action) {
  struct task *task = &tasks[task_count++];
  task->heading = heading;
  task->name = name;
  task->action = action;
  return task;
}

/* Fills the task's table by all engines that can, which must agree. */
static void fill_table(struct task *task) {
  static struct outcome first, outcome;
  for (unsigned e = 0; e < ENGINES; e++) {
    if (!has_call(engines[e], FILL)) continue;
    clear(&outcome);
    engines[e]->fill(task->input.block, task->input.length, outcome.table);
    if (e == 0) first = outcome;
    compare(task, e, &outcome, &first);
  }
  memcpy(task->table, first.table, sizeof task->table);
}

static void add_searches(void) {
  for (unsigned k = 0; k < SEARCHES; k++) {
    struct task *task = add_task("search, ns per visit", search_inputs[k].title, FIND);
    search_inputs[k].make(&task->input, &task->query);
    fill_table(task);
  }
}

/* The searches by one map, by two and by four. The library fills all tables, and the others the first one too. */
static void add_searches_by_maps(void) {
  static const unsigned counts[] = {1, 2, 4};
  for (unsigned k = 0; k < SEARCHES; k++) {
    for (unsigned c = 0; c < sizeof counts / sizeof *counts; c++) {
      struct task *task = add_task("search by maps", search_inputs[k].title, FIND);
      task->map_count = counts[c];
      task->maps = search_inputs[k].further_maps;
      task->maps_length = make_for_maps(&search_inputs[k], counts[c], &task->input, &task->query);
      fill_table(task);
      library_fill_by_maps(task->input.block, task->input.length, task->maps, task->maps_length, task->table);
    }
  }
}

static void add_batches(void) {
  for (unsigned k = 0; k < SEARCHES; k++) {
    struct task *task = add_task("search of a batch", search_inputs[k].title, FIND_BATCH);
    make_batch(&search_inputs[k], &task->input, &task->batch);
    fill_table(task);
  }
}

static void add_fills(void) {
  const char *heading = "fill, us";
  make_counter(&add_task(heading, "counter", FILL)->input, false);
  make_counter(&add_task(heading, "reversed counter", FILL)->input, true);
  make_rings(&add_task(heading, "rings", FILL)->input);
  make_random_rules(&add_task(heading, "random rules", FILL)->input);
}

/* The tables of the searches, which the library tests in each search, and the largest one. */
static void add_tests(void) {
  const char *heading = "test of a table, us";
  for (unsigned k = 0; k < SEARCHES; k++) {
    struct task *task = add_task(heading, search_inputs[k].title, TEST);
    search_inputs[k].make(&task->input, &task->query);
    fill_table(task);
  }
  struct task *task = add_task(heading, "random rules", TEST);
  make_random_rules(&task->input);
  fill_table(task);
}

static void add_openings(void) {
  const char *heading = "opening and refusing, us";
  make_small(&add_task(heading, "text, small", READ)->input);
  make_largest(&add_task(heading, "text, largest", READ)->input);
  make_largest(&add_task(heading, "block, largest", CHECK)->input);
  make_damaged(&add_task(heading, "text, refused (7)", READ)->input);
  make_damaged(&add_task(heading, "block, refused (7)", CHECK)->input);
}

/* ---- the table ---- */

/* The width of a column of ratios, which is headed by two names. */
static int ratio_width(unsigned e) { return (int)(strlen(engines[0]->name) + 1 + strlen(engines[e]->name)); }

/* A task's column of times or ratios; an engine that is left out has a dash. */
static void print_time(const struct task *task, unsigned e, unsigned rounds, double unit) {
  if (can_perform(engines[e], task)) {
    printf(" %10.2f", median(task->seconds[e], rounds) / unit);
  } else {
    printf(" %10s", "-");
  }
}

static void print_ratio(const struct task *task, unsigned e, unsigned rounds) {
  if (can_perform(engines[e], task)) {
    printf(" %*.2f", ratio_width(e), median_ratio(task, e, rounds));
  } else {
    printf(" %*s", ratio_width(e), "-");
  }
}

/* The head of a table that has columns for so many engines, and the row of a task in it. */
static void print_head(const char *heading, unsigned columns) {
  printf("%-20s", heading);
  for (unsigned e = 0; e < columns; e++) printf(" %10s", engines[e]->name);
  for (unsigned e = 1; e < columns; e++) printf(" %s/%s", engines[0]->name, engines[e]->name);
  printf("\n");
}

static void print_row(const struct task *task, unsigned columns, unsigned rounds, double unit) {
  printf("  %-18s", task->name);
  for (unsigned e = 0; e < columns; e++) print_time(task, e, rounds, unit);
  for (unsigned e = 1; e < columns; e++) print_ratio(task, e, rounds);
}

static void print_task(const struct task *task, const struct outcome *outcome, unsigned rounds) {
  print_row(task, SINGLE, rounds, task->action == FIND ? outcome->answer.visits * 1e-9 : 1e-6);
  if (task->action == FIND) printf("   %u visits", outcome->answer.visits);
  printf("\n");
}

static void print_tasks(unsigned rounds) {
  const char *heading = "";
  print_head("", SINGLE);
  for (unsigned t = 0; t < task_count; t++) {
    if (tasks[t].map_count > 0 || tasks[t].action == FIND_BATCH) continue;
    if (strcmp(heading, tasks[t].heading) != 0) printf("%s\n", tasks[t].heading);
    heading = tasks[t].heading;
    print_task(&tasks[t], &expected[t], rounds);
  }
}

/* The visits of all queries of a batch. */
static uint32_t count_visits(const uint8_t *answers) {
  uint32_t visits = 0;
  for (unsigned q = 0; q < BATCH_SIZE; q++) visits += visits_in(answers + q * ANSWER_LENGTH);
  return visits;
}

/* The searches of batches: the time of a query is its share in that of the batch, with what is done once a call. */
static void print_batches(unsigned rounds) {
  print_head("batch, us per query", ENGINES);
  for (unsigned t = 0; t < task_count; t++) {
    if (tasks[t].action != FIND_BATCH) continue;
    print_row(&tasks[t], ENGINES, rounds, BATCH_SIZE * 1e-6);
    printf("   %u visits\n", count_visits(expected[t].bytes));
  }
}

/* The library's searches by maps: all time is that of the call, with the test of all tables. */
static void print_by_maps(unsigned rounds) {
  printf("%-20s %10s %10s %12s %10s\n", "search by maps", "maps", "visits", "ns per visit", "ms in all");
  for (unsigned t = 0; t < task_count; t++) {
    if (tasks[t].map_count == 0) continue;
    double seconds = median(tasks[t].seconds[0], rounds);
    uint32_t visits = expected[t].answer.visits;
    printf("  %-18s %10u %10u %12.2f %10.3f\n", tasks[t].name, tasks[t].map_count, visits, seconds / visits * 1e9,
           seconds * 1e3);
  }
}

/* The number of rounds that the caller asks for, or 0 where it is none. */
static unsigned count_rounds(int arguments, char **argument) {
  if (arguments == 1) return USUAL_ROUNDS;
  char *end;
  unsigned long rounds = strtoul(argument[1], &end, 10);
  bool fits = arguments == 2 && *end == '\0' && rounds >= 1 && rounds <= MOST_ROUNDS;
  return fits ? (unsigned)rounds : 0;
}

int main(int arguments, char **argument) {
  unsigned rounds = count_rounds(arguments, argument);
  if (rounds == 0) {
    fprintf(stderr, "usage: bench/run [rounds, 1 to %d]\n", MOST_ROUNDS);
    return 2;
  }
  add_searches();
  add_batches();
  add_fills();
  add_tests();
  add_openings();
  add_searches_by_maps();
  prepare();
  compare_by_maps();
  for (unsigned round = 0; round < rounds; round++) {
    fprintf(stderr, "round %u of %u\n", round + 1, rounds);
    run_round(round);
  }
  print_tasks(rounds);
  print_batches(rounds);
  print_by_maps(rounds);
  return 0;
}
