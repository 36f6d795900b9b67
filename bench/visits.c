/* Runs one engine's search of one exercise once, with so many visits allowed: its instructions are to be counted. With
 * a number of maps it is the library's search with that many, the exercise's own included. */
#include "exercises.h"

#include <stdio.h>
#include <stdlib.h>
#include <string.h>

static const struct engine *const engines[] = {&library_engine, &tuned_engine, &plain_engine, &generated_engine};

static const struct engine *engine_named(const char *name) {
  for (size_t k = 0; k < sizeof engines / sizeof *engines; k++) {
    if (strcmp(engines[k]->name, name) == 0) return engines[k];
  }
  return NULL;
}

/* Whether the search makes all visits that it is allowed. The table is filled by the same engine for all of them. */
static bool uses_allowance(const struct engine *engine, const struct search_input *search, uint32_t visits) {
  static struct input input;
  static uint32_t table[MOST_ENTRIES];
  uint8_t plan[MOST_STEPS];
  struct query query;
  search->make(&input, &query);
  query.visits = visits;
  tuned_engine.fill(input.block, input.length, table);
  struct answer answer = engine->find(input.block, input.length, &query, table, plan);
  return answer.status == SPENT && answer.visits == visits;
}

/* The same for the library with so many maps. */
static bool uses_allowance_by_maps(const struct search_input *search, uint32_t visits, unsigned maps) {
  static struct input input;
  static uint32_t table[MOST_ENTRIES];
  uint8_t plan[MOST_STEPS];
  struct query query;
  size_t length = make_for_maps(search, maps, &input, &query);
  query.visits = visits;
  library_fill_by_maps(input.block, input.length, search->further_maps, length, table);
  struct answer answer =
      library_find_by_maps(input.block, input.length, search->further_maps, length, &query, table, plan);
  return answer.status == SPENT && answer.visits == visits;
}

/* The number of maps that the caller asks for, or 0 where it is none. */
static unsigned count_maps(const char *text) {
  unsigned long maps = strtoul(text, NULL, 10);
  return maps <= MOST_MAPS ? (unsigned)maps : 0;
}

int main(int arguments, char **argument) {
  bool counts = arguments == 4 || arguments == 5;
  const struct engine *engine = counts ? engine_named(argument[1]) : NULL;
  const struct search_input *search = counts ? search_named(argument[2]) : NULL;
  unsigned maps = arguments == 5 ? count_maps(argument[4]) : 1;
  if (!engine || !search || maps == 0 || (arguments == 5 && engine != &library_engine)) {
    fprintf(stderr, "usage: visits engine exercise visits, or visits %s exercise visits maps\n", library_engine.name);
    return 2;
  }
  uint32_t visits = (uint32_t)strtoul(argument[3], NULL, 10);
  if (arguments == 5 ? uses_allowance_by_maps(search, visits, maps) : uses_allowance(engine, search, visits)) return 0;
  fprintf(stderr, "visits: the search of '%s' ends before it has made all visits\n", search->title);
  return 1;
}
