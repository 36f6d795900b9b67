/* The inputs of the benchmark: each as a block, and those for opening also as text. */
#ifndef BENCH_EXERCISES_H
#define BENCH_EXERCISES_H

#include "block.h"
#include "engine.h"
#include "records.h"

enum { MOST_TEXT = 2 * MOST_BLOCK + 2 + MOST_RULES + MOST_GOALS };

struct input {
  uint8_t block[MOST_BLOCK];
  size_t length;
  uint8_t text[MOST_TEXT];
  size_t text_length;
};

/* Writes the text of a finished block. */
void write_text(struct input *input);

/* For the search. The name is one for files as well; the title is what is printed. */
struct search_input {
  const char *name;
  const char *title;
  void (*make)(struct input *input, struct query *query);
  /* Three further maps, each K and a byte for each label; and the map, in the same form, that takes the place of the
   * exercise's own where that leaves no room for them, or NULL. */
  const uint8_t *further_maps;
  const uint8_t *smaller_map;
};

enum { SEARCHES = 4, MOST_MAPS = 4 };

extern const struct search_input search_inputs[SEARCHES];

/* The one with this name, or NULL. */
const struct search_input *search_named(const char *name);

/* The exercise of a search for one to four maps, its own included, and the bytes of the further ones. Visits are enough
 * for the plan to be found. */
size_t make_for_maps(const struct search_input *search, unsigned maps, struct input *input, struct query *query);

/* The exercise of a search, and a batch of queries with its limits, from the states that are nearest to its goal. */
void make_batch(const struct search_input *search, struct input *input, struct query_batch *batch);

/* For tables, all of 16,384 entries. */
void make_counter(struct input *input, bool reversed);
void make_rings(struct input *input);
void make_random_rules(struct input *input);

/* For opening; the damaged one is refused for the last term of its last rule, which is unbound. */
void make_small(struct input *input);
void make_largest(struct input *input);
void make_damaged(struct input *input);

#endif
