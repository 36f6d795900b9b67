/* What the benchmark asks of an engine: the library, the plain engine and the tuned engine each have these calls, the
 * generated one has `find` alone. A call that an engine does not have is NULL.
 *
 * `read` and `check` take whatever they are handed. The others take a block that `check` accepts, and a table of as
 * many entries as the exercise has abstract states; `find` takes a table that passes the lower-bound test. */
#ifndef BENCH_ENGINE_H
#define BENCH_ENGINE_H

#include <stdbool.h>
#include <stddef.h>
#include <stdint.h>

/* The numbers of the refusals that an exercise can meet, in a block and in its text. */
enum {
  ACCEPTED = 0,
  REFUSED_CHARACTER = 1,
  REFUSED_LINE = 2,
  REFUSED_HEAD = 3,
  REFUSED_LENGTH = 4,
  REFUSED_MAP = 5,
  REFUSED_TERM = 6,
  REFUSED_UNBOUND = 7,
  REFUSED_BUFFER = 11
};

enum { FOUND = 0, NO_PLAN = 1, SPENT = 2 };

enum { NO_GOAL = 255 };

/* Where a search starts, and its limits on steps, cost and visits. */
struct query {
  uint8_t start[16];
  uint32_t steps;
  uint32_t cost;
  uint32_t visits;
};

/* What a search answers; without a plan steps and cost are 0, and the goal is NO_GOAL. */
struct answer {
  uint32_t status;
  uint32_t steps;
  uint32_t cost;
  uint32_t visits;
  uint32_t goal;
};

struct engine {
  const char *name;
  /* Reads an exercise from its text: writes the block and its length, or gives the number of the refusal. */
  uint32_t (*read)(const uint8_t *text, size_t text_length, uint8_t *block, size_t room, size_t *length);
  /* Gives 0 for a block that is accepted, or the number of the refusal. */
  uint32_t (*check)(const uint8_t *block, size_t length);
  /* Fills a table with the least costs of the relabelled exercise. */
  void (*fill)(const uint8_t *block, size_t length, uint32_t *table);
  /* Whether a table passes the lower-bound test. */
  bool (*test)(const uint8_t *block, size_t length, const uint32_t *table);
  /* Finds a plan and writes its rule numbers. */
  struct answer (*find)(const uint8_t *block, size_t length, const struct query *query, const uint32_t *table,
                        uint8_t *plan);
  /* The same with the block of the last `find`, which is not prepared again; only the tuned engine has it. */
  struct answer (*find_again)(const uint8_t *block, size_t length, const struct query *query, const uint32_t *table,
                              uint8_t *plan);
};

/* The library's fill and search with further maps, which the other engines do not have: each map is K and a byte for
 * each label, and there is none where the length is 0. The table has MOST_ENTRIES entries. */
void library_fill_by_maps(const uint8_t *block, size_t length, const uint8_t *maps, size_t maps_length,
                          uint32_t *table);
struct answer library_find_by_maps(const uint8_t *block, size_t length, const uint8_t *maps, size_t maps_length,
                                   const struct query *query, const uint32_t *table, uint8_t *plan);

/* The library's search of a whole batch in one call, which the other engines do not have: records of queries, and room
 * for those of the answers. Gives the bytes that were written. */
size_t library_find_batch(const uint8_t *block, size_t length, const uint8_t *queries, size_t queries_length,
                          const uint32_t *table, uint8_t *answers, size_t room);

extern const struct engine library_engine;
extern const struct engine plain_engine;
extern const struct engine tuned_engine;
extern const struct engine generated_engine;
/* The library once more, of which a batch is asked one query a call. */
extern const struct engine single_engine;

#endif
