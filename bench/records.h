/* A batch of queries, and queries and answers as bytes: the library takes a batch as records and answers it so. A
 * number of four bytes has its high byte first. */
#ifndef BENCH_RECORDS_H
#define BENCH_RECORDS_H

#include "block.h"
#include "engine.h"

#include <string.h>

enum {
  BATCH_SIZE = 256,
  MOST_QUERY_LENGTH = MOST_POSITIONS + 9,
  /* An answer has this length whether it is a plan or not. */
  ANSWER_LENGTH = 11 + MOST_STEPS,
  BATCH_ANSWERS = BATCH_SIZE * ANSWER_LENGTH
};

/* The queries of a batch; and the same once more, as records back to back. */
struct query_batch {
  struct query queries[BATCH_SIZE];
  uint8_t records[BATCH_SIZE * MOST_QUERY_LENGTH];
  size_t length;
};

/* Writes a number and gives the place behind it. */
static inline uint8_t *write_number(uint8_t *to, uint32_t number) {
  for (unsigned i = 0; i < 4; i++) to[i] = (uint8_t)(number >> (24 - 8 * i));
  return to + 4;
}

static inline uint32_t read_number(const uint8_t *from) {
  return (uint32_t)from[0] << 24 | (uint32_t)from[1] << 16 | (uint32_t)from[2] << 8 | from[3];
}

/* Writes the record of a query and gives the place behind it. */
static inline uint8_t *write_query(uint8_t *to, const struct query *query, unsigned positions) {
  memcpy(to, query->start, positions);
  to[positions] = (uint8_t)query->steps;
  return write_number(write_number(to + positions + 1, query->cost), query->visits);
}

/* Writes the record of an answer: only a plan has a goal, and what is left over is 0. */
static inline void write_answer(uint8_t *to, const struct answer *answer, const uint8_t *plan) {
  memset(to, 0, ANSWER_LENGTH);
  *to++ = (uint8_t)answer->status;
  if (answer->status == FOUND) *to++ = (uint8_t)answer->goal;
  *to++ = (uint8_t)answer->steps;
  to = write_number(write_number(to, answer->cost), answer->visits);
  memcpy(to, plan, answer->steps);
}

/* The visits in the record of an answer. */
static inline uint32_t visits_in(const uint8_t *answer) { return read_number(answer + (answer[0] == FOUND ? 7 : 6)); }

#endif
