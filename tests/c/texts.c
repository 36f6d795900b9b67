/* The texts of the refusals, in a file of their own: the header is included in two files of one program, and in this
 * one twice over. */
#include "../../include/mikjuqan.h"
#include "../../include/mikjuqan.h"
#include "findings.h"

#include <string.h>

/* One more than the highest number of a refusal. */
enum { NO_REFUSAL = 17 };

/* Whether the text of a number is that of no number below. */
static int is_new(uint32_t number) {
  for (uint32_t other = 0; other < number; other++) {
    if (strcmp(mikjuqan_refusal_text(number), mikjuqan_refusal_text(other)) == 0) return 0;
  }
  return 1;
}

void check_texts(void) {
  int all_new = 1, all_unended = 1;
  for (uint32_t number = 0; number <= NO_REFUSAL; number++) {
    const char *text = mikjuqan_refusal_text(number);
    all_new = all_new && is_new(number);
    all_unended = all_unended && strlen(text) > 0 && text[strlen(text) - 1] != '.';
  }
  expect(all_new, "each number from 0 to 16 has a text of its own, and 17 has another");
  expect(all_unended, "no text is empty or ends with a full stop");
  expect(strcmp(mikjuqan_refusal_text(UINT32_MAX), mikjuqan_refusal_text(NO_REFUSAL)) == 0,
         "all numbers above 16 have the same text");
  expect(strcmp(mikjuqan_refusal_text(MIKJUQAN_REFUSED_BUFFER), "the buffer is too short") == 0,
         "that of 11 says that the buffer is too short");
}
