/* Prints the text of the exercise of a search, from which its code is generated; or all names, where none is given. */
#include "exercises.h"

#include <stdio.h>

static void print_names(void) {
  for (unsigned k = 0; k < SEARCHES; k++) printf("%s\n", search_inputs[k].name);
}

static void print_exercise(const struct search_input *search) {
  static struct input input;
  struct query query;
  search->make(&input, &query);
  write_text(&input);
  fwrite(input.text, 1, input.text_length, stdout);
}

int main(int arguments, char **argument) {
  const struct search_input *search = arguments == 2 ? search_named(argument[1]) : NULL;
  if (arguments > 1 && !search) {
    fprintf(stderr, "usage: print_exercises [name]\n");
    return 2;
  }
  if (search) {
    print_exercise(search);
  } else {
    print_names();
  }
  return 0;
}
