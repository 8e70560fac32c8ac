// To be loaded before the C library: the program is given the words WORDS_COUNT times WORDS_SIZE digits, more and longer ones
// than a system hands on.
#define _GNU_SOURCE
#include <dlfcn.h>
#include <stdlib.h>
#include <string.h>

typedef int main_function(int, char **, char **);

int __libc_start_main(main_function *main, int count, char **words, void (*init)(void), void (*fini)(void),
                      void (*loader)(void), void *stack) {
  int (*next)(main_function *, int, char **, void (*)(void), void (*)(void), void (*)(void), void *) =
      dlsym(RTLD_NEXT, "__libc_start_main");
  size_t many = strtoul(getenv("WORDS_COUNT"), NULL, 10), size = strtoul(getenv("WORDS_SIZE"), NULL, 10), variables = 0;
  // The environment stands behind the words.
  char **environment = words + count + 1;
  while (environment[variables]) variables++;
  char *word = malloc(size + 1), **given = malloc((many + variables + 3) * sizeof *given);
  if (!word || !given) return 99;
  memset(word, '0', size);
  word[size] = 0;
  given[0] = words[0];
  for (size_t k = 1; k <= many; k++) given[k] = word;
  given[many + 1] = NULL;
  memcpy(given + many + 2, environment, (variables + 1) * sizeof *given);
  return next(main, (int)many + 1, given, init, fini, loader, stack);
}
