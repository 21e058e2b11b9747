// Refuses one growth of a program: its REFUSED-th call of malloc or realloc, counted from 1.
// It is loaded into the program beforehand; where a growth was refused it leaves one byte on descriptor 9.
#define _GNU_SOURCE
#include <dlfcn.h>
#include <stddef.h>
#include <stdlib.h>
#include <unistd.h>

static long made;

static int is_refused(void) {
  static long refused = -1;
  if (refused < 0) {
    const char *text = getenv("REFUSED");
    refused = text ? atol(text) : 0;
  }
  // Threads count together.
  if (__atomic_add_fetch(&made, 1, __ATOMIC_SEQ_CST) != refused) return 0;
  return write(9, "!", 1) == 1;
}

void *malloc(size_t size) {
  static void *(*next)(size_t);
  if (!next) *(void **)&next = dlsym(RTLD_NEXT, "malloc");
  return is_refused() ? NULL : next(size);
}

void *realloc(void *block, size_t size) {
  static void *(*next)(void *, size_t);
  if (!next) *(void **)&next = dlsym(RTLD_NEXT, "realloc");
  return is_refused() ? NULL : next(block, size);
}
