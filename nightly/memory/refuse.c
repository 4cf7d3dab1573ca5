// Preloaded into a program, makes one of its allocations fail: the one whose number, from 1, is in REFUSE. Writes their
// number to the file that COUNT names.
#define _GNU_SOURCE
#include <dlfcn.h>
#include <stdio.h>
#include <stdlib.h>

static long count;

static int is_refused(void) {
  const char* number = getenv("REFUSE");
  return ++count == (number ? atol(number) : 0);
}

void* malloc(size_t size) {
  static void* (*real)(size_t);
  if (!real) real = dlsym(RTLD_NEXT, "malloc");
  return is_refused() ? NULL : real(size);
}

void* realloc(void* old, size_t size) {
  static void* (*real)(void*, size_t);
  if (!real) real = dlsym(RTLD_NEXT, "realloc");
  return is_refused() ? NULL : real(old, size);
}

__attribute__((destructor)) static void tell(void) {
  long told = count;
  const char* path = getenv("COUNT");
  FILE* file = path ? fopen(path, "w") : NULL;
  if (!file) return;
  fprintf(file, "%ld\n", told);
  fclose(file);
}
