/* Refuses one request for memory of a program that is run with this library before the C library (LD_PRELOAD): the one whose number,
 * from 1 on, is in REFUSE. At the end it writes into the file that SEEN names how many there were, for how many bytes in all, and how
 * many blocks are held. */
#define _GNU_SOURCE
#include <dlfcn.h>
#include <errno.h>
#include <stdio.h>
#include <stdlib.h>

static long seen, asked, held;

static int refused(size_t size) {
  const char *number = getenv("REFUSE");
  asked += size;
  if (++seen != (number ? atol(number) : 0)) return 0;
  errno = ENOMEM;
  return 1;
}

static void *counted(void *block) {
  if (block) held++;
  return block;
}

void *malloc(size_t size) {
  void *(*real)(size_t) = dlsym(RTLD_NEXT, "malloc");
  return refused(size) ? NULL : counted(real(size));
}

void *realloc(void *block, size_t size) {
  void *(*real)(void *, size_t) = dlsym(RTLD_NEXT, "realloc");
  if (refused(size)) return NULL;
  return block ? real(block, size) : counted(real(block, size));
}

void *aligned_alloc(size_t alignment, size_t size) {
  void *(*real)(size_t, size_t) = dlsym(RTLD_NEXT, "aligned_alloc");
  return refused(size) ? NULL : counted(real(alignment, size));
}

void free(void *block) {
  void (*real)(void *) = dlsym(RTLD_NEXT, "free");
  if (block) held--;
  real(block);
}

__attribute__((destructor)) static void write_counts(void) {
  long requests = seen, bytes = asked, blocks = held; /* fopen makes more */
  const char *name = getenv("SEEN");
  FILE *file = name ? fopen(name, "w") : NULL;
  if (!file) return;
  fprintf(file, "%ld %ld %ld\n", requests, bytes, blocks);
  fclose(file);
}
