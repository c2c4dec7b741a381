/* Laid before a program (LD_PRELOAD): the allocation with the number in FAIL_AT, counted from 1, answers that there is no memory. The
   number of all allocations is written to the file named in COUNT_TO, where one is. */
#include <errno.h>
#include <stdio.h>
#include <stdlib.h>

void *__libc_malloc(size_t);
void *__libc_calloc(size_t, size_t);
void *__libc_realloc(void *, size_t);
void *__libc_memalign(size_t, size_t);

static unsigned long count, fail_at;

__attribute__((constructor)) static void begin(void) {
  const char *at = getenv("FAIL_AT");
  fail_at = at ? strtoul(at, 0, 10) : 0;
  count = 0;
}

__attribute__((destructor)) static void end(void) {
  const char *name = getenv("COUNT_TO");
  unsigned long all = count;
  FILE *file = name ? fopen(name, "w") : 0;
  if (file) {
    fprintf(file, "%lu\n", all);
    fclose(file);
  }
}

static int fails(void) { return ++count == fail_at; }

void *malloc(size_t size) { return fails() ? 0 : __libc_malloc(size); }

void *calloc(size_t items, size_t size) { return fails() ? 0 : __libc_calloc(items, size); }

void *realloc(void *old, size_t size) { return fails() ? 0 : __libc_realloc(old, size); }

void *memalign(size_t align, size_t size) { return fails() ? 0 : __libc_memalign(align, size); }

void *aligned_alloc(size_t align, size_t size) { return memalign(align, size); }

int posix_memalign(void **place, size_t align, size_t size) {
  void *found = memalign(align, size);
  if (!found) return ENOMEM;
  *place = found;
  return 0;
}
