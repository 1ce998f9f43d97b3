/* Looks for copies that are slow for their distance ("Copies" in docs/PERFORMANCE.md). Loaded before the C library, it sees each memcpy of
   a program, and at the program's end it tells of the long ones from one place of the stack to another: how many there were, and those
   whose target lies less than 32 bytes above the source modulo 4,096, but not at it. */
#define _GNU_SOURCE
#include <dlfcn.h>
#include <stddef.h>
#include <stdio.h>

enum { LONG = 2112, PAGE = 4096, NEAREST = 1, FARTHEST = 31, KEPT = 64 };

struct slow {
  size_t bytes;
  ptrdiff_t distance;
  unsigned long times;
};

extern char **environ; /* lies above the stack */

static struct slow kept[KEPT];
static size_t kinds;
static unsigned long copies;

static void keep(size_t bytes, ptrdiff_t distance) {
  size_t i = 0;
  while (i < kinds && (kept[i].bytes != bytes || kept[i].distance != distance)) i++;
  if (i == KEPT) return;
  if (i == kinds) kept[kinds++] = (struct slow){bytes, distance, 0};
  kept[i].times++;
}

void *memcpy(void *restrict target, const void *restrict source, size_t bytes) {
  static void *(*next)(void *, const void *, size_t);
  const char *below = (const char *)&below, *above = (const char *)environ, *to = target, *from = source;
  if (!next) *(void **)&next = dlsym(RTLD_NEXT, "memcpy");
  if (bytes >= LONG && below < to && to < above && below < from && from < above) {
    ptrdiff_t modulo = ((to - from) % PAGE + PAGE) % PAGE;
    copies++;
    if (modulo >= NEAREST && modulo <= FARTHEST) keep(bytes, to - from);
  }
  return next(target, source, bytes);
}

__attribute__((destructor)) static void tell(void) {
  fprintf(stderr, "long copies %lu, kinds of slow ones %zu\n", copies, kinds);
  for (size_t i = 0; i < kinds; i++)
    fprintf(stderr, "  slow: %lu of %zu bytes over %td\n", kept[i].times, kept[i].bytes, kept[i].distance);
}
