// The allocations, of which some are refused.
#define _GNU_SOURCE
#include "preload.h"

#include <errno.h>
#include <stdlib.h>

static bool is_refused(void) {
  if (!switches.refuses || !is_meant()) return false;
  errno = ENOMEM;
  return true;
}

void *malloc(size_t size) { return is_refused() ? NULL : NEXT(malloc)(size); }

void *realloc(void *old, size_t size) { return is_refused() ? NULL : NEXT(realloc)(old, size); }

void *aligned_alloc(size_t align, size_t size) {
  return is_refused() ? NULL : NEXT(aligned_alloc)(align, size);
}

int posix_memalign(void **out, size_t align, size_t size) {
  return is_refused() ? ENOMEM : NEXT(posix_memalign)(out, align, size);
}
