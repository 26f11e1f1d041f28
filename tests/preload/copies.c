// The copies that the system keeps of a file: once they are dropped, only what the disk has is read.
#define _GNU_SOURCE
#include "preload.h"

#include <errno.h>
#include <fcntl.h>
#include <stdlib.h>
#include <unistd.h>

static bool is_synced;

static bool is_dropped(int file) {
  return switches.dropped != NULL && is_of_path(file, switches.dropped);
}

void note_sync(int file) { is_synced |= is_dropped(file); }

int posix_fadvise(int file, off_t at, off_t size, int advice) {
  if (advice != POSIX_FADV_DONTNEED || !is_dropped(file)) {
    return NEXT(posix_fadvise)(file, at, size, advice);
  }
  if (switches.left == NULL) return EIO;
  if (is_synced && NEXT(ftruncate)(file, atol(switches.left)) != 0) abort();
  return 0;
}
