// The faults: which calls of the disk fail.
#define _GNU_SOURCE
#include "preload.h"

#include <errno.h>
#include <stdio.h>
#include <stdlib.h>
#include <string.h>
#include <unistd.h>

static bool serves;

void hear(const void *bytes, size_t size) {
  static const char said[] = "serving\n";
  serves |= size == sizeof said - 1 && memcmp(bytes, said, size) == 0;
}

static bool fails_if_meant(void) {
  if (switches.waits_for_serving && !serves) return false;
  if (!is_meant()) return false;
  errno = switches.error;
  return true;
}

bool fails(void) { return switches.fails && switches.synced == NULL && fails_if_meant(); }

bool is_of_path(int file, const char *wanted) {
  char link[64], path[4096];
  snprintf(link, sizeof link, "/proc/self/fd/%d", file);
  const ssize_t size = readlink(link, path, sizeof path - 1);
  if (size < 0) abort();
  path[size] = 0;
  return strcmp(path, wanted) == 0;
}

bool fails_to_sync(int file) {
  if (!switches.fails) return false;
  if (switches.synced != NULL && !is_of_path(file, switches.synced)) return false;
  return fails_if_meant();
}
