// The stops: at which call the program ends, and what its files lose where the machine stops too.
#define _GNU_SOURCE
#include "preload.h"

#include <stdint.h>
#include <stdlib.h>
#include <string.h>
#include <sys/stat.h>
#include <unistd.h>

// What a file held before a change that is not synced.
struct change {
  struct change *before;
  int file;
  off_t at, length;
  ssize_t size;
  size_t written;
  char bytes[];
};

// The bytes that a disk writes at once, whatever becomes of the block in which they stand.
enum { SECTOR = 512, BLOCK = 8 };

static struct change *unsynced;

void keep(int file, off_t at, size_t size) {
  if (!switches.stops) return;
  struct stat now;
  struct change *change = malloc(sizeof *change + size);
  if (change == NULL || fstat(file, &now) != 0) abort();
  const ssize_t got = NEXT(pread)(file, change->bytes, size, at);
  *change = (struct change){unsynced, file, at, now.st_size, got < 0 ? 0 : got, size};
  unsynced = change;
}

void keep_end(int file, off_t size) {
  if (!switches.stops) return;
  struct stat now;
  const bool is_cut = fstat(file, &now) == 0 && now.st_size > size;
  keep(file, size, is_cut ? (size_t)(now.st_size - size) : 0);
  unsynced->written = 0;
}

void forget(int file) {
  for (struct change **it = &unsynced; *it != NULL;) {
    struct change *change = *it;
    if (change->file == file) {
      *it = change->before;
      free(change);
    } else {
      it = &change->before;
    }
  }
}

// Takes back what is not synced, the last change first.
static void lose(void) {
  for (const struct change *it = unsynced; it != NULL; it = it->before) {
    if (NEXT(pwrite)(it->file, it->bytes, (size_t)it->size, it->at) != it->size) abort();
    if (NEXT(ftruncate)(it->file, it->length) != 0) abort();
  }
}

// Some number of 32 bits that follows from two numbers.
static uint32_t mixed(uint32_t one, uint32_t other) {
  uint32_t bits = (one * 2654435761u) ^ (other * 2246822519u);
  bits = (bits ^ (bits >> 15)) * 2246822519u;
  return bits ^ (bits >> 13);
}

// Whether a disk that tears its blocks has not come to this sector of a file.
static bool is_torn_off(int file, off_t sector) {
  if (switches.how >= ANY) return mixed(switches.how, (uint32_t)sector * 64 + (uint32_t)file) % 2;
  if (switches.how >= FIRST) return sector % BLOCK >= (off_t)switches.how - FIRST;
  return sector % 2 == 1;
}

// Takes back the sectors of what is not synced that the disk has not come to: where there was
// nothing before, it is zeros.
static void tear(void) {
  for (const struct change *it = unsynced; it != NULL; it = it->before) {
    const off_t end = it->at + (off_t)it->written;
    for (off_t from = it->at, to; from < end; from = to) {
      to = (from / SECTOR + 1) * SECTOR < end ? (from / SECTOR + 1) * SECTOR : end;
      if (!is_torn_off(it->file, from / SECTOR)) continue;
      char bytes[SECTOR] = {0};
      const off_t held = it->at + it->size < to ? it->at + it->size : to;
      if (held > from) memcpy(bytes, it->bytes + (from - it->at), (size_t)(held - from));
      if (NEXT(pwrite)(it->file, bytes, (size_t)(to - from), from) != to - from) abort();
    }
  }
}

bool stops(void) {
  if (!switches.stops || !is_meant()) return false;
  if (switches.how == MACHINE) lose();
  if (switches.how >= TORN) tear();
  return true;
}
