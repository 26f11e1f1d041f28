// The switches: they are read as the program begins, and as it ends their count is written.
#define _GNU_SOURCE
#include "preload.h"

#include <stdio.h>
#include <stdlib.h>

struct switches switches;

static long counted;

// The next number of a text, which goes on behind it. There has to be one.
static long next_number(const char **text) {
  char *end;
  const long number = strtol(*text, &end, 10);
  if (end == *text) abort();
  *text = end;
  return number;
}

// Reads a switch of the three that count, and the calls that it means: the number of the first,
// and of the last where it has one, too. Gives what is left of it; NULL where it isn't set.
static const char *counting(const char *name, bool has_last) {
  const char *text = getenv(name);
  if (text == NULL) return NULL;
  if (switches.refuses || switches.fails || switches.stops) abort();
  switches.first = switches.last = next_number(&text);
  if (has_last) switches.last = next_number(&text);
  return text;
}

__attribute__((constructor)) static void begin(void) {
  switches.moments = getenv("MOMENTS");
  switches.moment = getenv("MOMENT");
  switches.waits_for_serving = getenv("SERVING") != NULL;
  switches.synced = getenv("SYNCED");
  switches.counts_writes = getenv("WRITES") != NULL;
  switches.counts_names = getenv("NAMES") != NULL;
  switches.dropped = getenv("DROPPED");
  switches.left = getenv("LEFT");
  const char *rest = counting("FAULTS", true);
  switches.fails = rest != NULL;
  if (rest != NULL) switches.error = (int)next_number(&rest);
  rest = counting("STOPS", false);
  switches.stops = rest != NULL;
  if (rest != NULL) switches.how = (enum how)next_number(&rest);
  switches.refuses = counting("REFUSALS", true) != NULL;
}

bool is_meant(void) {
  counted++;
  return switches.first <= counted && counted <= switches.last;
}

__attribute__((destructor)) static void end(void) {
  const char *path = getenv("COUNTED");
  switches = (struct switches){0};  // what is done here is neither counted nor refused
  FILE *file = path == NULL ? NULL : fopen(path, "w");
  if (file == NULL) return;
  fprintf(file, "%ld\n", counted);
  fclose(file);
}
