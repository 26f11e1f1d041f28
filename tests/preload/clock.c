// The clock of the day, at the moments that a test sets.
#define _GNU_SOURCE
#include "preload.h"

#include <errno.h>
#include <fcntl.h>
#include <stdlib.h>
#include <sys/syscall.h>
#include <time.h>
#include <unistd.h>

// The next of the moments that are set; gives whether there is one.
static bool next_moment(long *moment) {
  char *end;
  *moment = strtol(switches.moments, &end, 10);
  const bool is_there = end != switches.moments;
  switches.moments = end;
  return is_there;
}

// The moment that stands in the file; gives whether there is one.
static bool moment_of_file(long *moment) {
  char text[16] = "";
  const int file = open(switches.moment, O_RDONLY);
  const ssize_t count = read(file, text, sizeof text - 1);
  close(file);
  *moment = atol(text);
  return count > 0;
}

int clock_gettime(clockid_t clock, struct timespec *time) {
  const bool is_set = switches.moments != NULL || switches.moment != NULL;
  // (the system itself is asked: a program with address checks reads a clock before it can look
  // for a function)
  if (clock != CLOCK_REALTIME || !is_set) return (int)syscall(SYS_clock_gettime, clock, time);
  long moment;
  if (!(switches.moments != NULL ? next_moment : moment_of_file)(&moment)) {
    errno = EINVAL;
    return -1;
  }
  *time = (struct timespec){.tv_sec = moment};
  return 0;
}
