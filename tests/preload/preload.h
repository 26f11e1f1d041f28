// A library that is loaded before the C library's own, so that a program meets what is rare: a
// clock at moments of a test's own, memory that is refused, a disk that fails, a stop of the
// program or of the machine. Each is a switch in the environment; where none is set, nothing
// changes.
//
//   MOMENTS=MOMENT ..        The clock of the day is at these moments, one after another, with a
//                            space between each two; after the last it can't be read.
//   MOMENT=FILE              The clock of the day is at the moment that stands in this file.
//
// One of these three is set at a time. Each counts calls, from 1, and does no more than that where
// its numbers are 0.
//
//   REFUSALS=FIRST LAST      Counts the allocations, and refuses those from number FIRST to LAST.
//   FAULTS=FIRST LAST ERROR  Counts the calls that read or change a file, and lets those from
//                            number FIRST to LAST fail with the error of number ERROR.
//   STOPS=NUMBER HOW         Counts the calls that change a file, and ends the program at that of
//                            this number: before it, where HOW is 0, or with half of what it
//                            writes, where it is 1. Where it is 2 the machine stops too, so that
//                            what was not synced is lost. Where it is 3 the machine stops as the
//                            disk writes that: blocks are torn, and of each two sectors of 512 bytes
//                            that were written one is new, the other as it was. Where it is 11 to
//                            17, of each block of 4 KiB the first 1 to 7 sectors are new, and where
//                            it is 100 or more, any of them, by that number.
//
// Which calls these count, and how many they were, these say.
//
//   SERVING=1                With FAULTS: they are counted from the one after the program has said
//                            that it serves.
//   SYNCED=PATH              With FAULTS: only syncs are counted, of the file or folder of this
//                            path.
//   WRITES=1                 With FAULTS or STOPS: writes to a file that are no changes of the room,
//                            but its journal, are counted too.
//   NAMES=1                  With STOPS: the calls that make, move or remove a file are counted too.
//   COUNTED=FILE             A program that comes to its end writes to this file how many calls
//                            were counted.
//
// And what the disk has of a file may be less than the system shows.
//
//   DROPPED=PATH             Where the system's copies of the file of this path are dropped, they
//                            stay, and that is an error.
//   LEFT=SIZE                With DROPPED: they are dropped, and where the file was synced before,
//                            it has so many bytes from then on.
#ifndef PRELOAD_H
#define PRELOAD_H

#include <dlfcn.h>
#include <stdbool.h>
#include <sys/types.h>

// The function of a name that would be called without this library. (A macro, for its type is that
// of the name.)
#define NEXT(name) ((__typeof__(&name))dlsym(RTLD_NEXT, #name))

// The program doesn't see what the files of this library share.
#pragma GCC visibility push(hidden)

// Where a stop lets its call come to.
enum how { BEFORE, HALFWAY, MACHINE, TORN, FIRST = 10, ANY = 100 };

// What the switches say.
struct switches {
  const char *moments, *moment;
  bool refuses, fails, stops;
  long first, last;
  int error;
  enum how how;
  bool waits_for_serving, counts_writes, counts_names;
  const char *synced, *dropped, *left;
};

extern struct switches switches;

// Counts a call; gives whether it is one that the switches mean.
bool is_meant(void);

// Whether a file or folder is open that has this path.
bool is_of_path(int file, const char *wanted);

// Whether a call that reads or changes a file fails, or one that syncs it. If so, errno says how.
bool fails(void);
bool fails_to_sync(int file);

// Notes what is written to standard output, for it may say that the program serves.
void hear(const void *bytes, size_t size);

// Whether the program ends at a call that changes a file. If so, what the machine loses is lost.
bool stops(void);

// Keeps what a file holds from a place on, before it is changed there, as long as it isn't synced.
void keep(int file, off_t at, size_t size);
void keep_end(int file, off_t size);
void forget(int file);

// Notes that a file is synced.
void note_sync(int file);

#pragma GCC visibility pop
#endif
