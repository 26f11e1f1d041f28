// The calls that read or change a file, of which some fail, and the program ends at one.
#define _GNU_SOURCE
#include "preload.h"

#include <fcntl.h>
#include <stdarg.h>
#include <stdio.h>
#include <sys/stat.h>
#include <unistd.h>

static const int STOPPED = 9;

// Whether it is a file, and neither a pipe nor a socket.
static bool is_file(int file) {
  struct stat now;
  return fstat(file, &now) == 0 && S_ISREG(now.st_mode);
}

ssize_t write(int file, const void *bytes, size_t size) {
  if (file == STDOUT_FILENO) hear(bytes, size);
  if (switches.counts_writes && is_file(file)) {
    if (fails()) return -1;
    if (stops()) {
      if (switches.how == HALFWAY) NEXT(write)(file, bytes, size / 2);
      _exit(STOPPED);
    }
  }
  return NEXT(write)(file, bytes, size);
}

ssize_t pread(int file, void *bytes, size_t size, off_t at) {
  return fails() ? -1 : NEXT(pread)(file, bytes, size, at);
}

ssize_t pwrite(int file, const void *bytes, size_t size, off_t at) {
  if (fails()) return -1;
  if (stops()) {
    if (switches.how == HALFWAY) NEXT(pwrite)(file, bytes, size / 2, at);
    _exit(STOPPED);
  }
  keep(file, at, size);
  return NEXT(pwrite)(file, bytes, size, at);
}

int ftruncate(int file, off_t size) {
  if (fails()) return -1;
  if (stops()) _exit(STOPPED);
  keep_end(file, size);
  return NEXT(ftruncate)(file, size);
}

// Whether a file can't be synced. Where it can, its changes are no longer to be lost.
static bool is_unsynced(int file) {
  if (fails_to_sync(file)) return true;
  if (stops()) _exit(STOPPED);
  forget(file);
  note_sync(file);
  return false;
}

int fsync(int file) { return is_unsynced(file) ? -1 : NEXT(fsync)(file); }

int fdatasync(int file) { return is_unsynced(file) ? -1 : NEXT(fdatasync)(file); }

int open(const char *path, int flags, ...) {
  if (!(flags & O_CREAT)) return NEXT(open)(path, flags);
  if (switches.counts_names && stops()) _exit(STOPPED);
  va_list more;
  va_start(more, flags);
  const mode_t mode = va_arg(more, mode_t);
  va_end(more);
  return NEXT(open)(path, flags, mode);
}

int rename(const char *from, const char *to) {
  if (switches.counts_names && stops()) _exit(STOPPED);
  return NEXT(rename)(from, to);
}

int unlink(const char *path) {
  if (switches.counts_names && stops()) _exit(STOPPED);
  return NEXT(unlink)(path);
}
