// Refuses one call of a program, which is loaded before the C library (LD_PRELOAD). REFUSE is a kind and a number from 1,
// as `memory 7`, and REFUSE_MARK names a file that is made where that call came.
//
//   memory   that call of malloc or realloc gives nothing
//   call     that call of open, read or write fails
//   short    that read or write of several bytes moves one
#define _GNU_SOURCE
#include <dlfcn.h>
#include <errno.h>
#include <fcntl.h>
#include <stdarg.h>
#include <stdlib.h>
#include <string.h>
#include <sys/syscall.h>
#include <unistd.h>

static long calls, number;
static char kind;

__attribute__((constructor)) static void begin(void) {
  const char *refuse = getenv("REFUSE");
  if (refuse && strchr(refuse, ' ')) {
    number = atol(strchr(refuse, ' '));
    kind = refuse[0];
  }
}

// Whether this call is the one that is refused, where it is of that kind.
static int is_refused(char of_kind) {
  if (kind != of_kind || ++calls != number) return 0;
  syscall(SYS_close, syscall(SYS_open, getenv("REFUSE_MARK"), O_CREAT | O_WRONLY, 0600));
  return 1;
}

void *malloc(size_t size) {
  static void *(*real)(size_t);
  if (!real) real = dlsym(RTLD_NEXT, "malloc");
  return is_refused('m') ? NULL : real(size);
}

void *realloc(void *old, size_t size) {
  static void *(*real)(void *, size_t);
  if (!real) real = dlsym(RTLD_NEXT, "realloc");
  return is_refused('m') ? NULL : real(old, size);
}

int open(const char *path, int flags, ...) {
  va_list rest;
  va_start(rest, flags);
  int mode = flags & O_CREAT ? va_arg(rest, int) : 0;
  va_end(rest);
  if (is_refused('c')) return errno = EIO, -1;
  return syscall(SYS_open, path, flags, mode);
}

ssize_t read(int file, void *bytes, size_t count) {
  if (is_refused('c')) return errno = EIO, -1;
  if (count > 1 && is_refused('s')) count = 1;
  return syscall(SYS_read, file, bytes, count);
}

ssize_t write(int file, const void *bytes, size_t count) {
  if (is_refused('c')) return errno = EIO, -1;
  if (count > 1 && is_refused('s')) count = 1;
  return syscall(SYS_write, file, bytes, count);
}

ssize_t __write(int file, const void *bytes, size_t count) { return write(file, bytes, count); }
