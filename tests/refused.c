// To be loaded before the C library: the call number FAIL_AT of the kind FAIL_KIND fails, or moves one byte. The kinds are
// alloc, read, write, short_read and short_write; of reads and writes those on standard input and standard output count.
// The file descriptor FAIL_TOLD is given a byte when it happens.
#define _GNU_SOURCE
#include <dlfcn.h>
#include <errno.h>
#include <stdlib.h>
#include <string.h>
#include <sys/syscall.h>
#include <unistd.h>

static long calls;

static int strikes(const char *kind) {
  const char *wanted = getenv("FAIL_KIND"), *at = getenv("FAIL_AT"), *told = getenv("FAIL_TOLD");
  if (!wanted || !at || !told || strcmp(kind, wanted) || ++calls != atol(at)) return 0;
  syscall(SYS_write, atoi(told), "x", 1);
  return 1;
}

void *malloc(size_t size) {
  static void *(*next)(size_t);
  if (!next) next = dlsym(RTLD_NEXT, "malloc");
  return strikes("alloc") ? NULL : next(size);
}

void *realloc(void *old, size_t size) {
  static void *(*next)(void *, size_t);
  if (!next) next = dlsym(RTLD_NEXT, "realloc");
  return strikes("alloc") ? NULL : next(old, size);
}

ssize_t read(int fd, void *bytes, size_t count) {
  if (fd == 0 && strikes("read")) { errno = EIO; return -1; }
  if (fd == 0 && count > 1 && strikes("short_read")) count = 1;
  return syscall(SYS_read, fd, bytes, count);
}

ssize_t write(int fd, const void *bytes, size_t count) {
  if (fd == 1 && strikes("write")) { errno = ENOSPC; return -1; }
  if (fd == 1 && count > 1 && strikes("short_write")) count = 1;
  return syscall(SYS_write, fd, bytes, count);
}

ssize_t __write(int fd, const void *bytes, size_t count) { return write(fd, bytes, count); }
