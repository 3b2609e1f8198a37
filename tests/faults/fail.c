/* Lets reads of standard input or writes of standard output of the program that it is loaded into fail: of the kind that KIND says (read or
   write) the one whose number, from 1 on, FAILED says, and each after it. Where MOST says a number, no read or write takes more bytes than it. */
#define _GNU_SOURCE
#include <dlfcn.h>
#include <errno.h>
#include <stdlib.h>
#include <string.h>
#include <sys/types.h>

static long said(const char *name) {
  const char *value = getenv(name);
  return value ? atol(value) : 0;
}

static int fails(const char *kind, long *count) {
  const char *chosen = getenv("KIND");
  return chosen && !strcmp(chosen, kind) && ++*count >= said("FAILED");
}

static size_t most(size_t size) {
  size_t limit = (size_t)said("MOST");
  return limit && limit < size ? limit : size;
}

ssize_t read(int from, void *into, size_t size) {
  static ssize_t (*next)(int, void *, size_t);
  static long count;
  if (!next) next = (ssize_t (*)(int, void *, size_t))dlsym(RTLD_NEXT, "read");
  if (from != 0) return next(from, into, size);
  if (fails("read", &count)) {
    errno = EIO;
    return -1;
  }
  return next(from, into, most(size));
}

ssize_t write(int to, const void *bytes, size_t size) {
  static ssize_t (*next)(int, const void *, size_t);
  static long count;
  if (!next) next = (ssize_t (*)(int, const void *, size_t))dlsym(RTLD_NEXT, "write");
  if (to != 1) return next(to, bytes, size);
  if (fails("write", &count)) {
    errno = EIO;
    return -1;
  }
  return next(to, bytes, most(size));
}
