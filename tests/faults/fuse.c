// A heap that counts growths and refuses one of them, to stand before the C library's (LD_PRELOAD). FUSE=K: the K-th of the process, and
// FUSE_LOG is a file that is made as it is refused. A request for 2^62 bytes or more is a message, which the C library's own heap refuses:
// 2^40 + K more ask that the K-th growth from then on be refused, and 2^41 more whether one was, which ends the counting. It wants glibc.
#include <errno.h>
#include <fcntl.h>
#include <stddef.h>
#include <stdint.h>
#include <stdlib.h>
#include <unistd.h>

extern void *__libc_malloc(size_t);
extern void *__libc_realloc(void *, size_t);

static const size_t MESSAGE = (size_t)1 << 62, ARM = (size_t)1 << 40, ASK = (size_t)1 << 41;
static size_t left;
static int armed, blown;

__attribute__((constructor)) static void start(void) {
  const char *at = getenv("FUSE");
  if (at) armed = 1, left = strtoul(at, NULL, 10);
}

static int refuses(void) {
  if (!armed || blown || --left) return 0;
  blown = 1;
  const char *log = getenv("FUSE_LOG");
  if (log) close(open(log, O_CREAT | O_WRONLY, 0600));
  errno = ENOMEM;
  return 1;
}

static void *answered(int yes) {
  if (yes) return __libc_malloc(1);
  errno = ENOMEM;
  return NULL;
}

static void *message(size_t what) {
  int was = blown;
  if (what > ARM && what < ASK) {
    armed = 1, blown = 0, left = what - ARM;
    return answered(1);
  }
  if (what != ASK) return answered(0);
  armed = blown = 0;
  return answered(was);
}

void *malloc(size_t n) {
  if (n >= MESSAGE) return message(n - MESSAGE);
  return refuses() ? NULL : __libc_malloc(n);
}

void *realloc(void *p, size_t n) { return refuses() ? NULL : __libc_realloc(p, n); }
