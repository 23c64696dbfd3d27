/* Loaded before the C library, makes each sync of a file take longer, by as many microseconds as DELAY says in the
   environment: a slower disk than the one that is there. Needs the GNU C library, and no rights of root. */
#define _GNU_SOURCE
#include <dlfcn.h>
#include <stdlib.h>
#include <sys/prctl.h>
#include <time.h>
#include <unistd.h>

static int after(int status) {
  static long delay = -1;
  if (delay < 0) {
    const char *text = getenv("DELAY");
    delay = text ? atol(text) : 0;
    prctl(PR_SET_TIMERSLACK, 1); // a sleep may else take 50 microseconds more
  }
  struct timespec left = {delay / 1000000, delay % 1000000 * 1000};
  while (delay > 0 && nanosleep(&left, &left) != 0) continue;
  return status;
}

#define SYNCS(function)                                                                                                \
  int function(int file) {                                                                                             \
    static int (*next)(int);                                                                                           \
    if (!next) next = (int (*)(int))dlsym(RTLD_NEXT, #function);                                                       \
    return after(next(file));                                                                                          \
  }
SYNCS(fsync)
SYNCS(fdatasync)
