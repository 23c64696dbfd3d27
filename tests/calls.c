/* Loaded before the C library, stands between the program and what it opens. The environment says what it does:

   NOTE=FILE     writes each call that changes a file or a folder, syncs one, or writes to a stream, to FILE, in order
   FAIL=N        the N-th call, from 1, fails, with the error number ERROR, and does nothing
   THEN=K        the K-th call after that fails too; THEN=all: all of them
   ONLY=NAMES    calls of these names alone count, which blanks separate
   REFUSED=1     calls count from the one on that follows an allocation which refuse.c refused
   KILL=N        the program is killed at the N-th call, which does nothing
   TEAR=N        where that call is a write to a file at a place, it writes at most N bytes first
   PIECES=N      one call writes at most N bytes, and reads at most N of a stream
   PARTS=N       one call reads at most N bytes of a file at a place
   SIPS=N        one call on a socket reads or writes at most N bytes

   The name of each call that failed goes to the file "failed" in the program's folder. Calls on standard error neither
   count nor fail: the program names its fault there. Needs the GNU C library.
   More than 200 lines: each call is one function of the C library. */
#define _GNU_SOURCE
#include <dlfcn.h>
#include <errno.h>
#include <fcntl.h>
#include <signal.h>
#include <stdarg.h>
#include <stdint.h>
#include <stdlib.h>
#include <string.h>
#include <sys/socket.h>
#include <sys/stat.h>
#include <sys/syscall.h>
#include <sys/uio.h>
#include <unistd.h>

static long number(const char *name) {
  const char *text = getenv(name);
  return text ? atol(text) : 0;
}

static long calls = 0;

/* Whether refuse.c, where it is loaded too, has refused an allocation. */
extern int has_refused __attribute__((weak));

/* Whether a call of this name counts. */
static int counts(const char *name) {
  static const char *only = NULL;
  static int is_read = 0, awaits = 0;
  if (!is_read) {
    only = getenv("ONLY");
    awaits = number("REFUSED") > 0;
    is_read = 1;
  }
  if (awaits && !(&has_refused && has_refused))
    return 0;
  size_t size = strlen(name);
  for (const char *at = only; at && (at = strstr(at, name)); at += size)
    if ((at == only || at[-1] == ' ') && (at[size] == ' ' || at[size] == 0))
      return 1;
  return only == NULL;
}

/* Whether the program is killed at the next call. */
static int is_last(void) {
  static long at = -1;
  if (at < 0)
    at = number("KILL");
  return at == calls + 1;
}

/* What the environment says of failing calls: says whether this one, the next one, fails. */
static int fails(const char *name) {
  static long at = -1, then = 0, all = 0;
  if (!counts(name))
    return 0;
  if (is_last())
    kill(getpid(), SIGKILL);
  if (at < 0) {
    const char *text = getenv("THEN");
    at = number("FAIL");
    then = number("THEN");
    all = text && strcmp(text, "all") == 0;
  }
  calls++;
  if (at == 0 || calls < at || (calls > at && !all && calls != at + then))
    return 0;
  long file = syscall(SYS_openat, AT_FDCWD, "failed", O_CREAT | O_WRONLY | O_APPEND | O_CLOEXEC, 0600);
  if (file >= 0) {
    syscall(SYS_write, file, name, strlen(name));
    syscall(SYS_write, file, "\n", 1);
    syscall(SYS_close, file);
  }
  errno = (int)number("ERROR");
  return 1;
}

static size_t at_most(long most, size_t size) { return most > 0 && size > (size_t)most ? (size_t)most : size; }

/* A size of at most the number that the environment has under this name, which is read once. */
#define LIMITS(function, name, other)                                                                                  \
  static size_t function(size_t size) {                                                                                \
    static long most = -1;                                                                                             \
    if (most < 0)                                                                                                      \
      most = number(name);                                                                                             \
    return at_most(most, other(size));                                                                                 \
  }
LIMITS(piece, "PIECES", )
LIMITS(sip, "SIPS", piece)
LIMITS(part, "PARTS", )

/* One call: what it was, on which descriptor, a place or a length, and so many bytes that follow. */
struct note {
  int32_t kind, file;
  int64_t at, size;
};

static void all_to(long file, const void *bytes, size_t size) {
  for (size_t done = 0; done < size;) {
    long put = syscall(SYS_write, file, (const char *)bytes + done, size - done);
    if (put <= 0)
      _exit(99);
    done += (size_t)put;
  }
}

static void note(int kind, int file, int64_t at, const void *bytes, size_t size) {
  static long to = -2;
  if (to == -2) {
    const char *path = getenv("NOTE");
    to = path ? syscall(SYS_openat, AT_FDCWD, path, O_CREAT | O_WRONLY | O_APPEND | O_CLOEXEC, 0600) : -1;
    if (to >= 0)
      to = syscall(SYS_fcntl, to, F_DUPFD_CLOEXEC, 500);
  }
  if (to < 0)
    return;
  struct note head = {kind, file, at, (int64_t)size};
  all_to(to, &head, sizeof head);
  all_to(to, bytes, size);
}

#define NEXT(type, name, ...)                                                                                          \
  static type (*next)(__VA_ARGS__);                                                                                    \
  if (!next)                                                                                                           \
    next = (type(*)(__VA_ARGS__))dlsym(RTLD_NEXT, name)

/* A call that is passed on: of this type, which is `failed` where it fails, by this name among those that count. */
#define PASSES(type, failed, function, next_one, name, words, ...)                                                     \
  type function(__VA_ARGS__) {                                                                                         \
    NEXT(type, next_one, __VA_ARGS__);                                                                                 \
    return fails(name) ? failed : next words;                                                                          \
  }

static void note_opened(int file, const char *path, int is_made) {
  int error = errno;
  note('o', file, is_made, path, strlen(path));
  errno = error;
}

static int opened(const char *name, int folder, const char *path, int flags, mode_t mode) {
  NEXT(int, "openat", int, const char *, int, ...);
  if (fails(name))
    return -1;
  int was = (flags & O_CREAT) && syscall(SYS_faccessat, folder, path, F_OK) == 0;
  int file = next(folder, path, flags, mode);
  if (file >= 0)
    note_opened(file, path, (flags & O_CREAT) && !was);
  return file;
}

static mode_t mode_of(int flags, va_list rest) {
  return flags & (O_CREAT | O_TMPFILE) ? (mode_t)va_arg(rest, int) : 0;
}

// an opening by this function, of a path in this folder; what comes before the path is given last, with its comma
#define OPENS(function, name, folder, ...)                                                                             \
  int function(__VA_ARGS__ const char *path, int flags, ...) {                                                         \
    va_list rest;                                                                                                      \
    va_start(rest, flags);                                                                                             \
    mode_t mode = mode_of(flags, rest);                                                                                \
    va_end(rest);                                                                                                      \
    return opened(name, folder, path, flags, mode);                                                                    \
  }
OPENS(open, "open", AT_FDCWD, )
OPENS(open64, "open", AT_FDCWD, )
OPENS(openat, "openat", folder, int folder, )
OPENS(openat64, "openat", folder, int folder, )

int close(int file) {
  NEXT(int, "close", int);
  note('c', file, 0, "", 0);
  return next(file);
}

PASSES(ssize_t, -1, pread, "pread64", "pread", (file, bytes, part(size), at), int file, void *bytes, size_t size, off_t at)
PASSES(ssize_t, -1, pread64, "pread64", "pread", (file, bytes, part(size), at), int file, void *bytes, size_t size, off_t at)

static ssize_t put_at(int file, const void *bytes, size_t size, off_t at) {
  NEXT(ssize_t, "pwrite64", int, const void *, size_t, off_t);
  long torn = is_last() ? number("TEAR") : -1;
  if (torn <= 0 && fails("pwrite"))
    return -1;
  ssize_t put = next(file, bytes, at_most(torn, piece(size)), at);
  if (put > 0)
    note('w', file, at, bytes, (size_t)put);
  if (torn > 0)
    fails("pwrite");
  return put;
}
ssize_t pwrite(int file, const void *bytes, size_t size, off_t at) { return put_at(file, bytes, size, at); }
ssize_t pwrite64(int file, const void *bytes, size_t size, off_t at) { return put_at(file, bytes, size, at); }

static int cut(int file, off_t size) {
  NEXT(int, "ftruncate64", int, off_t);
  if (fails("ftruncate"))
    return -1;
  int status = next(file, size);
  if (status == 0)
    note('t', file, size, "", 0);
  return status;
}
int ftruncate(int file, off_t size) { return cut(file, size); }
int ftruncate64(int file, off_t size) { return cut(file, size); }

static int synced(int file, int status) {
  if (status == 0)
    note('y', file, 0, "", 0);
  return status;
}
#define SYNCS(function)                                                                                                \
  int function(int file) {                                                                                             \
    NEXT(int, #function, int);                                                                                         \
    return fails(#function) ? -1 : synced(file, next(file));                                                           \
  }
SYNCS(fsync)
SYNCS(fdatasync)

PASSES(ssize_t, -1, read, "read", "read", (file, bytes, piece(size)), int file, void *bytes, size_t size)

/* The program writes its files by pwrite alone, so this is a stream. */
static ssize_t said(int file, const void *bytes, ssize_t put) {
  if (put > 0)
    note('s', file, 0, bytes, (size_t)put);
  return put;
}
ssize_t write(int file, const void *bytes, size_t size) {
  NEXT(ssize_t, "write", int, const void *, size_t);
  if (file == 2)
    return next(file, bytes, size);
  return fails("write") ? -1 : said(file, bytes, next(file, bytes, piece(size)));
}
ssize_t send(int file, const void *bytes, size_t size, int flags) {
  NEXT(ssize_t, "send", int, const void *, size_t, int);
  return fails("send") ? -1 : said(file, bytes, next(file, bytes, sip(size), flags));
}
PASSES(ssize_t, -1, recv, "recv", "recv", (file, bytes, sip(size), flags), int file, void *bytes, size_t size, int flags)

/* What else an opening and a port need; the last argument of fcntl is passed on as it is. */
int fcntl(int file, int command, ...) {
  NEXT(int, "fcntl", int, int, ...);
  va_list rest;
  va_start(rest, command);
  void *last = va_arg(rest, void *);
  va_end(rest);
  return fails("fcntl") ? -1 : next(file, command, last);
}
PASSES(int, -1, statx, "statx", "statx", (folder, path, flags, mask, about), int folder, const char *restrict path, int flags,
       unsigned int mask, struct statx *restrict about)
PASSES(char *, NULL, realpath, "realpath", "realpath", (path, to), const char *restrict path, char *restrict to)
PASSES(int, errno, posix_fadvise, "posix_fadvise64", "posix_fadvise", (file, at, size, advice), int file, off_t at, off_t size,
       int advice)
PASSES(int, -1, fchown, "fchown", "fchown", (file, owner, group), int file, uid_t owner, gid_t group)
PASSES(int, -1, fchmod, "fchmod", "fchmod", (file, mode), int file, mode_t mode)
PASSES(int, -1, bind, "bind", "bind", (file, address, size), int file, const struct sockaddr *address, socklen_t size)
PASSES(int, -1, listen, "listen", "listen", (file, backlog), int file, int backlog)
PASSES(int, -1, accept4, "accept4", "accept", (file, address, size, flags), int file, struct sockaddr *restrict address,
       socklen_t *restrict size, int flags)

/* What the program is not known to call: noted, so that a reader of the notes sees that they do not tell all. */
#define UNKNOWN(function, ...)                                                                                         \
  int function(__VA_ARGS__) {                                                                                          \
    note('?', 0, 0, #function, strlen(#function));                                                                     \
    errno = ENOSYS;                                                                                                    \
    return -1;                                                                                                         \
  }
UNKNOWN(rename, const char *from, const char *to)
UNKNOWN(unlink, const char *path)
UNKNOWN(truncate, const char *path, off_t size)
UNKNOWN(posix_fallocate, int file, off_t at, off_t size)
