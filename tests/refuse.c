/* Loaded before the C library, refuses one allocation: the one whose place, from 1, is in the environment as REFUSE.
   Where the program comes that far, it leaves an empty file "refused" in its folder. With LATER=1 it refuses all later ones
   too. With REFUSE=none it refuses none, and at its end the file "refused" says how many there were. With REFUSE=sizes it
   refuses none either, and the file "sizes" has the size of each in a line of its own. Needs the GNU C library. */
#define _GNU_SOURCE
#include <errno.h>
#include <fcntl.h>
#include <stdio.h>
#include <stdlib.h>
#include <string.h>
#include <sys/syscall.h>
#include <unistd.h>

extern void *__libc_malloc(size_t size);
extern void *__libc_calloc(size_t count, size_t size);
extern void *__libc_realloc(void *old, size_t size);
extern void *__libc_memalign(size_t alignment, size_t size);

static long place = -1;
static long allocations = 0;
static int later = 0;
/* Whether an allocation was refused; calls.c looks. */
int has_refused = 0;
static int sizes = -1;

/* Writes this size without an allocation. */
static void note(size_t size) {
  char line[24];
  char *at = line + sizeof line;
  *--at = '\n';
  do
    *--at = (char)('0' + size % 10);
  while ((size /= 10) > 0);
  if (write(sizes, at, (size_t)(line + sizeof line - at)) < 0)
    abort();
}

static int is_refused(size_t size) {
  if (place < 0) {
    const char *text = getenv("REFUSE");
    place = text ? atol(text) : 0;
    later = getenv("LATER") != NULL;
    if (text && strcmp(text, "sizes") == 0)
      sizes = open("sizes", O_CREAT | O_WRONLY | O_TRUNC, 0600);
  }
  if (sizes >= 0)
    note(size);
  if (++allocations != place && !(later && place > 0 && allocations > place))
    return 0;
  if (has_refused) {
    errno = ENOMEM;
    return 1;
  }
  long file = syscall(SYS_openat, AT_FDCWD, "refused", O_CREAT | O_WRONLY | O_CLOEXEC, 0600);
  if (file >= 0)
    syscall(SYS_close, file);
  has_refused = 1;
  errno = ENOMEM;
  return 1;
}

/* At the end of a run that is refused nothing. */
__attribute__((destructor)) static void tell(void) {
  const char *text = getenv("REFUSE");
  if (!text || strcmp(text, "none") != 0)
    return;
  int file = open("refused", O_CREAT | O_WRONLY | O_TRUNC, 0600);
  if (file >= 0) {
    dprintf(file, "%ld\n", allocations);
    close(file);
  }
}

void *malloc(size_t size) { return is_refused(size) ? NULL : __libc_malloc(size); }

void *calloc(size_t count, size_t size) {
  return is_refused(count * size) ? NULL : __libc_calloc(count, size);
}

void *realloc(void *old, size_t size) { return is_refused(size) ? NULL : __libc_realloc(old, size); }

void *memalign(size_t alignment, size_t size) { return is_refused(size) ? NULL : __libc_memalign(alignment, size); }

void *aligned_alloc(size_t alignment, size_t size) { return memalign(alignment, size); }

int posix_memalign(void **to, size_t alignment, size_t size) {
  void *made = memalign(alignment, size);
  if (!made)
    return ENOMEM;
  *to = made;
  return 0;
}
