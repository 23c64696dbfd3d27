/* The time by the clock, and that of a server's processor. */
#include <stdio.h>
#include <stdlib.h>
#include <time.h>

/* microseconds by the clock */
static double now(void) {
  struct timespec time;
  clock_gettime(CLOCK_MONOTONIC, &time);
  return time.tv_sec * 1e6 + time.tv_nsec / 1e3;
}

/* the processor's microseconds that the server of this process number took so far */
static double spent(const char *process) {
  char file[64];
  long long time = 0;
  snprintf(file, sizeof file, "/proc/%s/schedstat", process);
  FILE *told = fopen(file, "r");
  if (!told || fscanf(told, "%lld", &time) != 1) {
    fprintf(stderr, "the server's time cannot be read\n");
    exit(1);
  }
  fclose(told);
  return time / 1e3;
}
