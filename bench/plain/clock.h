/* The processor time this thread has had, so that other work on the machine counts less. */
#pragma once
#include <time.h>

static inline double seconds(void) {
  struct timespec time;
  clock_gettime(CLOCK_THREAD_CPUTIME_ID, &time);
  return (double)time.tv_sec + (double)time.tv_nsec * 1e-9;
}
