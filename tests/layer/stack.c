/* Runs a call on a thread that has so much stack, in whole pages, and a guard page below it; says how much of the stack was used. */
#define _GNU_SOURCE
#include <alloca.h>
#include <pthread.h>
#include <stdint.h>
#include <stdlib.h>
#include <string.h>
#include <sys/mman.h>

enum { PAGE = 4096, THREAD = 16 * PAGE /* for the thread's own data above the stack */, PAINT = 0xA5 };

struct job {
  void (*run)(void *);
  void *what;
  size_t stack, used;
};

static void *start(void *arg) {
  struct job *j = arg;
  /* Moves the stack down to the end of a page. */
  char *low = alloca(16);
  low = alloca((uintptr_t)low % PAGE + 1);
  char *top = low + (PAGE - (uintptr_t)low % PAGE) % PAGE, *end = top - j->stack;
  if (mprotect(end - PAGE, PAGE, PROT_NONE)) abort();
  j->run(j->what);
  while (end < top && *(unsigned char *)end == PAINT) end++;
  j->used = (size_t)(top - end);
  return NULL;
}

size_t on_stack(void (*run)(void *), void *what, size_t stack) {
  struct job j = {run, what, stack, 0};
  size_t size = stack + THREAD + 2 * PAGE;
  char *all = mmap(NULL, size, PROT_READ | PROT_WRITE, MAP_PRIVATE | MAP_ANONYMOUS, -1, 0);
  if (all == MAP_FAILED) abort();
  memset(all, PAINT, size);
  pthread_attr_t attr;
  pthread_t thread;
  if (pthread_attr_init(&attr) || pthread_attr_setstack(&attr, all, size) || pthread_create(&thread, &attr, start, &j) || pthread_join(thread, NULL)) abort();
  pthread_attr_destroy(&attr);
  munmap(all, size);
  return j.used;
}
