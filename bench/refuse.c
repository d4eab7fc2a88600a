// Refuses memory to the program that it is loaded into, as bench/refused_memory.py asks in the variable REFUSE: the
// numbers of the first and of the last allocation that is refused, counted from 1, and a descriptor that gets a byte at
// the first.
#define _GNU_SOURCE
#include <errno.h>
#include <stdatomic.h>
#include <stdio.h>
#include <stdlib.h>
#include <unistd.h>

// The C library's own, behind the names that are taken here.
void *__libc_malloc(size_t size);
void *__libc_calloc(size_t count, size_t size);
void *__libc_realloc(void *old, size_t size);

static atomic_long count;
static long first, last;
static int told;

__attribute__((constructor)) static void begin(void) {
  long from = 0, to = 0;
  const char *asked = getenv("REFUSE");
  if (asked && sscanf(asked, "%ld %ld %d", &from, &to, &told) != 3) _exit(99);
  first = from, last = to;
  atomic_store(&count, 0);
}

static int is_refused(void) {
  const long number = atomic_fetch_add(&count, 1) + 1;
  if (number < first || last < number) return 0;
  if (number == first && write(told, "", 1) != 1) _exit(99);
  errno = ENOMEM;
  return 1;
}

void *malloc(size_t size) { return is_refused() ? NULL : __libc_malloc(size); }

void *calloc(size_t many, size_t size) { return is_refused() ? NULL : __libc_calloc(many, size); }

void *realloc(void *old, size_t size) { return is_refused() ? NULL : __libc_realloc(old, size); }
