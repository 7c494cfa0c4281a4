// Refuses one request for memory of the program that it is loaded into, the REFUSE-th from 1 on; with REFUSE 0 none. Of the
// descriptor TELL it tells: an `r` where one was refused, and their number at the end.
#define _GNU_SOURCE
#include <errno.h>
#include <stdio.h>
#include <stdlib.h>
#include <string.h>
#include <sys/mman.h>
#include <sys/syscall.h>
#include <unistd.h>

extern void *__libc_malloc(size_t size);
extern void *__libc_calloc(size_t count, size_t size);
extern void *__libc_realloc(void *old, size_t size);
extern void *__libc_memalign(size_t alignment, size_t size);

static unsigned long long requests, refuse;
static int tell = -1, later;

static int is_refused(void) {
  if (tell < 0)
    return 0;
  requests++;
  if (!refuse || requests < refuse || (requests > refuse && !later))
    return 0;
  if (requests == refuse && write(tell, "r", 1) != 1)
    _exit(99);
  errno = ENOMEM;
  return 1;
}

void *malloc(size_t size) { return is_refused() ? NULL : __libc_malloc(size); }

void *calloc(size_t count, size_t size) { return is_refused() ? NULL : __libc_calloc(count, size); }

void *realloc(void *old, size_t size) { return is_refused() ? NULL : __libc_realloc(old, size); }

void *memalign(size_t alignment, size_t size) { return is_refused() ? NULL : __libc_memalign(alignment, size); }

void *aligned_alloc(size_t alignment, size_t size) { return memalign(alignment, size); }

int posix_memalign(void **place, size_t alignment, size_t size) {
  void *found = memalign(alignment, size);
  if (!found)
    return ENOMEM;
  *place = found;
  return 0;
}

void *mmap(void *place, size_t size, int protection, int flags, int file, off_t offset) {
  if (is_refused())
    return MAP_FAILED;
  return (void *)syscall(SYS_mmap, place, size, protection, flags, file, offset);
}

__attribute__((constructor)) static void begin(void) {
  const char *nth = getenv("REFUSE"), *to = getenv("TELL");
  refuse = nth ? strtoull(nth, NULL, 10) : 0;
  later = getenv("LATER") != NULL;
  tell = to ? atoi(to) : -1;
}

__attribute__((destructor)) static void end(void) {
  char text[32];
  int length = snprintf(text, sizeof text, " %llu", requests);
  if (tell >= 0 && write(tell, text, length) != length)
    _exit(99);
}
