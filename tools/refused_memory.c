/* Refuses one request of memory: the one of the number in REFUSED_REQUEST, counted from 1, of malloc and realloc together.
 *
 * tools/refuse_memory loads it before a built program, which takes all its memory by these two calls. It writes a byte to the descriptor in
 * REFUSED_DESCRIPTOR as it refuses. */
#define _GNU_SOURCE
#include <dlfcn.h>
#include <stdlib.h>
#include <unistd.h>

static void *(*real_malloc)(size_t);
static void *(*real_realloc)(void *, size_t);
static unsigned long refused;
static unsigned long requests;
static int descriptor = -1;

static unsigned long number_in(const char *name) {
  const char *text = getenv(name);
  return text ? strtoul(text, NULL, 10) : 0;
}

__attribute__((constructor)) static void begin(void) {
  real_malloc = dlsym(RTLD_NEXT, "malloc");
  real_realloc = dlsym(RTLD_NEXT, "realloc");
  descriptor = (int)number_in("REFUSED_DESCRIPTOR");
  refused = number_in("REFUSED_REQUEST");
}

static int is_refused(void) {
  if (refused == 0 || __atomic_add_fetch(&requests, 1, __ATOMIC_SEQ_CST) != refused) return 0;
  if (write(descriptor, "r", 1) != 1) _exit(125);
  return 1;
}

void *malloc(size_t size) {
  if (real_malloc == NULL) real_malloc = dlsym(RTLD_NEXT, "malloc");
  return is_refused() ? NULL : real_malloc(size);
}

void *realloc(void *old, size_t size) {
  if (real_realloc == NULL) real_realloc = dlsym(RTLD_NEXT, "realloc");
  return is_refused() ? NULL : real_realloc(old, size);
}
