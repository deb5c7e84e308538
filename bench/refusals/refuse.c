/* What is loaded before the C library of a program that is started with it (LD_PRELOAD). It numbers the program's
   allocations, its reads and its writes, each from 1 on and over all threads, and refuses the one that REFUSE names, or
   lets it move one byte:

     REFUSE=alloc:7   REFUSE=read:2   REFUSE=write:1   REFUSE=short-read:2   REFUSE=short-write:1

   As the program ends, it writes into the file that COUNTS names how many allocations, reads and writes there were, and how
   many threads were started and joined. What the C library allocates by its own names, as for a thread, is among them.

   A program of `rt try --fail-alloc NUMBER` counts its allocations itself, and refuses the one of this number. CALLS says where
   in it the count stands, and the number: the count then begins so much below it that the right one is refused. */
#define _GNU_SOURCE
#include <dlfcn.h>
#include <errno.h>
#include <fcntl.h>
#include <pthread.h>
#include <stdatomic.h>
#include <stddef.h>
#include <stdio.h>
#include <stdlib.h>
#include <string.h>
#include <sys/auxv.h>
#include <sys/syscall.h>
#include <unistd.h>

void *__libc_malloc(size_t);
void *__libc_calloc(size_t, size_t);
void *__libc_realloc(void *, size_t);
void *__libc_memalign(size_t, size_t);

enum kind { ALLOC, READ, WRITE, KINDS };
static const char *const names[KINDS] = {"alloc", "read", "write"};
static atomic_long counts[KINDS], started, joined;
static atomic_bool counting;
static enum kind refused = KINDS;
static long number;
static int is_short;
/* The count of a program that counts its allocations itself, and at which it begins. */
static atomic_long *calls;
static long first;

/* Whether this call, which is counted, is the one that is named. */
static int is_named(enum kind kind) {
  if (!atomic_load(&counting) || (kind == ALLOC && calls)) return 0;
  return atomic_fetch_add(&counts[kind], 1) + 1 == number && kind == refused;
}

static void *no_memory(void) {
  errno = ENOMEM;
  return NULL;
}

void *malloc(size_t size) { return is_named(ALLOC) ? no_memory() : __libc_malloc(size); }

void *calloc(size_t count, size_t size) { return is_named(ALLOC) ? no_memory() : __libc_calloc(count, size); }

void *realloc(void *old, size_t size) { return is_named(ALLOC) ? no_memory() : __libc_realloc(old, size); }

void *memalign(size_t align, size_t size) { return is_named(ALLOC) ? no_memory() : __libc_memalign(align, size); }

void *aligned_alloc(size_t align, size_t size) { return memalign(align, size); }

int posix_memalign(void **to, size_t align, size_t size) {
  void *block = memalign(align, size);
  if (!block) return ENOMEM;
  *to = block;
  return 0;
}

ssize_t read(int file, void *to, size_t size) {
  if (is_named(READ)) {
    if (!is_short) {
      errno = EIO;
      return -1;
    }
    if (size) size = 1;
  }
  return syscall(SYS_read, file, to, size);
}

ssize_t write(int file, const void *from, size_t size) {
  if (is_named(WRITE)) {
    if (!is_short) {
      errno = ENOSPC;
      return -1;
    }
    if (size) size = 1;
  }
  return syscall(SYS_write, file, from, size);
}

static int (*real_create)(pthread_t *, const pthread_attr_t *, void *(*)(void *), void *);
static int (*real_join)(pthread_t, void **);

int pthread_create(pthread_t *thread, const pthread_attr_t *how, void *(*start)(void *), void *with) {
  int answer = real_create(thread, how, start, with);
  if (!answer) atomic_fetch_add(&started, 1);
  return answer;
}

int pthread_join(pthread_t thread, void **with) {
  int answer = real_join(thread, with);
  if (!answer) atomic_fetch_add(&joined, 1);
  return answer;
}

__attribute__((constructor)) static void begin(void) {
  *(void **)&real_create = dlsym(RTLD_NEXT, "pthread_create");
  *(void **)&real_join = dlsym(RTLD_NEXT, "pthread_join");
  const char *words = getenv("REFUSE");
  if (words && strncmp(words, "short-", 6) == 0) {
    is_short = 1;
    words += 6;
  }
  for (enum kind kind = ALLOC; words && kind < KINDS; kind++) {
    size_t length = strlen(names[kind]);
    if (strncmp(words, names[kind], length) == 0 && words[length] == ':') {
      refused = kind;
      number = atol(words + length + 1);
    }
  }
  const char *own = getenv("CALLS");
  if (own && *own) {
    char *rest;
    /* the program's headers stand 64 bytes behind its begin */
    calls = (atomic_long *)(getauxval(AT_PHDR) - 64 + strtoul(own, &rest, 0));
    first = refused == ALLOC ? strtol(rest, NULL, 0) - number : 0;
    atomic_store(calls, first);
  }
  atomic_store(&counting, 1);
}

static void tell_counts(void) {
  atomic_store(&counting, 0);
  const char *name = getenv("COUNTS");
  if (!name) return;
  if (calls) counts[ALLOC] = *calls - first;
  char text[200];
  int length = snprintf(text, sizeof text, "%ld %ld %ld %ld %ld\n", counts[ALLOC], counts[READ], counts[WRITE], started,
                        joined);
  int file = open(name, O_WRONLY | O_CREAT | O_TRUNC, 0600);
  if (file < 0) return;
  syscall(SYS_write, file, text, length);
  close(file);
}

/* A program of the kit ends by this, and runs no destructor. */
void _exit(int status) {
  tell_counts();
  syscall(SYS_exit_group, status);
  __builtin_unreachable();
}

__attribute__((destructor)) static void end(void) { tell_counts(); }
