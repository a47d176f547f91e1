// A library between a program and the C library: it makes allocations fail, and reads and writes move one byte.
//
// In the file BETWEEN it counts, in two numbers of 8 bytes, the allocations, and the reads and writes that could move more
// than one byte. Counted from 1, the allocations REFUSED_FROM to REFUSED_TO fail, and the reads and writes SHORT_FROM to
// SHORT_TO move one byte; if TORN is 1, the read or write after each of these fails.
#define _GNU_SOURCE
#include <errno.h>
#include <fcntl.h>
#include <stdatomic.h>
#include <stdint.h>
#include <stdlib.h>
#include <sys/mman.h>
#include <sys/syscall.h>
#include <sys/uio.h>
#include <unistd.h>

extern void *__libc_malloc(size_t);
extern void *__libc_calloc(size_t, size_t);
extern void *__libc_realloc(void *, size_t);
extern void *__libc_memalign(size_t, size_t);

enum { MEMORY, MOVES, KINDS };
static _Atomic uint64_t *counts;
static uint64_t first[KINDS], last[KINDS], tears;
static int is_torn;

static uint64_t number(const char *name) {
  const char *text = getenv(name);
  return text ? strtoull(text, NULL, 10) : 0;
}

__attribute__((constructor)) static void begin(void) {
  const char *name = getenv("BETWEEN");
  int file = name ? open(name, O_RDWR) : -1;
  if (file < 0) return;
  first[MEMORY] = number("REFUSED_FROM"), last[MEMORY] = number("REFUSED_TO");
  first[MOVES] = number("SHORT_FROM"), last[MOVES] = number("SHORT_TO");
  tears = number("TORN");
  void *page = mmap(NULL, KINDS * sizeof *counts, PROT_READ | PROT_WRITE, MAP_SHARED, file, 0);
  close(file);
  if (page != MAP_FAILED) counts = page;
}

// Counts a call of a kind, and says whether it is one of those that are to go otherwise.
static int is_meant(int kind) {
  if (!counts) return 0;
  uint64_t it = atomic_fetch_add(&counts[kind], 1) + 1;
  return first[kind] <= it && it <= last[kind];
}

static int is_refused(void) {
  int meant = is_meant(MEMORY);
  if (meant) errno = ENOMEM;
  return meant;
}

void *malloc(size_t size) { return is_refused() ? NULL : __libc_malloc(size); }
void *calloc(size_t count, size_t size) { return is_refused() ? NULL : __libc_calloc(count, size); }
void *realloc(void *old, size_t size) { return is_refused() ? NULL : __libc_realloc(old, size); }
void *memalign(size_t align, size_t size) { return is_refused() ? NULL : __libc_memalign(align, size); }
void *aligned_alloc(size_t align, size_t size) { return memalign(align, size); }

int posix_memalign(void **place, size_t align, size_t size) {
  void *memory = memalign(align, size);
  if (!memory) return ENOMEM;
  *place = memory;
  return 0;
}

// How many bytes a read or write of so many is to move.
static size_t shorter(size_t size) {
  if (size < 2 || !is_meant(MOVES)) return size;
  is_torn = tears == 1;
  return 1;
}

// Makes a read or write, or fails if it comes after one that was to be torn.
static ssize_t move(long call, int file, void *bytes, size_t size, off_t place) {
  if (is_torn) {
    is_torn = 0, errno = ENOSPC;
    return -1;
  }
  return syscall(call, file, bytes, shorter(size), place);
}

ssize_t read(int file, void *bytes, size_t size) { return move(SYS_read, file, bytes, size, 0); }
ssize_t write(int file, const void *bytes, size_t size) { return move(SYS_write, file, (void *)bytes, size, 0); }
ssize_t __write(int file, const void *bytes, size_t size) { return write(file, bytes, size); }
ssize_t pread(int file, void *bytes, size_t size, off_t place) { return move(SYS_pread64, file, bytes, size, place); }
ssize_t pread64(int file, void *bytes, size_t size, off64_t place) { return pread(file, bytes, size, place); }

ssize_t pwrite(int file, const void *bytes, size_t size, off_t place) {
  return move(SYS_pwrite64, file, (void *)bytes, size, place);
}

ssize_t pwrite64(int file, const void *bytes, size_t size, off64_t place) { return pwrite(file, bytes, size, place); }
