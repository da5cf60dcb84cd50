/* An allocator and a copy whose every call costs the same: for tools/instructions.py.
 * Sizes are rounded up to a power of two, and a block that is freed goes onto the list of its size, so nothing depends on what
 * was freed before. A copy takes an instruction a byte, where the C library chooses among loops. */
#include <stddef.h>
#include <string.h>
#include <sys/mman.h>

enum { HEAD = 64, ROOM_BITS = 35 };

static void *freed[64];
static char *next, *end;

static size_t *size_of(void *block) { return (size_t *)((char *)block - HEAD); }

void *memcpy(void *to, const void *from, size_t count) {
  void *start = to;
  __asm__ volatile("rep movsb" : "+D"(to), "+S"(from), "+c"(count) : : "memory");
  return start;
}

void *malloc(size_t size) {
  int bits = 64 - __builtin_clzll(size + HEAD);
  void *block = freed[bits];
  if (block) {
    freed[bits] = *(void **)block;
    return block;
  }
  if (!next) {
    next = mmap(0, 1ull << ROOM_BITS, PROT_READ | PROT_WRITE, MAP_PRIVATE | MAP_ANONYMOUS | MAP_NORESERVE, -1, 0);
    if (next == MAP_FAILED) __builtin_trap();
    end = next + (1ull << ROOM_BITS);
  }
  if ((size_t)(end - next) < (1ull << bits)) __builtin_trap();
  block = next + HEAD;
  next += 1ull << bits;
  *size_of(block) = (size_t)bits;
  return block;
}

void free(void *block) {
  if (!block) return;
  *(void **)block = freed[*size_of(block)];
  freed[*size_of(block)] = block;
}

void *realloc(void *block, size_t size) {
  if (!block) return malloc(size);
  size_t room = (1ull << *size_of(block)) - HEAD;
  if (size <= room) return block;
  void *wider = malloc(size);
  memcpy(wider, block, room);
  free(block);
  return wider;
}

/* Without -fno-builtin-malloc, gcc makes these two calls one of calloc. */
void *calloc(size_t count, size_t size) {
  void *block = malloc(count * size);
  return memset(block, 0, count * size);
}

void *aligned_alloc(size_t align, size_t size) {
  if (align > HEAD) __builtin_trap();
  return malloc(size);
}

void *memalign(size_t align, size_t size) { return aligned_alloc(align, size); }

int posix_memalign(void **block, size_t align, size_t size) {
  *block = aligned_alloc(align, size);
  return 0;
}
