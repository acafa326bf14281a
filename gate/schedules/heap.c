// The heap, in which no address is used twice in a run, and what is checked of each access to it: that it lies in a block that wasn't
// freed, and that no two plain accesses race, by vector clocks.
#include "runtime.h"

enum { FILL = 0xa5, GRAIN = 16 };

typedef struct {
  u64 at, bytes;
  int is_live;
} Block;

// Eight bytes of the heap: the last plain write, and of each thread the last plain read or atomic step.
typedef struct {
  u64 write, write_by;
  Clock other;
} Cell;

static unsigned char *heap;
static Cell *cells;
static u32 *owners; // of each 16 bytes: the number of the block + 1, or 0 between blocks
static Block blocks[MOST_BLOCKS];
static u64 used;
static int made;

void make_heap(void) {
  enum { PRIVATE_AND_EMPTY = 0x4022 };
  heap = mmap(0, HEAP_BYTES, 3, PRIVATE_AND_EMPTY, -1, 0);
  cells = mmap(0, HEAP_BYTES / 8 * sizeof(Cell), 3, PRIVATE_AND_EMPTY, -1, 0);
  owners = mmap(0, HEAP_BYTES / GRAIN * sizeof(u32), 3, PRIVATE_AND_EMPTY, -1, 0);
}

void clear_heap(void) { used = made = 0; }

int blocks_left(void) {
  int left = 0;
  for (int i = 0; i < made; i++) left += blocks[i].is_live;
  return left;
}

// The number of the block that an address lies in, from 1 up, and how far in. 0 where it is no address of the heap.
void block_of(u64 at, u64 *number, u64 *offset) {
  u64 from_start = at - (u64)heap;
  *number = from_start < used ? owners[from_start / GRAIN] : 0;
  *offset = *number ? from_start - blocks[*number - 1].at : 0;
}

void join_clock(u64 *one, const u64 *other) {
  for (int i = 0; i < MOST_THREADS; i++) if (other[i] > one[i]) one[i] = other[i];
}

// Says what is wrong with an access, with the number of its block and how far in it lies.
static void fail_at(const char *what, u64 at) __attribute__((noreturn));
static void fail_at(const char *what, u64 at) {
  u64 number, offset;
  block_of(at, &number, &offset);
  fail(what, number, offset);
}

static void check_lives(u64 from, u64 to, int writes) {
  for (u64 grain = from / GRAIN; grain <= to / GRAIN; grain++) {
    u32 owner = grain * GRAIN < used ? owners[grain] : 0;
    if (!owner) fail("access to no block", from, to - from + 1);
    if (!blocks[owner - 1].is_live) fail_at(writes ? "write to a freed block" : "read of a freed block", (u64)heap + from);
  }
}

static void check_order(Cell *cell, int writes, int is_atomic, u64 at) {
  u64 *seen = current()->clock;
  if (cell->write > seen[cell->write_by]) fail_at("race with a write", at);
  if (!writes || is_atomic) {
    cell->other[run.current] = seen[run.current];
    return;
  }
  for (int i = 0; i < run.count; i++) if (cell->other[i] > seen[i]) fail_at("race of a write, or of a free", at);
  cell->write = seen[run.current];
  cell->write_by = run.current;
}

void check_access(u64 at, u64 bytes, int writes, int is_atomic) {
  u64 from = at - (u64)heap, to = from + bytes - 1;
  if (from >= HEAP_BYTES || !bytes) return;
  if (to >= HEAP_BYTES) fail("access beyond the heap", from, bytes);
  check_lives(from, to, writes);
  if (!run.running) return; // the first thread alone: all that others did comes before
  for (u64 cell = from / 8; cell <= to / 8; cell++) check_order(&cells[cell], writes, is_atomic, at);
}

void *sched_malloc(u64 bytes) {
  u64 size = (bytes + 2 * GRAIN - 1) / GRAIN * GRAIN; // with at least a byte that is in no block
  if (used + size > HEAP_BYTES || made == MOST_BLOCKS) fail("this tool's heap is full", bytes, made);
  u64 at = used, end = (bytes ? bytes - 1 : 0) / GRAIN + 1;
  used += size;
  blocks[made++] = (Block){at, bytes, 1};
  memset(heap + at, FILL, bytes);
  memset(cells + at / 8, 0, size / 8 * sizeof(Cell));
  for (u64 i = 0; i < size / GRAIN; i++) owners[at / GRAIN + i] = i < end ? made : 0;
  return heap + at;
}

void sched_free(void *block) {
  u64 number, offset;
  if (!block) return;
  block_of((u64)block, &number, &offset);
  if (!number || offset) fail("free of what is no block", (u64)block, offset);
  Block *it = &blocks[number - 1];
  if (!it->is_live) fail("block freed twice", number, 0);
  check_access((u64)block, it->bytes, 1, 0);
  it->is_live = 0;
}

// ---- What the kit's library asks for memory

typedef struct {
  u64 is_some;
  void *block;
} Given;

static int is_refused(void) {
  return run.current && current()->in_call && run.refused < options.refusals && choose(2, REFUSES);
}

Given rattle_alloc(u64 bytes, u64 alignment) {
  if (is_refused()) {
    tell("is refused memory", 0, bytes, 0);
    return (Given){0, 0};
  }
  return (Given){1, sched_malloc(bytes)};
}

void rattle_dealloc(void *block) { sched_free(block); }

Given rattle_realloc(void *block, u64 old_bytes, u64 bytes, u64 alignment) {
  if (is_refused()) return (Given){0, 0};
  void *moved = sched_malloc(bytes);
  check_access((u64)block, old_bytes, 0, 0);
  memcpy(moved, block, old_bytes < bytes ? old_bytes : bytes);
  sched_free(block);
  return (Given){1, moved};
}
