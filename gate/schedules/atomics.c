// Atomic steps and plain accesses, by the names under which the compiler calls ThreadSanitizer, and the program's clock of calls.
#include "runtime.h"

enum { MOST_PLACES = 1 << 9 };
#define CLOCK_IS_HERE 0x5343484544000000ul // what the program adds to its clock first

// What the threads that changed an atomic place had seen.
typedef struct {
  u64 at;
  Clock seen;
} Place;

static Place places[MOST_PLACES];

void clear_atomics(void) { memset(places, 0, sizeof places); }

static Place *place_at(u64 at) {
  for (u64 i = at / 8; i < at / 8 + MOST_PLACES; i++) {
    Place *it = &places[i % MOST_PLACES];
    if (it->at == at || !it->at) {
      it->at = at;
      return it;
    }
  }
  fail("too many atomic places", at, 0);
}

// Before a step on this place, which is a load by the instruction before `load`, or else changes it.
//
// A thread that loads again, by the same instruction, what it loaded last waits for a change, and needn't be stopped there.
static void step_begins(volatile u64 *place, const void *load) {
  Thread *me = current();
  if (load && me->loaded_by == load && me->loaded_at == (u64)place && me->loaded == *place) count_step();
  else step_comes((u64)place, load ? LOADS : CHANGES);
  me->loaded_by = load;
  me->loaded_at = (u64)place;
  check_access((u64)place, 8, !load, 1);
}

static void step_ends(volatile u64 *place, int reads, int writes, u64 found) {
  Thread *me = current();
  u64 *seen = place_at((u64)place)->seen;
  me->loaded = found;
  if (reads && !options.unordered) join_clock(me->clock, seen);
  if (writes && !options.unordered) join_clock(seen, me->clock);
  if (writes) me->clock[run.current]++;
}

u64 __tsan_atomic64_load(volatile u64 *place, int order) {
  step_begins(place, __builtin_return_address(0));
  u64 found = *place;
  tell("loads", (u64)place, found, found);
  step_ends(place, 1, 0, found);
  return found;
}

void __tsan_atomic64_store(volatile u64 *place, u64 value, int order) {
  step_begins(place, 0);
  tell("stores", (u64)place, *place, value);
  *place = value;
  step_ends(place, 0, 1, value);
}

static u64 change(volatile u64 *place, u64 found, u64 value, const char *what) {
  tell(what, (u64)place, found, value);
  *place = value;
  step_ends(place, 1, 1, value);
  return found;
}

u64 __tsan_atomic64_exchange(volatile u64 *place, u64 value, int order) {
  step_begins(place, 0);
  return change(place, *place, value, "swaps");
}

u64 __tsan_atomic64_compare_exchange_val(volatile u64 *place, u64 wanted, u64 value, int order, int missed_order) {
  step_begins(place, 0);
  u64 found = *place;
  if (found == wanted) return change(place, found, value, "exchanges");
  run.has_missed |= current()->in_call;
  tell("misses", (u64)place, found, found);
  step_ends(place, 1, 0, found);
  return found;
}

u64 __tsan_atomic64_fetch_sub(volatile u64 *place, u64 value, int order) {
  step_begins(place, 0);
  return change(place, *place, *place - value, "subtracts");
}

// The program's clock. A call ends before another begins exactly where the number that its end reads is below that of the other's
// beginning: one number stands for all beginnings up to the next beginning behind an end.
static u64 tick(u64 clock) {
  Thread *me = current();
  if (!me->in_call) {
    me->in_call = 1;
    me->loaded_by = 0;
    step_comes(clock, BEGINS);
    if (run.has_call_ended) run.group++;
    run.has_call_ended = 0;
    tell("begins", 0, run.group, run.group);
  } else {
    if (options.by_order) step_comes(clock, ENDS);
    run.has_call_ended = 1;
    tell("ends", 0, run.group, run.group);
    me->in_call = 0;
  }
  return run.group;
}

u64 __tsan_atomic64_fetch_add(volatile u64 *place, u64 value, int order) {
  if (value == CLOCK_IS_HERE) run.call_clock = (u64)place;
  if ((u64)place == run.call_clock) return value == CLOCK_IS_HERE ? 0 : tick(run.call_clock);
  step_begins(place, 0);
  return change(place, *place, *place + value, "adds");
}

// ---- Plain accesses

#define READ(bytes) void __tsan_read##bytes(u64 at) { check_access(at, bytes, 0, 0); }
#define WRITE(bytes) void __tsan_write##bytes(u64 at) { check_access(at, bytes, 1, 0); }
#define UNALIGNED(bytes) \
  void __tsan_unaligned_read##bytes(u64 at) { check_access(at, bytes, 0, 0); } \
  void __tsan_unaligned_write##bytes(u64 at) { check_access(at, bytes, 1, 0); }
READ(1) READ(2) READ(4) READ(8) READ(16)
WRITE(1) WRITE(2) WRITE(4) WRITE(8) WRITE(16)
UNALIGNED(2) UNALIGNED(4) UNALIGNED(8) UNALIGNED(16)

void __tsan_init(void) {}

void *__tsan_memcpy(void *to, const void *from, u64 bytes) {
  check_access((u64)from, bytes, 0, 0);
  check_access((u64)to, bytes, 1, 0);
  return memcpy(to, from, bytes);
}

void *__tsan_memmove(void *to, const void *from, u64 bytes) {
  check_access((u64)from, bytes, 0, 0);
  check_access((u64)to, bytes, 1, 0);
  return memmove(to, from, bytes);
}

void *__tsan_memset(void *to, int byte, u64 bytes) {
  check_access((u64)to, bytes, 1, 0);
  return memset(to, byte, bytes);
}
