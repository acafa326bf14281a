// Threads as stacks that are switched: who runs, who waits, and POSIX threads and futexes over them.
#include "runtime.h"

enum { EAGAIN = 11, FUTEX = 202, FUTEX_WAIT = 0, FUTEX_KIND = 127 };
extern int *__errno_location(void);
extern int program_main(void);

static char *stacks;
static void *driver; // where the driver's registers lie while the program runs
static void *gone;

void switch_stacks(void **from, void *to);
__asm__(".globl switch_stacks\n"
        "switch_stacks:\n"
        "  push %rbp\n  push %rbx\n  push %r12\n  push %r13\n  push %r14\n  push %r15\n"
        "  mov %rsp, (%rdi)\n"
        "  mov %rsi, %rsp\n"
        "  pop %r15\n  pop %r14\n  pop %r13\n  pop %r12\n  pop %rbx\n  pop %rbp\n"
        "  ret\n");

Thread *current(void) { return &run.threads[run.current]; }

void end_run(void) {
  switch_stacks(&gone, driver);
  __builtin_unreachable();
}

void fail(const char *what, u64 one, u64 two) {
  if (!run.why[0]) snprintf(run.why, sizeof run.why, "%s (%lu, %lu) in thread %d", what, one, two, run.current);
  run.status = -1;
  end_run();
}

// Prints a step, where that was asked for: the thread, what it does, on which block and where in it, what it found and what it left.
void tell(const char *what, u64 at, u64 found, u64 left) {
  if (!options.tells) return;
  u64 block, offset;
  block_of(at, &block, &offset);
  printf("step %d %d %lu %lu %lu %lu %s\n", run.current, current()->in_call, block, offset, found, left, what);
}

void count_step(void) {
  if (++run.steps > MOST_STEPS) fail("it takes too many steps, as if it had no end", run.steps, 0);
}

static void go_to(int thread) {
  int from = run.current;
  if (thread == from) return;
  run.current = thread;
  switch_stacks(&run.threads[from].stack, run.threads[thread].stack);
}

static int is_ready(int thread) {
  Thread *it = &run.threads[thread];
  if (it->state == JOINS && run.threads[it->waits_for].state == ENDED) it->state = READY;
  return it->state == READY;
}

// Those of the other threads that were started and are ready, as a list. How many.
static int list_others(int *list) {
  int n = 0;
  for (int i = 1; i < run.count; i++)
    if (i != run.current && is_ready(i)) list[n++] = i;
  return n;
}

static u32 set_of(const int *list, int n) {
  u32 set = 0;
  for (int i = 0; i < n; i++) set |= 1u << list[i];
  return set;
}

// The current thread can't go on, or gives way: the first thread goes on where it can, since it only starts and joins, or else any
// other, freely.
void leave(void) {
  int list[MOST_THREADS];
  if (run.current && is_ready(0)) return go_to(0);
  int n = list_others(list);
  if (!n && is_ready(run.current)) return;
  if (!n) fail("all threads wait for one another", 0, 0);
  if (options.by_order) return go_to(choose_by_order(run.current, set_of(list, n)));
  go_to(list[n > 1 ? choose(n, FREE) : 0]);
}

// A thread is about to take a step that others may see: it goes on, or another goes on in its place.
void step_comes(u64 at, Kind kind) {
  int list[MOST_THREADS] = {run.current};
  Thread *me = current();
  count_step();
  if (!run.current || !(me->in_call || options.whole)) return;
  me->next = (Step){at, kind};
  int n = 1 + list_others(list + 1);
  if (options.by_order) {
    go_to(choose_by_order(run.current, set_of(list, n)));
    me->next.at = 0;
  } else if (n > 1 && run.preempted < options.preemptions) {
    go_to(list[choose(n, PREEMPTS)]);
  }
}

static void run_thread(void) {
  Thread *me = current();
  if (run.current) me->start(me->argument); else program_main();
  me->state = ENDED;
  tell("ends", 0, 0, 0);
  leave();
  fail("a thread that has ended goes on", 0, 0);
}

static void make_ready(int thread) {
  u64 *top = (u64 *)(stacks + (thread + 1) * (u64)STACK_BYTES - 64);
  *--top = 0;
  *--top = (u64)run_thread;
  top -= 6;
  memset(top, 0, 48);
  run.threads[thread].stack = top;
  run.threads[thread].state = READY;
}

void make_stacks(void) {
  stacks = mmap(0, MOST_THREADS * (u64)STACK_BYTES, 3, 0x4022, -1, 0);
}

// Runs the program from its start until it ends or fails.
void start_program(void) {
  run.count = 1;
  run.threads[0].clock[0] = 1;
  make_ready(0);
  switch_stacks(&driver, run.threads[0].stack);
}

// ---- POSIX threads

int sched_pthread_create(u64 *id, void *attributes, void *(*start)(void *), void *argument) {
  if (run.count == MOST_THREADS) fail("too many threads", run.count, 0);
  int made = run.count++;
  Thread *it = &run.threads[made], *me = current();
  it->start = start;
  it->argument = argument;
  memcpy(it->clock, me->clock, sizeof it->clock);
  it->clock[made] = 1;
  me->clock[run.current]++;
  make_ready(made);
  run.running++;
  *id = made;
  return 0;
}

int sched_pthread_join(u64 thread, void **result) {
  if (run.threads[thread].state != ENDED) {
    current()->state = JOINS;
    current()->waits_for = thread;
    leave();
  }
  join_clock(current()->clock, run.threads[thread].clock);
  run.running--;
  return 0;
}

int sched_pthread_detach(u64 thread) { return 0; }
u64 sched_pthread_self(void) { return run.current; }
int sched_pthread_attr_init(void *attributes) { return 0; }
int sched_pthread_attr_destroy(void *attributes) { return 0; }
int sched_pthread_attr_setguardsize(void *attributes, u64 bytes) { return 0; }
int sched_pthread_attr_setstacksize(void *attributes, u64 bytes) { return 0; }

int sched_sched_yield(void) {
  count_step();
  current()->loaded_by = 0;
  leave();
  return 0;
}

// ---- Futexes

static long sleep_at(u32 *word, u32 value) {
  Thread *me = current();
  if (*word != value) {
    tell("doesn't sleep at", (u64)word, *word, *word);
    *__errno_location() = EAGAIN;
    return -1;
  }
  tell("sleeps at", (u64)word, *word, *word);
  run.has_slept |= me->in_call;
  me->state = SLEEPS;
  me->waits_for = (u64)word;
  me->loaded_by = 0;
  leave();
  tell("wakes at", (u64)word, *word, *word);
  return 0;
}

static long wake_at(u32 *word, long most) {
  long n = 0;
  for (int i = 0; i < run.count && n < most; i++) {
    Thread *it = &run.threads[i];
    if (it->state == SLEEPS && it->waits_for == (u64)word) {
      it->state = READY;
      n++;
    }
  }
  tell("wakes sleepers at", (u64)word, n, n);
  return n;
}

long sched_syscall(long number, u32 *word, long operation, long value, void *timeout) {
  if (number != FUTEX) fail("a system call that isn't a futex's", number, 0);
  step_comes((u64)word, CHANGES);
  return (operation & FUTEX_KIND) == FUTEX_WAIT ? sleep_at(word, value) : wake_at(word, value);
}
