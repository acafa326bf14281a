// What the parts of the scheduler share.
//
// A program that was built as for ThreadSanitizer is linked with these files in place of that library, of POSIX threads, futexes and
// malloc. They run the program again and again in one process, one thread at a time, and take each choice of what runs next, and of
// which request for memory is refused, from a list: so each run is one schedule, and the lists go over all of them.
//
// Nothing is included, so that the kit's compiler is enough. For x86-64 Linux with glibc.
typedef unsigned long u64;
typedef unsigned int u32;

enum {
  MOST_THREADS = 8,
  MOST_CHOICES = 1 << 13,
  MOST_STEPS = 20000, // of one run: what takes more is taken to have no end
  MOST_BLOCKS = 1 << 12,
  HEAP_BYTES = 1 << 22,
  STACK_BYTES = 1 << 18,
  MOST_OUTPUT = 1 << 16,
};

// ---- What was asked for

typedef struct {
  int preemptions; // the most of one run
  int by_order;    // all schedules up to the order of independent steps, in place of a number of preemptions
  int refusals;    // the most requests for memory that are refused in one run
  int whole;       // a thread may be stopped anywhere, and not inside timed calls alone
  int unordered;   // atomic steps order nothing, so that what they protect has to race
  int tells;       // prints each step
} Options;
extern Options options;

// ---- A run

typedef u64 Clock[MOST_THREADS];

typedef enum { READY, SLEEPS, JOINS, ENDED } State;

// A step that others may see. At address 0: one that they can't.
typedef enum { LOADS, CHANGES, BEGINS, ENDS } Kind;
typedef struct {
  u64 at;
  Kind kind;
} Step;

typedef struct {
  void *stack; // where its registers lie while it doesn't run
  State state;
  u64 waits_for; // an address to sleep at, or a thread to join
  int in_call;
  Step next;
  const void *loaded_by; // 0 unless its last step was a load, by the instruction before this, at this address, of this value
  u64 loaded_at, loaded;
  Clock clock;
  void *(*start)(void *);
  void *argument;
} Thread;

typedef struct {
  Thread threads[MOST_THREADS];
  int count;   // of threads; the first is the program's own
  int current;
  int running; // threads that were started and not joined
  int steps;
  int choices, preempted, refused;
  u32 asleep;  // by order: the threads whose next step needn't be tried here
  int is_redundant;
  int has_slept, has_missed; // whether a call slept on a futex, and whether an exchange missed
  u64 call_clock;            // the word by which the program times its calls
  u64 group;                 // calls of one group overlap
  int has_call_ended;        // in this group
  int status;
  char why[256]; // it went wrong
  char output[MOST_OUTPUT];
  int output_len;
} Run;
extern Run run;

// choices.c
typedef enum { FREE, PREEMPTS, REFUSES, ORDERS, GIVEN } Choosing;
int choose(int of, Choosing kind);
int choose_by_order(int first, u32 ready);
int next_schedule(void);
void give_choices(const char *digits);
char *choices_text(void);

// threads.c
Thread *current(void);
void step_comes(u64 at, Kind kind);
void count_step(void);
void leave(void);
void start_program(void);
void end_run(void) __attribute__((noreturn));
void fail(const char *what, u64 one, u64 two) __attribute__((noreturn)); // two numbers that tell more, as a block's and an offset
void tell(const char *what, u64 at, u64 found, u64 left);
void make_stacks(void);

// heap.c
void make_heap(void);
void clear_heap(void);
int blocks_left(void);
void check_access(u64 at, u64 bytes, int writes, int is_atomic);
void block_of(u64 at, u64 *number, u64 *offset);
void join_clock(u64 *one, const u64 *other);

// atomics.c
void clear_atomics(void);

// ---- Of the C library
extern int printf(const char *, ...);
extern int snprintf(char *, u64, const char *, ...);
extern void *memcpy(void *, const void *, u64), *memmove(void *, const void *, u64), *memset(void *, int, u64);
extern void *malloc(u64), *calloc(u64, u64), *mmap(void *, u64, int, int, int, long);
extern u64 strlen(const char *);
extern char *strndup(const char *, u64);
extern void exit(int) __attribute__((noreturn));
