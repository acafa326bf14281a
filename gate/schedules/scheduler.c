// Runs the program once for each schedule, and prints each different outcome with the number of schedules that have it and the choices
// of the first of them. gate/schedules/schedules.py calls it.
//
//   PROGRAM [-k PREEMPTIONS | -p] [-f REFUSALS] [-m MOST] [-w] [-x] [-t] [-r CHOICES] ARGUMENTS OF THE PROGRAM
//
// A thread may be stopped before each atomic step and each futex call inside a timed call; the first thread, which only starts and
// joins, never is. -p runs all schedules up to the order of independent steps, -f refuses that many requests for memory inside calls,
// each in turn, -m ends after this many runs, -w stops threads outside timed calls as well, -x lets atomic steps order nothing,
// -r runs the schedule of these choices, and -t prints its steps.
#include "runtime.h"

enum { SIGILL = 4, SIGTRAP = 5, SIGBUS = 7, SIGFPE = 8, SIGSEGV = 11, SA_NODEFER = 0x40000000, MONOTONIC = 1, ROOM = 1 << 20 };
struct timespec { long seconds, nanoseconds; };
struct sigaction { void (*handler)(int); u64 mask[16]; int flags; void (*restorer)(void); };
extern int sigaction(int, const struct sigaction *, void *), clock_gettime(int, struct timespec *);
extern int getopt(int, char **, const char *), optind, atoi(const char *), *__errno_location(void);
extern char *optarg;
extern long read(int, void *, u64);

Options options;
Run run;

// ---- What the program asks of the system

static char **arguments;
static int argument_count;
static char input[MOST_OUTPUT];
static long input_len, input_read;

long sched_write(int file, const char *bytes, u64 len) {
  if (run.output_len + len >= MOST_OUTPUT) fail("too much output", len, 0);
  memcpy(run.output + run.output_len, bytes, len);
  run.output_len += len;
  return len;
}

long sched_read(int file, char *bytes, u64 len) {
  u64 left = input_len - input_read;
  if (file) fail("a read of a file", file, len);
  if (len > left) len = left;
  memcpy(bytes, input + input_read, len);
  input_read += len;
  return len;
}

void sched__exit(int status) {
  run.status = status;
  end_run();
}

void sched_abort(void) { fail("abort", 0, 0); }
long sched_signal(int number, long handler) { return 0; }
int rattle_errno(void) { return *__errno_location(); }
void rattle_set_errno(int number) { *__errno_location() = number; }

long rattle_arg(u64 number, char *to, u64 room) {
  if (number >= (u64)argument_count) return -1;
  u64 len = strlen(arguments[number]);
  if (len > room) return -2;
  memcpy(to, arguments[number], len);
  return len;
}

static void on_signal(int number) { fail("signal", number, 0); }

static void catch_signals(void) {
  int numbers[] = {SIGILL, SIGTRAP, SIGBUS, SIGFPE, SIGSEGV};
  struct sigaction action = {.handler = on_signal, .flags = SA_NODEFER};
  for (int i = 0; i < 5; i++) sigaction(numbers[i], &action, 0);
}

// ---- One run

// What the program may write lies in a section of its own, and has its first value again before each run.
extern char __start_kdata[] __attribute__((weak)), __stop_kdata[] __attribute__((weak));
static char *first_values;
static struct { u64 wholes, redundant, with_sleep, with_miss, most_choices; } counts;

static void run_once(void) {
  memcpy(__start_kdata, first_values, __stop_kdata - __start_kdata);
  memset(&run, 0, (u64)&run.output - (u64)&run);
  run.output_len = input_read = 0;
  clear_heap();
  clear_atomics();
  start_program();
  int left = run.status < 0 ? -1 : blocks_left();
  run.output_len += snprintf(run.output + run.output_len, MOST_OUTPUT - run.output_len, "status %d blocks %d %s\n", run.status, left, run.why);
}

// ---- Outcomes

typedef struct { u64 hash, count; char *text, *choices; } Outcome;
static Outcome *outcomes;
static u64 known;

static u64 hash_of(const char *bytes, int len) {
  u64 hash = 14695981039346656037ul;
  for (int i = 0; i < len; i++) hash = (hash ^ (unsigned char)bytes[i]) * 1099511628211ul;
  return hash;
}

static void note_outcome(void) {
  u64 hash = hash_of(run.output, run.output_len), at = hash % ROOM;
  while (outcomes[at].count && outcomes[at].hash != hash) at = (at + 1) % ROOM;
  Outcome *it = &outcomes[at];
  if (it->count++) return;
  if (++known > ROOM / 2) exit(3);
  it->hash = hash;
  it->text = strndup(run.output, run.output_len);
  it->choices = choices_text();
}

static void count_run(void) {
  if (run.is_redundant) {
    counts.redundant++;
    return;
  }
  counts.wholes++;
  counts.with_sleep += run.has_slept;
  counts.with_miss += run.has_missed;
  if ((u64)run.choices > counts.most_choices) counts.most_choices = run.choices;
  note_outcome();
}

static double seconds_now(void) {
  struct timespec now;
  clock_gettime(MONOTONIC, &now);
  return now.seconds + now.nanoseconds / 1e9;
}

static void print_outcomes(int is_cut, double seconds) {
  printf("schedules %lu cut %d redundant %lu slept %lu missed %lu choices %lu seconds %.3f\n", counts.wholes, is_cut, counts.redundant,
         counts.with_sleep, counts.with_miss, counts.most_choices, seconds);
  for (u64 i = 0; i < ROOM; i++)
    if (outcomes[i].count) printf("--- %lu %s\n%s", outcomes[i].count, outcomes[i].choices, outcomes[i].text);
}

// Reads the options. How many runs are the most; `once` is told where one schedule alone is asked for.
static u64 read_options(int count, char **words, int *once) {
  u64 most = -1ul;
  for (int option; (option = getopt(count, words, "+k:pf:m:wxtr:")) != -1;) {
    if (option == 'k') options.preemptions = atoi(optarg);
    else if (option == 'p') options.by_order = 1;
    else if (option == 'f') options.refusals = atoi(optarg);
    else if (option == 'm') most = atoi(optarg);
    else if (option == 'w') options.whole = 1;
    else if (option == 'x') options.unordered = 1;
    else if (option == 't') options.tells = 1;
    else if (option == 'r') give_choices(optarg), *once = 1;
    else exit(2);
  }
  return most;
}

int main(int count, char **words) {
  int once = 0, more = 1;
  u64 most = read_options(count, words, &once);
  arguments = words + optind - 1;
  argument_count = count - optind + 1;
  if (options.whole) input_len = read(0, input, sizeof input);
  make_heap();
  make_stacks();
  catch_signals();
  outcomes = calloc(ROOM, sizeof *outcomes);
  first_values = malloc(__stop_kdata - __start_kdata + 1);
  memcpy(first_values, __start_kdata, __stop_kdata - __start_kdata);
  double begun = seconds_now();
  for (u64 runs = 0; more && runs < most; runs++) {
    run_once();
    count_run();
    more = !once && next_schedule();
  }
  print_outcomes(more, seconds_now() - begun);
  return 0;
}
