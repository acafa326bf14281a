// The choices of a schedule, and the next list of them.
#include "runtime.h"

typedef struct {
  int of;     // this many, or by order the set of threads that were ready
  int pick;
  Choosing kind;
  u32 asleep; // by order: the threads whose steps were tried here, or needn't be
} Choice;

static Choice choices[MOST_CHOICES];
static int given; // how many of them are fixed in the coming run

// A choice of one of `of`: the given one, or else the first.
int choose(int of, Choosing kind) {
  int at = run.choices, pick = 0;
  if (at >= MOST_CHOICES) fail("too many choices", at, 0);
  if (at < given) {
    pick = choices[at].pick;
    if (pick >= of || (choices[at].kind != kind && choices[at].kind != GIVEN)) fail("the program took another way this time", at, pick);
  }
  choices[at] = (Choice){of, pick, kind, 0};
  run.choices++;
  if (pick && kind == PREEMPTS) run.preempted++;
  if (pick && kind == REFUSES) run.refused++;
  return pick;
}

// Whether the order of two steps may matter.
static int depend(Step one, Step other) {
  if (one.at != other.at || !one.at) return 0;
  if (one.kind >= BEGINS) return one.kind != other.kind;
  return one.kind == CHANGES || other.kind == CHANGES;
}

// Sleep sets. A thread sleeps once all schedules in which its next step comes here were tried, and wakes as soon as a step is taken
// that its own depends on: till then its step could only be moved to the front, which gives a schedule that was tried. So of each set
// of schedules that differ in the order of neighbouring independent steps alone, at least one is run to its end.
int choose_by_order(int first, u32 ready) {
  int at = run.choices, pick = -1, is_choice = (ready & (ready - 1)) != 0;
  if (is_choice && at >= MOST_CHOICES) fail("too many choices", at, 0);
  if (is_choice && at < given) {
    pick = choices[at].pick;
    if (!(ready >> pick & 1)) fail("the program took another way this time", at, pick);
    if (choices[at].kind != GIVEN) run.asleep = choices[at].asleep;
  }
  u32 awake = ready & ~run.asleep;
  if (pick < 0 && !awake) {
    run.is_redundant = 1;
    end_run();
  }
  if (pick < 0) pick = awake >> first & 1 ? first : __builtin_ctz(awake);
  if (is_choice) choices[run.choices++] = (Choice){ready, pick, ORDERS, run.asleep};
  run.asleep &= ~(1u << pick);
  for (int other = 1; other < run.count; other++)
    if (depend(run.threads[pick].next, run.threads[other].next)) run.asleep &= ~(1u << other);
  return pick;
}

// Whether the choice has another pick that wasn't tried, which it then takes.
static int turn(Choice *choice) {
  if (choice->kind != ORDERS) return ++choice->pick < choice->of;
  choice->asleep |= 1u << choice->pick;
  u32 left = choice->of & ~choice->asleep;
  if (left) choice->pick = __builtin_ctz(left);
  return left != 0;
}

// Makes the next list: the last choice that has another pick takes it, and those behind it are free. Whether there is one.
int next_schedule(void) {
  int last = run.choices - 1;
  while (last >= 0 && !turn(&choices[last])) last--;
  given = last + 1;
  return last >= 0;
}

void give_choices(const char *digits) {
  given = strlen(digits);
  if (given > MOST_CHOICES) given = MOST_CHOICES;
  for (int i = 0; i < given; i++) choices[i] = (Choice){0, digits[i] - '0', GIVEN, 0};
}

// The picks of the last run, a digit each. Those at its end that are 0 are left out, unless they are by order.
char *choices_text(void) {
  int len = run.choices;
  if (!options.by_order) while (len && !choices[len - 1].pick) len--;
  char *text = malloc(len + 1);
  for (int i = 0; i < len; i++) text[i] = '0' + choices[i].pick;
  text[len] = 0;
  return text;
}
