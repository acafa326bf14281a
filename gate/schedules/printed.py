"""The steps of one schedule as a picture in text: a column for each thread, a line for each step inside a call."""

from explore import Search, explore

WIDTH = 44


def parse(line):
    """A line `step THREAD IN_CALL BLOCK OFFSET FOUND LEFT WHAT` of the scheduler."""
    _, thread, is_in_call, *numbers, what = line.split(" ", 7)
    return int(thread), is_in_call == "1", tuple(int(number) for number in numbers), what


def text_of(what, numbers, calls):
    """What a step does, in words; `calls` are those of its thread that weren't begun yet, before it lets go what it has left."""
    block, offset, found, left = numbers
    place = f"block {block}+{offset}"  # by the order in which blocks were made
    if what == "begins":
        return f"begins {calls.pop(0) if calls else 'to let go at its end'}"
    if what in ("ends", "is refused memory"):
        return what
    if "sleep" in what or "wakes" in what:
        return f"  {what} {place}"
    return f"  {what} {place}: {found}" + (f" -> {left}" if left != found else "")


def picture(steps, scene):
    """The lines of the picture."""
    parsed = [parse(line) for line in steps if line.startswith("step ")]
    threads = range(1, len(scene.threads) + 1)
    calls = {thread: list(scene.calls[thread - 1]) for thread in threads}
    lines = [("      " + "".join(f"thread {thread}".ljust(WIDTH) for thread in threads)).rstrip()]
    for thread, is_in_call, numbers, what in parsed:
        if thread and is_in_call:
            lines.append(f"{len(lines):4}  {' ' * WIDTH * (thread - 1)}{text_of(what, numbers, calls[thread])}")
    return lines


def print_schedule(program, scene, how):
    """Prints the steps of one schedule, its answers, and whether they are right. Whether they are."""
    found, wrong = explore(program, scene, how)
    if found.error or not found.outcomes:
        print(found.error or "no schedule has these choices")
        return False
    lines = found.outcomes[0].lines
    print("\n".join([*picture(found.steps, scene), "", "thread, call, text, when it began and ended, answer:", *lines]))
    print(f"WRONG: {wrong[1]}" if wrong else "as one map's calls")
    return not wrong


def print_wrong(program, scene, how, outcome):
    """Prints the first schedule of a wrong outcome, and the command that runs it again."""
    print_schedule(program, scene, Search.again(how.word, outcome.choices))
    print(f"again: gate/schedules/schedules.py --again '{scene.name}' {how.word} '{outcome.choices}'", flush=True)
