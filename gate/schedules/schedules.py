#!/usr/bin/env python3
"""Tries the schedules of all scenes (scenes.py) on the compiled set, and says of each scene what was found (docs/SCHEDULES.md).

usage: gate/schedules/schedules.py [--built] [WORD..]       with words: only the scenes whose names contain one of them
       gate/schedules/schedules.py --again SCENE SEARCH CHOICES
       gate/schedules/schedules.py --bodies [--jobs N] [WORD..]      tries the kept wrong bodies whose paths contain a word, or all
       gate/schedules/schedules.py --gate [--jobs N]         tries all scenes, builds all wrong bodies, and searches the scenes of
                                                             those that guard the tester

A word that is in no scene's name, or in no body's path, is told, and nothing is tried.
With --built the program is the one that the last call built. SEARCH is a number of preemptions or `by-order`, with `+1` behind it
where a request for memory is refused: a wrong outcome is printed with the command that runs its first schedule again.
"""

import argparse
import os
import sys
import time
import unittest
from collections import Counter
from pathlib import Path

sys.dont_write_bytecode = True
sys.path.append(str(Path(__file__).resolve().parent.parent))
import find_modules  # has Python find the next ones
import bodies_test
import history_tests
import run_tests
from bodies import GUARDS, bodies_in, try_bodies
from build import CantBuild, build
from edits import NoSuchEdit
from explore import MOST, Search, explore, search, searches_of
from printed import print_schedule, print_wrong
from repository import TOP
from scenes import BadScene, all_scenes

PROGRAM = TOP / "crates" / "schedules" / "out" / "scheduled"
COUNTING = TOP / "crates" / "atoms" / "out" / "scheduled"
TEXT = "tokenised forgotten forgotten tokenised\n"  # what two workers count


def try_scene(program, scene, totals):
    """Tries the scene's searches until one finds something wrong, and adds their schedules to the totals. Whether none did."""
    said, seconds = [], 0.0
    for how in searches_of(scene):
        found, wrong = explore(program, scene, how)
        why = found.error or (wrong[1] if wrong else "cut, where all are to be tried" if found.is_cut and how.preemptions < 3 else "")
        if why:
            print(f"schedules {scene.name}, {how}: WRONG: {why}", flush=True)
            if wrong:
                print_wrong(program, scene, how, wrong[0])
            return False
        whole = "cut" if found.is_cut else "whole"
        said.append(f"{how}: {found.schedules}, {whole}, {len(found.outcomes)} outcomes")
        totals[str(how)] += found.schedules
        seconds += found.seconds
    print(f"schedules {scene.name}: {'; '.join(said)}; {seconds:.1f} s", flush=True)
    return True


def untimed(outcome):
    """An outcome without the times of its calls."""
    return tuple((*line.split(" ")[:3], *line.split(" ")[5:]) for line in outcome.lines[:-2]), *outcome.lines[-2:]


def compare_searches(program, scene):
    """Whether the search by order comes to each outcome of the plain search of all schedules, and to no other answers."""
    plain = search(program, Search(99).words(), scene.arguments())
    by_order = search(program, Search(is_by_order=True).words(), scene.arguments())
    is_cut = plain.is_cut or by_order.is_cut
    missed = {tuple(it.lines) for it in plain.outcomes} - {tuple(it.lines) for it in by_order.outcomes}
    is_same = {untimed(it) for it in plain.outcomes} == {untimed(it) for it in by_order.outcomes}
    well = not (plain.error or by_order.error or missed) and is_same and not is_cut
    said = "the same outcomes" if well else "WRONG: cut, where all are to be tried" if is_cut else "WRONG: other outcomes"
    print(f"schedules {scene.name}, all of them: {plain.schedules}, by order {by_order.schedules}: {said}", flush=True)
    return well


def try_unordered(program, scene):
    """Whether a race shows where the scheduler takes atomic steps to order nothing."""
    found = search(program, [*Search(1).words(), "-x"], scene.arguments())
    well = any("race" in outcome.lines[-1] for outcome in found.outcomes)
    print(f"schedules {scene.name}, with atomic steps that order nothing: {'races, as it must' if well else 'WRONG: no race'}", flush=True)
    return well


def try_counting(program):
    """Whether two workers of `atoms count` say the same of four words in each schedule."""
    counts = Counter(word for word in TEXT.split())
    wanted = [f"{count} {word}" for word, count in sorted(counts.items())]
    well, said = True, []
    for k in range(3):
        found = search(program, ["-w", *Search(k, most=MOST).words()], ["count", "2"], TEXT.encode())
        said.append(f"K={k}: {found.schedules}{', cut' if found.is_cut else ''}")
        bad = [outcome for outcome in found.outcomes if outcome.lines[:-1] != wanted or outcome.lines[-1] != "status 0 blocks 0 "]
        if found.error or bad:
            said.append(f"WRONG: {found.error or bad[0]}")
            well = False
    print(f"schedules atoms count 2: {'; '.join(said)}", flush=True)
    return well


def test_tools():
    """How many tests of the checker of histories and of what is said of bodies pass, as a list with a truth value for each."""
    loader = unittest.defaultTestLoader
    suite = unittest.TestSuite(map(loader.loadTestsFromModule, (history_tests, bodies_test)))
    passed, failed = run_tests.run(suite, verbosity=0)
    return [True] * passed + [False] * failed


def try_all(words, scenes, is_built):
    """Whether each thing that was tried is well."""
    strange = [word for word in words if not any(word in scene.name for scene in scenes)]
    if strange:
        raise BadScene(f"no scene has this in its name: {', '.join(strange)}")
    if not is_built:
        build(TOP / "crates" / "schedules", PROGRAM)
    totals = Counter()
    chosen = [scene for scene in scenes if not words or any(word in scene.name for word in words)]
    results = [try_scene(PROGRAM, scene, totals) for scene in chosen]
    print(f"schedules in all: {'; '.join(f'{how}: {count}' for how, count in totals.items())}", flush=True)
    results += [compare_searches(PROGRAM, scene) for scene in chosen if scene.is_compared]
    if words:
        return results
    results.append(try_unordered(PROGRAM, scenes[0]))
    if not is_built:
        build(TOP / "crates" / "atoms", COUNTING)
    results.append(try_counting(COUNTING))
    return results + test_tools()


def tried(given, scenes):
    """Whether each thing that the command line asks for is well."""
    if given.again:
        name, word, choices = given.again
        scene = next((scene for scene in scenes if scene.name == name), None)
        if not scene:
            raise BadScene(f"there is no scene '{name}'")
        if not PROGRAM.is_file():
            build(TOP / "crates" / "schedules", PROGRAM)
        return [print_schedule(PROGRAM, scene, Search.again(word, choices))]
    if given.bodies:
        return try_bodies(bodies_in(TOP, given.words), scenes, TOP, given.jobs)
    results = try_all(given.words, scenes, given.built)
    if given.gate:
        results += try_bodies(bodies_in(TOP, []), scenes, TOP, given.jobs, GUARDS)
    return results


def main():
    parser = argparse.ArgumentParser(description=__doc__, formatter_class=argparse.RawDescriptionHelpFormatter)
    parser.add_argument("--again", nargs=3, metavar=("SCENE", "SEARCH", "CHOICES"))
    parser.add_argument("--jobs", type=int, default=os.cpu_count() or 1)
    for flag in ("--built", "--bodies", "--gate"):
        parser.add_argument(flag, action="store_true")
    parser.add_argument("words", nargs="*")
    given = parser.parse_args()
    begun = time.monotonic()
    try:
        results = tried(given, all_scenes())
    except (CantBuild, BadScene, NoSuchEdit, OSError) as why:
        print(f"schedules: WRONG: {why}")
        results = [False]
    if not given.again:
        print(f"schedules: {time.monotonic() - begun:.0f} seconds")
        print(f"{results.count(True)} passed, {results.count(False)} failed")
    return 0 if results and all(results) else 1


if __name__ == "__main__":
    sys.exit(main())
