"""Wrong bodies that the tester of schedules has to find, as they are kept in crates/NAME/scheduled/*.edit (gate/bodies/edits.py reads them).

The first line of such a file is `scene: NAME`, which names the scene that shows the body to be wrong. All bodies are built side by side
(gate/bodies/shared_builds.py), with the checks of rt try, from a copy of the repository, and from that build each gets a program of its own. Its
scene is searched as it is without the body, until an outcome is wrong. Where that doesn't compile, each half of them has a build, so that
those which can be built no more are told.
"""

import shutil
import tempfile
from concurrent.futures import ThreadPoolExecutor
from pathlib import Path

from build import CantBuild, compiled, link
from edits import BadEdit, chosen, edited, read_edit
from explore import Search, explore, searches_of
from printed import print_schedule
from shared_builds import ALLOWED, CantShare, answer, beside_their_own, shared_texts

# Those whose scenes the gate searches: one for each way in which a wrong outcome shows.
GUARDS = (
    "addition_from_zero",
    "missed_exchange_tries_the_same_again",
    "limit_is_not_looked_at_again",
    "last_drop_frees_where_the_lock_is_taken",
    "empty_bucket_links_without_a_second_look",
    "linked_looks_without_the_lock",
    "drop_prunes_another_bucket",
)


def tell(edit, well, text):
    print(f"found {edit}: {'' if well else 'WRONG: '}{text}", flush=True)
    return well


def read_body(path, scenes, top):
    """The body in a file, and its scene."""
    edit = read_edit(path)
    scene = next((scene for scene in scenes if (edit.want, edit.name) == ("scene", scene.name)), None)
    if not scene:
        raise BadEdit(f"there is no scene '{edit.name}'")
    try:
        edited(edit, top)
        shared_texts([edit], top)
    except CantShare as why:
        raise BadEdit(str(why)) from why
    return edit, scene


def built(bodies, copy, room):
    """Each of these bodies of a copy with the objects of a build that it shares, its number there, and what is said of one without any."""
    own = Path(tempfile.mkdtemp(dir=room))
    try:
        with beside_their_own([edit for edit, _ in bodies], copy):
            objects = compiled(copy / "crates" / "schedules", own, checks=True, **ALLOWED)
    except CantBuild as why:
        half = len(bodies) // 2
        return built(bodies[:half], copy, room) + built(bodies[half:], copy, room) if half else [(*bodies[0], None, 0, why)]
    return [(edit, scene, objects, number, None) for number, (edit, scene) in enumerate(bodies, 1)]


def search_body(program, scene, is_shown):
    """Whether an outcome of the scene is wrong, and what to say. Prints the steps of the first one, where that is asked for."""
    for how in searches_of(scene):
        found, wrong = explore(program, scene, how)
        if found.error:
            return False, found.error
        if wrong and is_shown:
            print_schedule(program, scene, Search.again(how.word, wrong[0].choices))
        if wrong:
            return True, f"found in '{scene.name}' with {how}: {wrong[1]}"
    return False, f"NOT FOUND in '{scene.name}'"


def judge(body, room, is_searched, is_shown):
    """Whether a body is built and, if its scene is searched, found."""
    edit, scene, objects, number, why = body
    if not objects:
        return tell(edit, False, f"BAD EDIT: it can't be built: {why}")
    if not is_searched:
        return tell(edit, True, "it is built")
    program = Path(tempfile.mkdtemp(dir=room)) / "program"
    link([*objects, answer(number, program.parent)], program)
    return tell(edit, *search_body(program, scene, is_shown))


def try_bodies(paths, scenes, top, jobs, searched=None):
    """Builds the bodies in these files, and searches the scenes of all, or of those that are named. Whether each is well. The schedule is
    shown where a body is alone."""
    bodies, results = [], []
    for path in paths:
        try:
            bodies.append(read_body(path, scenes, top))
        except BadEdit as why:
            results.append(tell(f"{path.parent.parent.name}/{path.name}", False, f"BAD EDIT: {why}"))
    with tempfile.TemporaryDirectory(prefix="bodies-") as room, ThreadPoolExecutor(max(1, jobs)) as workers:
        copy = Path(room) / "copy"
        shutil.copytree(top, copy, ignore=shutil.ignore_patterns("out", ".git"))
        found = built(bodies, copy, Path(room)) if bodies else []
        names = {path.stem for path in paths}
        results += [tell(name, False, "no such body is kept") for name in searched or () if name not in names]
        is_searched = [searched is None or edit.path.stem in searched for edit, *_ in found]
        return results + list(workers.map(lambda body, asked: judge(body, room, asked, len(paths) == 1), found, is_searched))


def bodies_in(top, words):
    """The files of the wrong bodies whose paths contain one of the words, or all where there are none."""
    return chosen(top.glob("crates/*/scheduled/*.edit"), words)
