"""The rows of count_many_test.py about options: a wrong one is told as what it is, and leaves no folder."""

import shutil

from count_many_base import ATOMS, COUNT_MANY, TEXTS, counted, failed, lying, program, ran, same, whole, written

TEXT = TEXTS["many words"][0]


def refused(room, command, why, status):
    """What is wrong if a command should have been refused for that reason, with that status, and have left the room as it was."""
    before = lying(room)
    found = ran(command)
    if wrong := failed(found, why) or (None if found.returncode == status else f"status {found.returncode}"):
        return f"{command[3:]}: {wrong}"
    return None if lying(room) == before else f"{command[3:]}: it left {sorted(map(str, lying(room)))}"


def refused_each(room, files, rows, status):
    """As `refused`, of the first that is wrong of many options with their reasons, with a folder to keep two levels down."""
    start = [COUNT_MANY, "--atoms", ATOMS, "--keep", room / "new" / "kept"]
    return next(filter(None, (refused(room, [*start, *options, *files], why, status) for options, why in rows)), None)


def option_is_wrong(room):
    """A bad option is told, here or in the words of parallel. A good one begins the folder, and then a bad one changes nothing there."""
    sizes = [([f"--block={size}"], "--block is a number of bytes") for size in ("abc", "0", "-1", "10kk", "1e4", "")]
    words = [
        (["--jobs", "x"], "parallel began no piece: parallel: Error: Parsing of --jobs"),
        (["--sshlogin", "2/"], "parallel began no piece: parallel: Error: "),
    ]
    kept, files = room / "new" / "kept", written(room, [TEXT])
    if wrong := refused_each(room, files, sizes, 2) or refused_each(room, files, words, 1):
        return wrong
    kept.parent.mkdir()
    if wrong := refused_each(room, files, words[:1], 1) or same(counted(files, "--keep", kept, block="30.5k"), whole(TEXT)):
        return wrong
    shutil.rmtree(kept / "run.0")
    return refused_each(room, files, [(["--block=30.5k", "--resume", *options], why) for options, why in words], 1)


def number_is_wrong(room):
    """A number of workers or tries that is too small or too large, or none."""
    workers = [([f"--workers={number}"], "--workers is from 1 to 64") for number in ("0", "-1", "65")]
    tries = [([f"--tries={number}"], "--tries is at least 1") for number in ("0", "-1")]
    words = [([option, "x"], f"argument {option}: invalid int value: 'x'") for option in ("--workers", "--tries")]
    return refused_each(room, written(room, [TEXT]), workers + tries + words, 2)


def text_is_wrong(room):
    """A text that isn't there, is none, or isn't given."""
    (room / "new").mkdir()
    texts = [([room / "absent"], "absent"), ([room / "new"], "new is no regular file")]
    if wrong := refused_each(room, written(room, [TEXT]), texts, 1):
        return wrong
    return refused(room, [COUNT_MANY, "--atoms", ATOMS, "--keep", room / "new" / "kept"], "the following arguments are required: FILE", 2)


def resume_is_wrong(room):
    """Nothing is there to go on with, or no folder is named."""
    files = written(room, [TEXT])
    if wrong := refused_each(room, files, [(["--resume"], "there is nothing to go on with in ")], 1):
        return wrong
    return refused(room, [COUNT_MANY, "--atoms", ATOMS, "--resume", *files], "--resume goes on with the results in --keep FOLDER", 2)


def kept_is_a_file(room):
    """What should be kept in a file, or below one, is kept nowhere, and the file stays."""
    file = written(room, [TEXT])[0]
    for kept, options, why in (
        (file, [], "text.0 is no folder"),
        (file, ["--resume"], "there is nothing to go on with in "),
        (file / "kept", [], "Not a directory"),
    ):
        if wrong := refused(room, [COUNT_MANY, "--atoms", ATOMS, "--keep", kept, *options, file], why, 1):
            return wrong
    return None


def workers_are_handed_on(room):
    """Each job has as many workers as are asked for."""
    notes = program(room, 'echo "$*" >> "$ROOM/words"; exec "$ATOMS" "$@"')
    for options, words in (((), "count 1"), (("--workers", "3"), "count 3")):
        (room / "words").unlink(missing_ok=True)
        if wrong := same(counted(written(room, [TEXT]), *options, atoms=notes), whole(TEXT)):
            return wrong
        if (found := set((room / "words").read_text().splitlines())) != {words}:
            return f"with {options} the program was given {found}"
    return None


def tries_are_as_many_as_asked_for(room):
    """A piece that fails is tried so often, and no oftener."""
    fails = program(room, 'echo once >> "$ROOM/tried"; exit 9')
    for tries in (1, 4):
        (room / "tried").unlink(missing_ok=True)
        if wrong := failed(counted(written(room, [b"a b\n"]), "--tries", str(tries), atoms=fails), "piece 1 wasn't counted"):
            return wrong
        if (found := len((room / "tried").read_text().splitlines())) != tries:
            return f"with {tries} tries it was tried {found} times"
    return None


ROWS = (workers_are_handed_on, tries_are_as_many_as_asked_for, option_is_wrong, number_is_wrong, text_is_wrong, resume_is_wrong, kept_is_a_file)
