"""The rows of count_many_test.py about what a folder's runs are of: a count is resumed over its own text, and over no other."""

import os
import shutil

from count_many_base import TEXTS, counted, failed, lying, same, whole, written

TEXT = TEXTS["many words"][0]
OTHER = TEXT.replace(b"word1", b"ward1")  # of the same length


def kept_of(room, texts):
    """A folder with a count of these texts, of which a part is missing, and the files."""
    files, kept = written(room, texts), room / "kept"
    counted(files, "--keep", kept)
    (kept / "run.0" / "2.counts").unlink()
    return kept, files


def not_resumed(kept, files, why, block="20k"):
    """What is wrong if a count over these files isn't refused for this reason, or changes what is kept."""
    before = lying(kept)
    found = failed(counted(files, "--keep", kept, "--resume", block=block), f"kept {why}: another folder has to keep this count")
    return found or (None if lying(kept) == before else f"of {files} with pieces of {block} something was kept")


def other_text_is_resumed(room):
    """A text of other files, or of the same ones in another order, or cut otherwise; and the text itself."""
    kept, files = kept_of(room, [TEXT, b"a b\n"])
    copy = room / "copy"
    shutil.copy2(files[0], copy)
    for texts in (files[:1], files[::-1], [copy, files[1]], [*files, copy]):
        if wrong := not_resumed(kept, texts, "is of other files, as plan.json there lists them"):
            return wrong
    if wrong := not_resumed(kept, files, "has pieces of --block 20k", block="30k"):
        return wrong
    if wrong := failed(counted(files, "--keep", kept), "has results already: --resume goes on with them"):
        return wrong
    return same(counted(files, "--keep", kept, "--resume"), whole(TEXT + b"a b\n"))


def changed_text_is_resumed(room):
    """A file that has another length, or was written anew; and one that is as it was."""
    kept, (file,) = kept_of(room, [TEXT])
    time, why = file.stat().st_mtime_ns, f"is of {file.resolve()} as it was before it changed"
    for text, at in ((TEXT + b"more\n", time), (TEXT[:-1], time), (OTHER, time + 1), (TEXT, time - 1)):
        file.write_bytes(text)
        os.utime(file, ns=(at, at))
        if wrong := not_resumed(kept, [file], why):
            return wrong
    file.write_bytes(TEXT)
    os.utime(file, ns=(time, time))
    return same(counted([file], "--keep", kept, "--resume"), whole(TEXT))


def own_text_has_another_name(room):
    """A text is the one that it was by whatever path it is named."""
    kept, (file,) = kept_of(room, [TEXT])
    (room / "link").symlink_to(file)
    if wrong := same(counted([room / "link"], "--keep", kept, "--resume"), whole(TEXT)):
        return wrong
    return same(counted([os.path.relpath(file)], "--keep", kept, "--resume"), whole(TEXT))


def note_is_cut_short(room):
    """What a folder is of can't be told if its note isn't whole."""
    kept, files = kept_of(room, [TEXT])
    note = (kept / "plan.json").read_bytes()
    for part in (note[:-1], b"", b"\xff"):
        (kept / "plan.json").write_bytes(part)
        if wrong := not_resumed(kept, files, "has a plan.json that isn't whole"):
            return wrong
    (kept / "plan.json").write_bytes(note)
    return same(counted(files, "--keep", kept, "--resume"), whole(TEXT))


def other_run_is_laid_in(room):
    """Pieces of another text of the same length aren't taken for those of this one, and neither is its refusal."""
    files = written(room, [TEXT, OTHER, TEXT.replace(b"word1", b"w\xffrd1")])
    for file in files:
        counted([file], "--keep", room / f"kept.{file.name}")
    kept = room / "kept.text.0"
    for other in files[1:]:
        shutil.rmtree(kept / "run.0")
        shutil.copytree(room / f"kept.{other.name}" / "run.0", kept / "run.0")
        if wrong := same(counted(files[:1], "--keep", kept, "--resume"), whole(TEXT)):
            return wrong
        shutil.rmtree(kept / "run.1")
    return None


def first_run_is_taken_away(room):
    """A run gets a number that no other one has, also if one before it is gone."""
    kept, files = kept_of(room, [TEXT])
    counted(files, "--keep", kept, "--resume")
    shutil.rmtree(kept / "run.0")
    return same(counted(files, "--keep", kept, "--resume"), whole(TEXT))


ROWS = (
    other_text_is_resumed,
    changed_text_is_resumed,
    own_text_has_another_name,
    note_is_cut_short,
    other_run_is_laid_in,
    first_run_is_taken_away,
)
