"""The tests of a crate without proofs, as rt try builds them: run there, or taken out as a program. A crate's program is taken out so as well.

A wrong body that the prover would refuse, or has no time for, is built in this way all the same.
"""

import contextlib
import os
import re
import shutil
import signal
import subprocess
import time
from pathlib import Path

SAID = 600  # how much is shown of what was said
TESTS = "--test"  # what makes rt try take a crate's tests, and not its program
OUTCOME = re.compile(r"test (\S+) \.\.\. (\w+)")
# Rt try hands the program to its clang once with this word, for the run that finds bad addresses.
SANITIZED = "-fsanitize=address"
# A clang that keeps that program's object without such checks, at a level of its own, and ends rt try there. All else the kit's own compiles.
WRAPPER = """#!/bin/sh
case " $* " in
*" {sanitized} "*) "{clang}" "$@" -fno-sanitize=address {level} -o "{made}" && exit 1 ;;
esac
exec "{clang}" "$@"
"""


class NotBuilt(Exception):
    """There is no program of the crate's tests. It has all that was said, and shows the end of it."""

    def __init__(self, said):
        super().__init__(said.strip()[-SAID:])
        self.said = said


def kit():
    """The folder of the kit."""
    doc = subprocess.run(["rt", "doc"], stdout=subprocess.PIPE, check=True).stdout.decode().strip()
    return Path(doc).parent


def compiler(folder):
    """The words that begin a call of the kit's compiler, and of its linker."""
    bins = folder / "toolchain" / "bin"
    return [f"{bins}/clang", "--target=x86_64-unknown-linux-gnu", "-nostdlib", f"--ld-path={bins}/ld.lld"]


def started_by(process):
    """The processes that the process started, each with the words of its command."""
    for folder in Path("/proc").glob("[0-9]*"):
        try:
            parent = (folder / "stat").read_text(encoding="ascii", errors="replace").rpartition(")")[2].split()[1]
            if int(parent) == process:
                yield int(folder.name), (folder / "cmdline").read_bytes().split(b"\0")
        except (OSError, IndexError):
            continue  # it has ended


def end_hint(ran):
    """Ends the check that rt try starts beside a run for a hint on reserved names: it takes as much time as the run itself, and
    says nothing of a body. Where none is found within five seconds, nothing is ended."""
    for _ in range(50):
        hints = [process for process, words in started_by(ran.pid) if b"--start" in words and b"no function" in words]
        for process in hints:
            with contextlib.suppress(ProcessLookupError):
                os.kill(process, signal.SIGKILL)
        if hints or ran.poll() is not None:
            return
        time.sleep(0.1)


def try_tests(crate, *words, **environment):
    """The lines that rt try says as it runs the tests of the crate in this folder."""
    how = {"cwd": crate, "env": {**os.environ, **environment}, "stdin": subprocess.DEVNULL}
    ran = subprocess.Popen([*words], stdout=subprocess.PIPE, stderr=subprocess.STDOUT, **how)
    end_hint(ran)
    for line in ran.stdout:
        yield line.decode(errors="replace")
    ran.stdout.close()
    ran.wait()


def outcomes(crate, seconds, test=""):
    """Runs the tests whose paths contain the name: what became of each, by its path, and all that was said."""
    found, said = {}, []
    for line in try_tests(crate, "rt", "try", "--test", "--seconds", str(seconds), "--", test):
        said.append(line)
        found.update(OUTCOME.findall(line))
    return found, "".join(said)


def link_all(source, target, but=()):
    """Makes a folder of links to all that the source folder has, but for these names."""
    target.mkdir()
    for entry in source.iterdir():
        if entry.name not in but:
            (target / entry.name).symlink_to(entry)


def kit_with(clang, folder, own):
    """Makes the kit in this folder once more, of links to the own one, with another text as its clang."""
    link_all(own, folder, ("bin", "toolchain"))
    # Where the kit lies, rt tells by its own file.
    link_all(own / "bin", folder / "bin", ("rt", "rtlib.py"))
    for name in ("rt", "rtlib.py"):
        shutil.copy(own / "bin" / name, folder / "bin" / name)
    link_all(own / "toolchain", folder / "toolchain", ("bin",))
    link_all(own / "toolchain" / "bin", folder / "toolchain" / "bin", ("clang",))
    wrapper = folder / "toolchain" / "bin" / "clang"
    wrapper.write_text(clang, encoding="utf-8")
    wrapper.chmod(0o755)


def object_of(crate, room, *kind, level="-O0", **environment):
    """The object of the tests of the crate in this folder, or of its program where no kind is given, made in the room, an empty folder, with the
    optimiser at this level: at none, as for `rt try`, tests are built sooner than they would run faster."""
    own, made = kit(), room / "made.o"
    kit_with(WRAPPER.format(sanitized=SANITIZED, clang=compiler(own)[0], level=level, made=made), room / "kit", own)
    # The interpreter, which comes before the compiler, gets one step.
    words = [room / "kit" / "bin" / "rt", "try", *kind, "--steps", "1", "--seconds", "1"]
    said = "".join(try_tests(crate, *words, **environment))
    shutil.rmtree(room / "kit")
    if not made.is_file():
        raise NotBuilt(said)
    return made


def link(objects, program):
    """Links these objects with what programs of the kit stand on."""
    own = kit()
    parts = own / "toolchain" / "lib"
    start = [parts / name for name in ("Scrt1.o", "crti.o", "crtbeginS.o")]
    end = [parts / name for name in ("libc.so.6", "libc_nonshared.a", "libgcc.a", "crtendS.o", "crtn.o")]
    libraries = [own / "c" / "libos_c.a", own / "c" / "liblibc_c.a"]
    loader = "-Wl,-dynamic-linker,/lib64/ld-linux-x86-64.so.2"
    subprocess.run([*compiler(own), "-pie", loader, *start, *objects, *libraries, *end, "-o", program], check=True)


def build(crate, room):
    """The program of the tests of the crate in this folder, made in the room, an empty folder."""
    made, program = object_of(crate, room, TESTS), room / "tests"
    link([made], program)
    made.unlink()
    return program
