"""The stored run of a crate's program, whose input and output lie beside its sources, and which wrong bodies it shows."""

import subprocess

SECONDS = 60  # for one run, also beside other work


def lines_of(text):
    """The lines of an output, each without the white space around it, as an edit names one."""
    return {line.strip() for line in text.splitlines()}


def written(program, crate):
    """What the program writes for the stored input of the crate in this folder, as far as it comes."""
    with (crate / "stdin").open("rb") as given:
        how = {"stdin": given, "stdout": subprocess.PIPE, "stderr": subprocess.DEVNULL, "timeout": SECONDS}
        return subprocess.run([program], cwd=program.parent, env={}, check=False, **how).stdout.decode(errors="replace")


def judge_output(line, wrong, own, crate):
    """Whether this line is in the output of the program with the wrong body, and not in the stored one, which the own program writes, or the other
    way round; and what to say."""
    stored = (crate / "stdout").read_text(encoding="utf-8")
    try:
        if written(own, crate) != stored:
            return False, "NOT CAUGHT: the stored run is another without the body as well"
        said = written(wrong, crate)
    except subprocess.TimeoutExpired:
        return False, f"NOT CAUGHT: the stored run hasn't ended after {SECONDS} seconds"
    if said == stored:
        return False, "NOT CAUGHT: the stored run is the same"
    if (line in lines_of(said)) == (line in lines_of(stored)):
        return False, f"NOT CAUGHT: the stored run is another, but not by this line: {line}"
    return True, f"seen by the stored run: {line}"
