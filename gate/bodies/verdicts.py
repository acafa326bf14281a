"""What is said of a wrong body, in a line: whether what has to see it does."""


class Skipped(Exception):
    """A tool isn't there that is needed to see it."""


def tell(label, well, text):
    """Says of the body with this label whether all is well with it, and the rest."""
    print(f"caught {label}: {'' if well else 'WRONG: '}{text}", flush=True)


def told(label, judge, *words):
    """Whether all is well with it, by what `judge` answers of these words, a bool and a text, which is said; None if it is skipped."""
    try:
        well, text = judge(*words)
    except Skipped:
        print(f"caught {label}: SKIPPED", flush=True)
        return None
    tell(label, well, text)
    return well
