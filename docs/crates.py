"""The crates of crates.txt, as the drawings, the table of clauses and the record of edits read them, and what is drawn in a document."""

from pathlib import Path

TOP = Path(__file__).resolve().parent.parent
CRATES = TOP / "crates.txt"


def read_lines(text):
    """The lines of crates.txt that stand for crates, by the crate's name."""
    lines = [line for line in text.splitlines() if line.strip() and not line.startswith("#")]
    return {line.partition(":")[0].split()[0]: line for line in lines}


def read_crates(text):
    """The crates by name, each with the crates that its line names; library crates of the toolchain are left out."""
    lines = read_lines(text)
    return {name: [other for other in line.partition(":")[2].split() if other in lines] for name, line in lines.items()}


def find_below(crates):
    """For each crate all crates below it. A crate stands in crates.txt after those that its line names."""
    below = {}
    for name, named in crates.items():
        late = [other for other in named if other not in below]
        if late:
            raise ValueError(f"{name} stands before {late[0]}, which its line names")
        below[name] = set(named).union(*(below[other] for other in named))
    return below


def drawn(document, begin, end, drawing):
    """The document with this drawing between its marks."""
    before, first, rest = document.partition(begin)
    _, last, after = rest.partition(end)
    if not first or not last:
        raise ValueError("it does not have both marks of what is drawn")
    return f"{before}{begin}\n{drawing}\n{end}{after}"
