"""Lists, of each crate, the functions that cost the checker most, and says which are too large.

    (cd crates/NAME && rt check)
    python3 -m workshop.check_cost [--most N] [NAME..]

The checker keeps the states that it walks through a function, a file a function, and the time of a
check goes with the size of these files. A function above the limit of 4 MB is marked with `above`;
docs/PROVING.md says what makes one large, what helps, and which stay above it and why. A crate that
was not checked in this clone is left out. The status is 1 where a function is above the limit that
docs/PROVING.md does not name.
"""

from __future__ import annotations

import re
import sys

from rezovamy_runs.command_line import command_line, whole
from workshop import TOP

LIMIT = 4_000_000
SUFFIX = ".Lts.oantt"


def crates() -> list[str]:
    """The names in crates.txt, in its order."""
    lines = (TOP / "crates.txt").read_text().splitlines()
    return [
        line.split(":")[0].split()[0] for line in lines if line.strip() and not line.startswith("#")
    ]


def function_of(crate: str, file_name: str) -> str:
    """`span_tracker::SpanTracker::observe` for the file of that function's states."""
    stem = file_name.removesuffix(SUFFIX)
    return re.sub(rf"^Rattle-{crate}-(proofs|tests)\.", "", stem).replace(".", "::")


def sizes_of(crate: str) -> list[tuple[str, int]]:
    """The size of each function's states in bytes, the largest first."""
    files = sorted(
        (TOP / "crates" / crate / "out" / "incremental").glob(f"**/*{SUFFIX}"),
        key=lambda path: path.stat().st_mtime,
    )
    # An older check may have kept the states of a function that changed since: the newest file
    # counts.
    newest = {function_of(crate, path.name): path.stat().st_size for path in files}
    return sorted(newest.items(), key=lambda item: (-item[1], item[0]))


def excused() -> set[tuple[str, str]]:
    """The functions that docs/PROVING.md names as above the limit, each with its crate."""
    text = (TOP / "docs" / "PROVING.md").read_text()
    return set(re.findall(r"^\| `(\w+)` \| `([\w:]+)` \|", text, re.M))


def main() -> None:
    parser = command_line(__doc__)
    parser.add_argument(
        "--most", type=whole(0, 10**6), default=5, help="how many functions of a crate (5)"
    )
    parser.add_argument("crates", nargs="*", metavar="NAME")
    words = parser.parse_args()
    unknown = set(words.crates) - set(crates())
    if unknown:
        parser.error(f"no crate is called {', '.join(sorted(unknown))}")
    known = excused()
    unexcused = 0
    for crate in words.crates or crates():
        sizes = sizes_of(crate)
        if not sizes:
            continue
        total = sum(size for _, size in sizes)
        print(f"{crate}: {len(sizes)} functions, {total / 1e6:.0f} MB")
        for place, (function, size) in enumerate(sizes):
            is_above = size > LIMIT
            if not is_above and place >= words.most:
                break
            mark = ""
            if is_above:
                mark = (
                    "  above"
                    if (crate, function) in known
                    else "  above, and not in docs/PROVING.md"
                )
                unexcused += (crate, function) not in known
            print(f"  {size / 1e6:6.1f} MB  {function}{mark}")
    sys.exit(unexcused > 0)


if __name__ == "__main__":
    main()
