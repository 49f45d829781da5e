"""Shows that the checker refuses wrong bodies: each edit in `workshop/edits/CRATE`, by the proof of
the function that it changes.

    python3 -m workshop.try_edits [--only WORD]    tries those with this word in `CRATE/NAME.edit`
    python3 -m workshop.try_edits --refusals       tries one for each refusal of `record` besides
    python3 -m workshop.try_edits --build          builds libraries that are missing or old

Building the libraries takes hours.

It checks copies of the crates over the libraries that `rt ci` built in this clone, or `rt lib` in
their folders, and builds none without `--build`. It is to be run after a gate that passed: where a
function isn't proved anyway, each edit of it counts as refused. What isn't refused is printed, and
nothing where all is well: status 0, and 1 otherwise. Those in `crates/CRATE/must-fail` are left to
`rt ci`. docs/CONTRIBUTING.md says how an edit is written.

`--refusals` takes edits by which a session that was judged is refused all the same, one for each
refusal of `record`: those in `workshop/edits/rec_export/refusals`, and for a refusal without an
edit `always_..` one that is made here. `--summary` prints a line for each check: its crate, its
processor seconds, its memory, and its edits. One that is refused `only by names`, as its proof
names what the edit took away, says little of the contract.

Crates are tried side by side, one a processor where each has 3 GB of free memory. An edit takes
some 25 seconds of processor time, and more where its function calls many others of its crate.
"""

from __future__ import annotations

import concurrent.futures
import dataclasses
import os
import re
import signal
import subprocess
import sys
import tempfile
from collections.abc import Callable, Iterable, Mapping
from pathlib import Path

from rezovamy_runs.command_line import command_line, say, whole
from workshop import TOP, edit_checks, gate_cost, refusals
from workshop.edit_checks import Checker, Clone, Judgement, Round, Said, Unready, Verdict
from workshop.edit_files import Misfit, misfit

CRATES = TOP / "crates"
EDITS = TOP / "workshop/edits"
# What a check may need, in kB.
MEMORY = 3_000_000
INTERRUPTED = 130
SETTLED = {Verdict.REFUSED, Verdict.PROVED}


@dataclasses.dataclass(frozen=True)
class Options:
    """What is asked for beside the edits."""

    build: bool = False
    jobs: int | None = None
    summary: bool = False


def edits_there(with_refusals: bool = False) -> dict[str, str]:
    """The texts of the edits that are tried here, by their crates and names."""
    paths = [*EDITS.glob("*/*.edit"), *(EDITS.glob("*/refusals/*.edit") if with_refusals else [])]
    found = {
        f"{path.relative_to(EDITS).parts[0]}/{path.name}": path.read_text()
        for path in sorted(paths)
    }
    if not with_refusals:
        return found
    made = refusals.edits(
        (CRATES / refusals.ENUM_FILE).read_text(), refusals.edited(EDITS / refusals.CRATE)
    )
    return found | {f"{refusals.CRATE}/{name}": text for name, text in made.items()}


def crate_of(name: str) -> str:
    return name.partition("/")[0]


def misfits(edits: Mapping[str, str]) -> str:
    """A line for each edit that can't be applied, or whose function isn't found."""
    found = {name: misfit(text, CRATES / crate_of(name)) for name, text in edits.items()}
    return "".join(f"{name}: {why}\n" for name, why in found.items() if why)


def fault(verdict: Verdict, words: str) -> str:
    """What is said of an edit that isn't refused."""
    if verdict is Verdict.PROVED:
        return "NOT REFUSED: the function is still proved with it"
    if verdict is Verdict.WAITS:
        return f"not tried, since more than this edit is wrong: {words}"
    return f"BAD EDIT, which doesn't come to the proof of its function: {words}"


def undecided(said: Mapping[str, Judgement]) -> tuple[list[str], list[str]]:
    """Return the edits of a check that wait for others of it, and those to be tried alone."""
    is_any_settled = any(verdict in SETTLED for verdict, _ in said.values())
    waiting: list[str] = []
    unclear: list[str] = []
    for name, (verdict, _) in said.items():
        if verdict is Verdict.WAITS and is_any_settled:
            waiting.append(name)
        elif verdict not in SETTLED and len(said) > 1:
            unclear.append(name)
    return waiting, unclear


def faults(
    edits: Mapping[str, str], folder: Path, check: Callable[[Round], Mapping[str, Judgement]]
) -> str:
    """A line for each edit of a crate that isn't refused, by checks of rounds of them."""
    found: dict[str, str] = {}
    todo = edit_checks.rounds(edits, folder)
    while todo:
        later: dict[str, str] = {}
        alone: dict[str, str] = {}
        for said in map(check, todo):
            waiting, unclear = undecided(said)
            later |= {name: edits[name] for name in waiting}
            alone |= {name: edits[name] for name in unclear}
            found |= {
                name: f"{name}: {fault(verdict, words)}\n"
                for name, (verdict, words) in said.items()
                if name not in waiting + unclear and verdict is not Verdict.REFUSED
            }
        todo = edit_checks.rounds(later, folder)
        for name, text in alone.items():
            todo += edit_checks.rounds({name: text}, folder)
    return "".join(found[name] for name in edits if name in found)


def try_crate(crate: str, edits: Mapping[str, str], checker: Checker, summary: bool) -> str:
    """What is wrong of a crate's edits.

    What one check has proved of other functions the next one takes from a folder.
    """

    def check(each: Round) -> Mapping[str, Judgement]:
        said = checker.check(crate, each, kept)
        found = edit_checks.verdicts(said, crate, each.functions)
        if summary:
            say(summary_of(crate, said, each, found))
        return found

    with tempfile.TemporaryDirectory(prefix="edits-") as kept:
        try:
            return faults(edits, CRATES / crate, check)
        except Unready as why:
            return f"{crate}: {why}\n"


def summary_of(crate: str, said: Said, each: Round, found: Mapping[str, Judgement]) -> str:
    """A line of what a check took, and of the edits that it has settled.

    What is refused only by names may be a poor edit.
    """
    shown = []
    for name, functions in each.functions.items():
        is_poor = found[name][0] is Verdict.REFUSED and any(map(said.is_by_names, functions))
        shown.append(
            f"{name.rpartition('/')[2]} "
            f"{'only by names' if is_poor else found[name][0].name.lower()}"
        )
    return f"{crate}: {said.seconds:.0f} s, {said.memory / 1e6:.1f} GB: {', '.join(shown)}"


def most_at_once() -> int:
    """How many checks run at a time: as many as there are processors, and as free memory holds."""
    free = re.search(r"^MemAvailable: +(\d+)", Path("/proc/meminfo").read_text(), re.M)
    return max(1, min(len(os.sched_getaffinity(0)), int(free[1]) // MEMORY if free else 1))


def build(clone: Clone, crates: Iterable[str]) -> None:
    """Builds the libraries that some crates use; `rt` builds first those below each."""
    for name in sorted(
        {used for crate in crates for used in clone.uses[crate] if used in clone.uses}
    ):
        # Standard output is for what is found of the edits.
        done = subprocess.run(
            ["rt", "lib"], cwd=CRATES / name, stdin=subprocess.DEVNULL, stdout=sys.stderr
        )
        if done.returncode:
            raise Unready(f"the library {name} can't be built")


def try_all(edits: Mapping[str, str], clone: Clone, options: Options) -> str:
    """What is wrong of edits, the crates with most of them first."""
    parted: dict[str, dict[str, str]] = {crate: {} for crate in clone.uses}
    for name, text in edits.items():
        parted[crate_of(name)][name] = text
    crates = sorted(
        (crate for crate in parted if parted[crate]), key=lambda crate: -len(parted[crate])
    )
    if options.build and list(clone.unbuilt(crates)):
        build(clone, crates)
    unbuilt = list(clone.unbuilt(crates))
    if unbuilt:
        raise Unready("\n".join([*unbuilt, edit_checks.BUILD]))
    checker = Checker(clone)
    with concurrent.futures.ThreadPoolExecutor(options.jobs or most_at_once()) as pool:
        try:
            tasks = [
                pool.submit(try_crate, crate, parted[crate], checker, options.summary)
                for crate in crates
            ]
            return "".join(task.result() for task in tasks)
        except BaseException:
            pool.shutdown(wait=False, cancel_futures=True)
            checker.stop()
            raise


def main() -> int:
    for number in (signal.SIGINT, signal.SIGTERM, signal.SIGHUP):
        # Each comes as an interrupt, by which the checks are ended too.
        signal.signal(number, signal.default_int_handler)
    parser = command_line(__doc__)
    parser.add_argument(
        "--only",
        metavar="WORD",
        default="",
        help="only edits with this word in their crates and names",
    )
    parser.add_argument(
        "--refusals", action="store_true", help="also one for each refusal of `record`"
    )
    parser.add_argument(
        "--build", action="store_true", help="build the libraries anew where one is missing or old"
    )
    parser.add_argument(
        "--jobs", type=whole(1, 100), metavar="N", help="how many checks run at a time"
    )
    parser.add_argument(
        "--summary", action="store_true", help="print what each check took, on standard error"
    )
    words = parser.parse_args()
    try:
        edits = {
            name: text for name, text in edits_there(words.refusals).items() if words.only in name
        }
        if not edits:
            parser.error(f"no edit has {words.only!r} in its name")
        clone = Clone(CRATES, gate_cost.crates((TOP / "crates.txt").read_text()), edit_checks.kit())
        options = Options(words.build, words.jobs, words.summary)
        found = misfits(edits) or try_all(edits, clone, options)
    except (OSError, Misfit, Unready, refusals.Unknown) as error:
        say(f"try_edits: {error}")
        return 1
    except KeyboardInterrupt:
        return INTERRUPTED
    print(found, end="")
    return int(bool(found))


if __name__ == "__main__":
    sys.exit(main())
