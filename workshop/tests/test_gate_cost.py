"""The measure of the gate: which process is a check, what is seen of it, and the table."""

from __future__ import annotations

import os
from collections import defaultdict

from workshop import gate_cost
from workshop.gate_cost import Cost, Costs, Measure, Process, Sampler, check_of

CHECK = ["/kit/bin/rattle", "check", "--crate-name", "rec_a", "src/lib.rt"]
USES = {
    "rec_a": ["serde"],
    "rec_b": ["rec_a"],
    "rec_c": ["rec_a"],
    "rezovamy": ["rec_b"],
    "rec_b_tests": ["rec_b", "rec_c"],
}


TABLE = """\
| Crate | Proof | Its tests | Seed | Its edits \
| GB of the proof | of tests | of the seed | of edits |
|---|---|---|---|---|---|---|---|---|
| `rec_a` | 2.0 | - | 1.0 | 3.0 | 1.0 | - | 1.0 | 1.0 |
| `rec_b` | 1.0 | 3.0 | - | - | 1.0 | 1.0 | - | - |
| `rec_c` | 4.0 | - | - | - | 1.0 | - | - | - |
| `rezovamy` | 1.0 | - | - | - | 1.0 | - | - | - |
| together | 8.0 | 3.0 | 1.0 | 3.0 | 1.0 | 1.0 | 1.0 | 1.0 |

16 processor minutes, 20 minutes of wall clock on 2 processors.
The longest chain in processor minutes, 8, is `rec_a`, `rec_c`, `rec_b_tests`.
The longest chain in minutes of wall clock, 16, is `rec_a`, `rec_c`, `rec_b_tests`.
The first `rt run` in `rezovamy` proves 3 crates, which is 4 processor minutes of these.
No process had more than 0.8 GB.
0.5 processor minutes were seen in no check: `rt` itself, linking, runs, and the last moments of \
each check.
"""


def costs(**minutes: float) -> Costs:
    """Make costs of these minutes of both kinds, by names as `rec_a__proof`."""
    found: Costs = defaultdict(Cost)
    for name, each in minutes.items():
        crate, _, kind = name.rpartition("__")
        found[crate, kind] = Cost(60 * each, int(1e9), 0, 120 * each, int(8e8))
    return found


def test_a_proof_and_tests() -> None:
    assert check_of(CHECK, "/work/crates/rec_a") == ("rec_a", "proof")
    assert check_of([*CHECK, "--test", "--jobs", "1"], "/work/crates/rec_a") == ("rec_a", "tests")


def test_the_quick_pass_asks_for_no_function() -> None:
    assert check_of(
        [*CHECK, "--jobs", "1", "--only", "", "--lib", "rec_b"], "/work/crates/rec_a"
    ) == ("rec_a", gate_cost.QUICK_PASS)
    assert check_of([*CHECK, "--only", "f", ""], "/work/crates/rec_a") == ("rec_a", "proof")


def test_what_edits_begin_with() -> None:
    seed = [*CHECK, "--incremental", "/tmp/rt-edits-12-abc/seed"]
    assert check_of(seed, "/tmp/rt-edit-12-xyz") == ("rec_a", "seed")


def test_edits_over_a_seed_and_from_nothing() -> None:
    assert check_of([*CHECK, "--incremental", "/tmp/rt-edits-12-abc/0"], "/tmp/rt-edit-12-xyz") == (
        "rec_a",
        "edits",
    )
    assert check_of(CHECK, "/tmp/rt-edit-12-xyz (deleted)") == ("rec_a", "edits")


def test_other_processes() -> None:
    assert check_of([], "") is None
    assert check_of(["/kit/bin/rattle", "check", "--help", ""], "/work") is None
    assert check_of(["/usr/bin/python3", "-c", "", *CHECK], "/work") is None
    assert check_of(["/kit/bin/rattle", "--crate-name"], "/work") is None


def test_gates() -> None:
    assert gate_cost.is_gate(["python3", "/kit/bin/rt", "ci", "--anew", ""])
    assert not gate_cost.is_gate(["python3", "/kit/bin/rt", "check", ""])


def test_so_many_crates_at_a_time_or_one_by_one() -> None:
    assert gate_cost.run_words(0, "b") == ["sh", "-c", "rt run -- record b"]
    assert gate_cost.run_words(2, "a b") == [
        "sh",
        "-c",
        "rt all check --jobs 2 && rt run -- record 'a b'",
    ]


def test_lines() -> None:
    made: Costs = defaultdict(Cost)
    made |= {
        ("rec_b", "proof"): Cost(150, int(2e9), 300, 420, 1),
        ("rezovamy", gate_cost.QUICK_PASS): Cost(60, int(3e9), 0, 30, 1),
    }
    assert list(gate_cost.first_lines(Measure(made, 7.2, 4, 0, 60 * 4.6))) == [
        "the quick pass: 1.0 processor minutes, 0.5 of wall clock, 3.0 GB",
        "`rec_b`: 2.5 processor minutes, 2.0 of wall clock, 2.0 GB",
        "5 processor minutes, 7 of wall clock on 4 processors",
    ]


def test_a_check_has_all_that_it_started() -> None:
    sampler = Sampler()
    found = {
        1: Process(0, 9, 9, 0),
        2: Process(1, 5, 100, 7),
        3: Process(2, 1, 30, 8),
        4: Process(3, 1, 1, 8),
    }
    sampler.look(found, {2: ("rec_a", "proof"), 3: ("rec_a", "proof")}, 10)
    assert sampler.costs() == {("rec_a", "proof"): Cost(7, 131, 7, 10, 100)}


def test_the_last_of_time_and_the_most_of_memory() -> None:
    sampler = Sampler()
    for now, (seconds, memory) in enumerate([(1, 50), (2, 80), (4, 20)], 8):
        sampler.look({2: Process(1, seconds, memory, 7)}, {2: ("rec_a", "proof")}, now)
    assert sampler.costs()["rec_a", "proof"] == Cost(4, 80, 7, 10, 80)
    assert sampler.costs()["rec_a", "proof"].clock == 3


def test_checks_of_one_kind_add_up() -> None:
    sampler = Sampler()
    for started in (7, 8):
        # The second has the number of the first.
        sampler.look(
            {2: Process(1, 3, 10 * started, started)}, {2: ("rec_a", "edits")}, started + 1
        )
    assert sampler.costs()["rec_a", "edits"] == Cost(6, 80, 7, 9, 80)


def test_this_process_is_seen() -> None:
    found = gate_cost.processes()
    assert os.getpid() in found
    assert os.getpid() in gate_cost.below(found, os.getppid())


def test_crates() -> None:
    text = "# What they use.\nrec_a: serde\n\nrezovamy: rec_a\n"
    assert gate_cost.crates(text) == {"rec_a": ["serde"], "rezovamy": ["rec_a"]}


def test_the_longest_chain_ends_with_the_longer_of_both_checks() -> None:
    times = {
        ("rec_a", "proof"): 2,
        ("rec_b", "proof"): 1,
        ("rec_c", "proof"): 3,
        ("rezovamy", "proof"): 4,
    }
    times |= {("rec_b_tests", "proof"): 1, ("rec_b_tests", "tests"): 9}
    chain = gate_cost.longest_chain(USES, lambda crate, kind: times.get((crate, kind), 0))
    assert chain == (14, ("rec_a", "rec_c", "rec_b_tests"))


def test_what_a_program_stands_on() -> None:
    assert gate_cost.stands_on(USES, "rezovamy") == {"rec_a", "rec_b", "rezovamy"}


def test_a_table() -> None:
    made = costs(
        rec_a__proof=2,
        rec_a__seed=1,
        rec_a__edits=3,
        rec_b__proof=1,
        rec_c__proof=4,
        rezovamy__proof=1,
        rec_b_tests__proof=1,
        rec_b_tests__tests=2,
    )
    assert gate_cost.table(Measure(made, 20, 2, 0, 60 * 15.5), USES) == TABLE


def test_gates_that_were_watched() -> None:
    said = gate_cost.table(Measure(costs(rec_a__proof=2), 20, 4), {"rec_a": []})
    assert "\n2 processor minutes, 20 minutes of wall clock on 4 processors.\n" in said
    assert "no check" not in said
