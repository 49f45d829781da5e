"""What a page says of a run besides its tests: what it is known by, sources, commands."""

from __future__ import annotations

import pytest

from rezovamy_runs.faults.fault import Fault
from rezovamy_runs.page.about import command_of, facts_of, source_pattern
from rezovamy_runs.store.notes import CiJob, Part, RunNotes, Shard

COMMIT = "1272b7ea93c14cd1a9b60d5f21f1a7e3c8d5b604"
NOTES = RunNotes(
    command=("rezovamy-runs", "test", "a b"),
    project="sums",
    commit=COMMIT,
    branch="main",
    dirty=True,
    host="builder",
    rustc="1.92.0",
    job=CiJob("GitHub", "tests", "https://ci.example/1"),
    group="pr-7",
    shard=Shard(2, 4),
    build_seconds=65,
    part=Part.FILTERED,
    free={"mood": "good", "source": "https://code.example/{commit}/{file}#L{line}"},
)


def test_a_run_is_known_by_its_notes() -> None:
    assert facts_of(NOTES) == [
        {"name": "Project", "text": "sums", "brief": True},
        {"name": "Branch", "text": "main", "brief": True},
        {"name": "Commit", "text": "1272b7ea93c1, with changes", "brief": True},
        {"name": "CI job", "text": "GitHub tests", "link": "https://ci.example/1", "brief": True},
        {"name": "Group", "text": "pr-7, shard 2/4", "brief": True},
        {"name": "Host", "text": "builder", "brief": True},
        {"name": "Command", "text": "rezovamy-runs test 'a b'", "brief": True},
        {"name": "Part", "text": "some of the tests, as the words say"},
        {"name": "Build", "text": "1m 05s", "brief": True},
        {"name": "Rust", "text": "1.92.0", "brief": True},
        {"name": "mood", "text": "good"},
    ]


@pytest.mark.parametrize("notes", [None, RunNotes()])
def test_what_is_not_known_is_not_told(notes: RunNotes | None) -> None:
    assert facts_of(notes) == []


@pytest.mark.parametrize("link", ["javascript:alert(1)", "file:///etc/passwd", "https://a b", ""])
def test_only_an_address_of_the_web_is_a_link(link: str) -> None:
    job = {"name": "CI job", "text": "Own", "brief": True}
    assert facts_of(RunNotes(job=CiJob("Own", None, link))) == [job]


@pytest.mark.parametrize(
    ("binary", "command"),
    [
        ("sums", {"words": "rezovamy-runs test -- -p sums --lib", "own": ["(sums)", "sums"]}),
        (
            "sums::wrong",
            {
                "words": "rezovamy-runs test -- -p sums --test wrong",
                "own": ["(sums::wrong)", "sums::wrong", "wrong"],
            },
        ),
        (
            "sums::doc/sums",
            {"words": "rezovamy-runs test -- -p sums --doc", "whole": True},
        ),
        ("(cargo)", None),
        ("--config", None),
    ],
)
def test_a_binary_has_a_command(binary: str, command: object) -> None:
    assert command_of(binary) == command


@pytest.mark.parametrize(
    ("given", "notes", "pattern"),
    [
        (None, NOTES, f"https://code.example/{COMMIT}/{{file}}#L{{line}}"),
        ("https://a.example/{file}", NOTES, "https://a.example/{file}"),
        ("https://a.example/{commit}/{file}", None, "https://a.example/HEAD/{file}"),
        (None, None, None),
        (None, RunNotes(), None),
    ],
)
def test_sources_have_a_pattern(
    given: str | None, notes: RunNotes | None, pattern: str | None
) -> None:
    assert source_pattern(given, notes) == pattern


@pytest.mark.parametrize("given", ["javascript:{file}", "https://a.example/", "{file}"])
def test_a_wrong_pattern_says_what_to_write(given: str) -> None:
    with pytest.raises(Fault, match="the pattern of sources isn't one: .*; write an address with"):
        source_pattern(given, None)
