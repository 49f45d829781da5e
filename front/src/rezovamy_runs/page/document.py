"""The page of a run as one HTML file that asks for nothing outside of itself."""

from __future__ import annotations

import base64
import dataclasses
import hashlib
import html
import json
import pathlib
import re
from collections.abc import Sequence

from rezovamy_runs import formatting, terminal
from rezovamy_runs.bundles import bundle
from rezovamy_runs.page.about import group_notes, reruns_facts, source_pattern
from rezovamy_runs.page.bands import band_name, banded
from rezovamy_runs.page.data import MOST_OUTPUT, Outputs, PageData, page_data
from rezovamy_runs.page.past import Past
from rezovamy_runs.quarantine import NOTHING, Quarantine
from rezovamy_runs.store import as_one, groups
from rezovamy_runs.store import notes as run_notes

PARTS = pathlib.Path(__file__).resolve().parent / "assets"
# How much of a profile's name stands in the title of a window, which shows no more anyway.
LONGEST_PROFILE = 50
# In the order in which they need one another.
SCRIPTS = (
    "text",
    "states",
    "sources",
    "copying",
    "links",
    "theme",
    "data",
    "head",
    "list",
    "timeline",
    "drawing",
    "selection",
    "slots",
    "pointing",
    "address",
    "past",
    "details",
    "overview",
    "main",
)
PLACE_IN_TEMPLATE = re.compile(r"\{\{(\w+)\}\}")


def embedded_json(value: object) -> str:
    """Return JSON that may stand in a script of a page.

    It is ASCII, without a character by which a tag or a comment begins.
    """
    text = json.dumps(value, ensure_ascii=True, separators=(",", ":"))
    return text.replace("<", "\\u003c").replace(">", "\\u003e").replace("&", "\\u0026")


@dataclasses.dataclass(frozen=True)
class Assets:
    """The files of which a page is made; scripts are in the order in which they need each other."""

    frame: pathlib.Path
    styles: tuple[pathlib.Path, ...]
    scripts: tuple[pathlib.Path, ...]


def path_of(name: str) -> pathlib.Path:
    """Return the path of a file of which pages are made."""
    return PARTS / name


def part(name: str) -> str:
    """Return the text of a file of which pages are made."""
    return path_of(name).read_text(encoding="utf-8")


ASSETS = Assets(
    path_of("page.html"),
    (path_of("style.css"),),
    tuple(path_of(f"{name}.js") for name in SCRIPTS),
)


def policy_hash(text: str) -> str:
    """Return what a policy of contents calls a text."""
    return f"'sha256-{base64.b64encode(hashlib.sha256(text.encode()).digest()).decode()}'"


def content_policy(script: str, style: str) -> str:
    """Return a policy that lets no script run but this one, and nothing be fetched."""
    directives = (
        "default-src 'none'",
        f"script-src {policy_hash(script)}",
        f"style-src {policy_hash(style)}",
        "img-src data:",
        "base-uri 'none'",
        "form-action 'none'",
    )
    return "; ".join(directives)


def page_title(value: PageData) -> str:
    """Return the name of the page's window.

    It says how many tests failed, never ended or never started, if any, or passed.
    """
    states = [test["state"] for test in value["tests"]]
    runs_of_scripts = [
        attempt
        for test in value["tests"]
        if test["state"] == "script"
        for attempt in test.get("attempts", [])
    ]
    unfinished = sum(attempt["result"] == "unfinished" for attempt in runs_of_scripts)
    counts = {
        "failed": states.count("failed"),
        "setup failed": sum("bad" in attempt for attempt in runs_of_scripts),
        "unfinished": states.count("unfinished") + unfinished,
        "never started": states.count("not-started") + value["unnamed"],
    }
    passed = states.count("passed") + states.count("flaky")
    told = next((f"{count} {word}" for word, count in counts.items() if count), f"{passed} passed")
    profile = formatting.name(value["run"]["profile"])
    return f"{told} · {terminal.cut(profile, LONGEST_PROFILE)} · {value['run']['when']}"


def joined_scripts(assets: Assets) -> str:
    """Return the script of a page, whose parts share their names and hide them from others."""
    parts = "\n".join(path.read_text(encoding="utf-8") for path in assets.scripts)
    return f'(() => {{\n"use strict";\n{parts}}})();\n'


def html_of(assets: Assets, title: str, value: object) -> str:
    """Return the page that these files make of a value, with a title for its window."""
    style = "".join(path.read_text(encoding="utf-8") for path in assets.styles)
    script = joined_scripts(assets)
    parts = {
        "title": html.escape(title),
        "policy": html.escape(content_policy(script, style), quote=False),
        "style": style,
        "script": script,
        "data": embedded_json(value),
    }
    frame = assets.frame.read_text(encoding="utf-8")
    return PLACE_IN_TEMPLATE.sub(lambda match: parts[match[1]], frame)


def page_html(value: PageData) -> str:
    """Return the page of a value that `page_data` made."""
    return html_of(ASSETS, page_title(value), value)


def page_of(
    path: pathlib.Path,
    most_output: int = MOST_OUTPUT,
    source: str | None = None,
    past: Past | None = None,
    excused: Quarantine = NOTHING,
) -> str:
    """Return the page of the bundle at a path, with what its notes say.

    `source` is the pattern of links to the sources of its tests, `past` how these ended before, and
    `excused` says which are in quarantine.
    """
    notes = run_notes.read(run_notes.path_beside(path))
    pattern = source_pattern(source, notes)
    run = bundle.read_run(path)
    return page_html(page_data(run, Outputs(most_output), notes, pattern, past, excused))


def page_of_several(
    name: str | None,
    paths: Sequence[pathlib.Path],
    most_output: int = MOST_OUTPUT,
    source: str | None = None,
    past: Past | None = None,
    excused: Quarantine = NOTHING,
) -> str:
    """Return the page of runs that count as one, each in a band of the timeline.

    They are the runs of the group with this name, or a run and what ran again of it.
    """
    read = {run.id: run for run in map(bundle.read_run, paths)}
    notes = [run_notes.read(run_notes.path_beside(run.bundle)) for run in read.values()]
    parts = groups.parts_of([*read.values()], notes)
    notes_by_run = dict(zip(read, notes))
    runs = [read[run_id] for run_id in as_one.ordered(parts)]
    notes = [notes_by_run[run.id] for run in runs]
    moved, bands = banded(runs, list(map(band_name, runs, notes)))
    known = notes[0] if name is None else group_notes([one for one in notes if one])
    pattern = source_pattern(source, known)
    whole = groups.one_run(name or runs[0].id, moved, parts)
    value = page_data(whole, Outputs(most_output), known, pattern, past, excused)
    value["bands"] = bands
    value["facts"] += reruns_facts(runs[1:])
    doubts = groups.doubts(name, runs, notes) if name is not None else []
    value["notes"] = [*(f"{line[0].upper()}{line[1:]}." for line in doubts), *value["notes"]]
    return page_html(value)


def bytes_of(text: str) -> bytes:
    """Return a page as UTF-8, which halves of pairs are spelled in."""
    return text.encode("utf-8", "backslashreplace")
