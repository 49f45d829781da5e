"""The folder of recorded runs: which are in it, and how a run comes in whole or not at all."""

from __future__ import annotations

import contextlib
import dataclasses
import errno
import functools
import os
import pathlib
import shlex
import time
from collections.abc import Callable, Iterable, Iterator

from rezovamy_runs import formatting
from rezovamy_runs.bundles import bundle_file
from rezovamy_runs.command_line import say
from rezovamy_runs.faults.fault import Fault
from rezovamy_runs.model import Summary
from rezovamy_runs.store import as_one, live_folder, location, notes, summaries, whole_file
from rezovamy_runs.store.as_one import Origin, OriginOf
from rezovamy_runs.store.live_folder import RUN_ID, LiveFolder, settle_all
from rezovamy_runs.store.notes import Part, RunNotes, Shard, WrongNotes

ASIDE, PAGE = ".aside", ".html"
JUNIT = "rezovamy-junit"
# The words for the last whole run, and for the last one of all.
LAST, LAST_ANY = "last", "last-any"
# A file in the folder once the runs in the target directory were named.
TOLD = ".runs-in-target-told"
# A file that was written aside and has no writer any more; no recording takes that long.
ABANDONED_AFTER = 24 * 3600
SHORTEST_PREFIX = 4


@dataclasses.dataclass(frozen=True)
class Chosen:
    """The bundles of the runs that a word names as one; those of a group with its name.

    The first of others is the run, and what ran again of it follows.
    """

    paths: tuple[pathlib.Path, ...]
    group: str | None = None


class Store:
    """The runs of a folder, a file `RUNID.bundle.gz` or `RUNID.bundle` each."""

    def __init__(self, folder: str | pathlib.Path) -> None:
        self._folder = pathlib.Path(folder)

    @property
    def folder(self) -> pathlib.Path:
        """Return the folder."""
        return self._folder

    def path_of(self, run_id: str) -> pathlib.Path:
        """Return the path of a run's bundle."""
        return bundle_file.in_folder(self.folder, run_id)

    def is_somewhere(self) -> bool:
        """Tell whether it is known where the folder is."""
        return True

    def workspace_root(self) -> pathlib.Path | None:
        """Return the folder of the workspace whose runs these are, None if it isn't known."""
        return None

    def source(self) -> str | None:
        """Return the pattern of links to the sources of the tests; it isn't known here."""
        return None

    def junit_folder(self) -> pathlib.Path:
        """Return the folder for JUnit XML if none is named: beside that of the runs."""
        # In `.` and `..` no word names the folder, so that nothing stands before it.
        folder = self.folder.resolve() if self.folder.name in ("", "..") else self.folder
        return folder.parent / JUNIT

    def prepare_junit(self) -> None:
        """Make what the folder for JUnit XML is in, if that needs more than to be made."""

    def ids(self) -> list[str]:
        """Return the ids of the runs, in the order of their letters."""
        return sorted({one for ending in bundle_file.ENDINGS for one in self.names(ending)})

    def names(self, ending: str) -> list[str]:
        """Return the ids in the folder that have this ending, in the order of their letters."""
        if not self.folder.is_dir():
            return []
        names = (
            name.removesuffix(ending) for name in os.listdir(self.folder) if name.endswith(ending)
        )
        return sorted(name for name in names if RUN_ID.fullmatch(name))

    def all_ids(self) -> list[str]:
        """Return the ids of all runs, also of those that go on, in the order of their letters."""
        return sorted({*self.ids(), *(folder.run_id for folder in self.going_on)})

    @functools.cached_property
    def going_on(self) -> list[LiveFolder]:
        """Return the folders of the runs that go on."""
        return []

    def read(self) -> dict[str, summaries.Read]:
        """Return what is known of each run, or why its bundle can't be read."""
        return summaries.of_all({run_id: self.path_of(run_id) for run_id in self.ids()}, say)

    def summaries(self, tell: Callable[[str], object] | None = None) -> list[Summary]:
        """Return the runs, the latest first. An unreadable file is a fault, or a line to tell."""
        read = self.read().values()
        for fault in read:
            if isinstance(fault, Fault):
                if tell is None:
                    raise fault
                tell(str(fault))
        return latest_first(one for one in read if isinstance(one, Summary))

    def find(self, word: str) -> pathlib.Path:
        """Return the bundle of the run that a word names.

        The word is `last`, `last-any`, the beginning of the run's id, or the path of a bundle.
        """
        if word == LAST:
            return self.last()
        if word == LAST_ANY:
            return self.readable()[0].bundle
        if is_bundle(word):
            return pathlib.Path(word)
        if bundle_file.is_named_so(word):
            raise Fault(
                f"no bundle is at {word}: name the path of one, or the beginning of a run's id"
            )
        found = self.matching(word)
        if len(found) == 1:
            return self.path_of(self.ended(found[0]))
        if found:
            runs = f"{len(found)} runs, as of {found[0]} and {found[1]}"
            raise Fault(f"{word} is the beginning of {runs}: give more of it")
        raise Fault(
            f"no run begins with {word}, and no bundle is there: "
            f"`rezovamy-runs list` has the runs of {self.folder}"
        )

    def names_run(self, word: str) -> bool:
        """Tell whether `find` takes a word for the name of a run, be it one or more."""
        if self.is_somewhere() and self.of_group(word):
            return True
        is_path = is_bundle(word) or bundle_file.is_named_so(word)
        return word in (LAST, LAST_ANY) or is_path or bool(self.matching(word))

    def of_group(self, name: str) -> list[pathlib.Path]:
        """Return the bundles of the runs of a group, none if no run is in it."""
        paths = map(self.path_of, self.ids())
        known = ((path, self.notes(path)) for path in paths)
        return [path for path, notes in known if notes and name and notes.group == name]

    def find_all(self, word: str) -> Chosen:
        """Return the runs of the group that a word names, or else the run with its reruns.

        `last` is a group if that has all its shards, and started after the last whole run.
        """
        if not self.is_somewhere() or is_bundle(word):
            return Chosen(tuple(self.with_reruns(self.find(word))))
        group = self._last_group() if word == LAST else word
        found = self.of_group(group) if group else []
        if group and found:
            return Chosen(tuple(found), group)
        return Chosen(tuple(self.with_reruns(self.find(word))))

    def _last_group(self) -> str | None:
        """Return the last group with all its shards, None if a whole run came after it."""
        shards: dict[str, set[Shard]] = {}
        for run in self.readable():
            known = self.notes(run.bundle)
            if known and known.group and known.shard and known.part is Part.WHOLE:
                there = shards.setdefault(known.group, set())
                there.add(known.shard)
                if len(there) == known.shard.total:
                    return known.group
            elif self.is_whole(run):
                return None
        return None

    def matching(self, word: str) -> list[str]:
        """Return the ids that begin with a word, which may be in upper case."""
        return [run_id for run_id in self.all_ids() if word and run_id.startswith(word.lower())]

    def ended(self, run_id: str) -> str:
        """Return the id of a run, which must have ended."""
        if self.path_of(run_id).exists():
            return run_id
        how_far = "`rezovamy-runs list` shows how far it is"
        raise Fault(f"run {run_id} goes on: look again once it has ended; {how_far}")

    def readable(self) -> list[Summary]:
        """Return the readable runs, the latest first; it is a fault if none is there."""
        read = self.read().values()
        found = latest_first(one for one in read if isinstance(one, Summary))
        if found:
            return found
        nothing = f"no run is in {self.folder}: record one with `rezovamy-runs test`"
        raise next((one for one in read if isinstance(one, Fault)), Fault(nothing))

    def last(self) -> pathlib.Path:
        """Return the bundle of the last whole run, or of the last one if none is whole."""
        runs = self.readable()
        found = next((run for run in runs if self.is_whole(run)), runs[0])
        if found is not runs[0]:
            named = self.shortest(stem_of(found))
            say(
                f"rezovamy-runs: {named} is the last whole run; `{LAST_ANY}` is a later part of one"
            )
        return found.bundle

    def is_whole(self, run: Summary) -> bool:
        """Tell whether a run has all tests: it is no part, and no shard."""
        known = self.notes(run.bundle)
        if known:
            return known.part is Part.WHOLE and known.shard is None
        return run.parent is None

    def last_in_row(self) -> pathlib.Path:
        """Return the bundle of the last whole run, or of the last rerun of it or of its reruns."""
        found = self.last()
        row = [bundle_file.stem_of(found.name)]
        for run in reversed(self.readable()):
            if run.parent in row:
                row.append(stem_of(run))
                found = run.bundle
        return found

    def with_reruns(self, path: pathlib.Path) -> list[pathlib.Path]:
        """Return the bundle of a run, and of all that ran again what hadn't passed, by starts.

        What ran other sources isn't among them.
        """
        name = bundle_file.stem_of(path.name)
        if not self.is_somewhere() or self.path_of(name) != path:
            return [path]
        origin_of, row = self._origins(), {name: path}
        for run in reversed(self.readable()):
            if run.parent in row and as_one.parent_of(stem_of(run), origin_of) in row:
                row.setdefault(stem_of(run), run.bundle)
        return list(row.values())

    def first_in_row(self, path: pathlib.Path) -> pathlib.Path:
        """Return the bundle of the run with which a row of reruns of the same sources began."""
        name = bundle_file.stem_of(path.name)
        head = as_one.head_of(name, self._origins())
        return path if head == name else self.path_of(head)

    def _origins(self) -> OriginOf:
        """Return what tells where a readable run comes from, by the name of its bundle."""
        known = {stem_of(run): run for run in self.readable()}

        @functools.cache
        def origin_of(name: str) -> Origin | None:
            """Look into the notes of a run."""
            run = known.get(name)
            return as_one.origin_of(run, self.notes(run.bundle)) if run else None

        return origin_of

    def prefixes(self) -> dict[str, str]:
        """Return for each id its shortest beginning of four letters or more that no other has."""
        ids, found = self.all_ids(), {}
        for place, run_id in enumerate(ids):
            neighbours = ids[max(0, place - 1) : place] + ids[place + 1 : place + 2]
            shared = [len(os.path.commonprefix([run_id, other])) for other in neighbours]
            found[run_id] = run_id[: max(SHORTEST_PREFIX, max(shared, default=0) + 1)]
        return found

    def shortest(self, run_id: str) -> str:
        """Return the shortest beginning of an id that no other run has.

        The id of a run from elsewhere is whole.
        """
        return self.prefixes().get(run_id, run_id) if self.is_somewhere() else run_id

    @contextlib.contextmanager
    def writable(self) -> Iterator[None]:
        """Say of what fails meanwhile that the folder can't be written."""
        try:
            yield
        except OSError as error:
            raise Fault(
                f"nothing can be written into {self.folder}: {error.strerror}; "
                f"name another folder in {location.VARIABLE}"
            ) from error

    def prepare(self) -> None:
        """Make the folder, so that a fault is known before anything runs that comes into it."""
        if not formatting.is_text(str(self.folder)):
            raise Fault(
                f"{self.folder} is no UTF-8, and the program takes no other path: "
                f"name another folder in {location.VARIABLE}"
            )
        with self.writable():
            self.folder.mkdir(parents=True, exist_ok=True)
            if not os.access(self.folder, os.W_OK | os.X_OK):
                raise PermissionError(errno.EACCES, os.strerror(errno.EACCES))

    @contextlib.contextmanager
    def adding(self, run_id: str) -> Iterator[pathlib.Path]:
        """Lend a path beside the runs to write a bundle to.

        It becomes the run's once all went well, and goes otherwise.
        """
        self.prepare()
        with self.writable():
            aside = self._made_aside(run_id)
        try:
            yield aside
            self._keep(run_id, aside)
        finally:
            aside.unlink(missing_ok=True)

    def _made_aside(self, run_id: str) -> pathlib.Path:
        """Make an empty file beside the runs."""
        return whole_file.made_aside(self.folder / run_id, run_id, ASIDE)

    def _keep(self, run_id: str, aside: pathlib.Path) -> None:
        """Let a bundle become a run's, compressed. As it is, if there is no room for both."""
        plain, compressed = (self.folder / f"{run_id}{ending}" for ending in bundle_file.ENDINGS)
        try:
            packed = self._made_aside(run_id)
            with whole_file.becoming(compressed, packed):
                bundle_file.compress(aside, packed)
            plain.unlink(missing_ok=True)
        except OSError:
            with whole_file.becoming(plain, aside):
                pass
            compressed.unlink(missing_ok=True)

    def note(self, run_id: str, known: RunNotes) -> None:
        """Write what is known of a run, before it has a bundle: whoever finds that finds both.

        If the notes can't be written, that is said, and the run goes on.
        """
        try:
            self.prepare()
            with self.writable():
                notes.write(known, self.folder / f"{run_id}{notes.ENDING}")
        except Fault as fault:
            say(f"rezovamy-runs: the notes of the run aren't kept: {fault}")

    @contextlib.contextmanager
    def recording(self, run_id: str) -> Iterator[None]:
        """Remove the notes of a run that is recorded meanwhile if nothing is kept of it."""
        try:
            yield
        except BaseException:
            live = self.folder / f"{run_id}{live_folder.ENDING}"
            if not self.path_of(run_id).exists() and not live.exists():
                with contextlib.suppress(OSError):
                    (self.folder / f"{run_id}{notes.ENDING}").unlink(missing_ok=True)
            raise

    def notes(self, path: pathlib.Path) -> RunNotes | None:
        """Return what is known of the run of a bundle, None if it has no notes.

        Notes that can't be read are said, and count as none.
        """
        try:
            return notes.read(notes.path_beside(path))
        except WrongNotes as fault:
            say(f"rezovamy-runs: {fault}")
            return None

    def remove(self, run_id: str) -> None:
        """Remove a run, its notes and its page; another one may have removed it before."""
        for ending in (*bundle_file.ENDINGS, notes.ENDING, PAGE):
            (self.folder / f"{run_id}{ending}").unlink(missing_ok=True)

    def abandoned(self) -> Iterator[pathlib.Path]:
        """Find the files that a recording left that was killed: bundles, and notes of no run."""
        now = time.time()
        kept = {*self.all_ids(), *self.names(live_folder.ENDING)}
        lone = [name for name in self.names(notes.ENDING) if name not in kept]
        paths = [self.folder / f"{run_id}{notes.ENDING}" for run_id in lone]
        for path in (*self.folder.glob(f".*{ASIDE}"), *paths):
            with contextlib.suppress(FileNotFoundError):
                if now - path.stat().st_mtime > ABANDONED_AFTER:
                    yield path

    def prune(self, old: Iterable[Summary]) -> None:
        """Remove runs, and what recordings left that were killed long ago."""
        for run in old:
            # By its file: in a copy under another name stands the id of a run that may have to
            # stay.
            self.remove(stem_of(run))
        for path in self.abandoned():
            path.unlink(missing_ok=True)


def stem_of(run: Summary) -> str:
    """Return the name of a run's bundle without its ending, which is an id."""
    return bundle_file.stem_of(run.bundle.name)


def latest_first(runs: Iterable[Summary]) -> list[Summary]:
    """Return runs by their starts, the latest first."""
    return sorted(runs, key=lambda run: (run.started, run.id), reverse=True)


def is_bundle(word: str) -> bool:
    """Tell whether a word is the path of a file that may be a bundle."""
    return (os.sep in word or bundle_file.is_named_so(word)) and os.path.isfile(word)


class Here(Store):
    """A store whose folder is looked for when it is needed.

    So the path of a bundle is taken where there is no workspace.
    """

    def __init__(self, manifest: str | None = None) -> None:
        self.manifest = manifest

    @functools.cached_property
    def workspace(self) -> location.Workspace | None:
        """Return the workspace, None if there is none."""
        return location.workspace(self.manifest)

    def workspace_root(self) -> pathlib.Path | None:
        """Return the folder of the workspace, None if there is none."""
        return self.workspace.root if self.workspace else None

    def source(self) -> str | None:
        """Return the pattern of links to sources that the workspace's manifest has, if any."""
        return self.workspace.source if self.workspace else None

    @functools.cached_property
    def folder(self) -> pathlib.Path:
        """Return the folder, which may be looked for in vain."""
        return location.named_folder() or location.runs_folder(self.workspace)

    @functools.cached_property
    def going_on(self) -> list[LiveFolder]:
        """Pack the runs that were stopped, and return the folders of those that go on."""
        return settle_all(self, lambda line: say(f"rezovamy-runs: {line}"))

    def is_somewhere(self) -> bool:
        """Tell whether it is known where the folder is."""
        try:
            return self.folder is not None
        except Fault:
            return False

    def ids(self) -> list[str]:
        """Return the ids of the runs, once those that were stopped are packed.

        At the first time, name those in the target directory.
        """
        assert self.going_on is not None
        if location.named_folder() is None and self.workspace:
            self._tell_of_older(self.workspace.target / location.OLDER)
        return super().ids()

    def _tell_of_older(self, older: pathlib.Path) -> None:
        """Say once that runs are where they were kept before, and how they are taken over."""
        told, count = self.folder / TOLD, len(Store(older).ids())
        if not count or told.exists():
            return
        verb, them = ("is", "it") if count == 1 else ("are", "them")
        found = f"{formatting.count(count, 'run')} of an earlier version {verb}"
        take = f"`rezovamy-runs import {shlex.quote(str(older))}` takes {them} over"
        say(f"rezovamy-runs: {found} in the target directory: {take}")
        with contextlib.suppress(OSError):
            self.folder.mkdir(parents=True, exist_ok=True)
            told.touch()

    def junit_folder(self) -> pathlib.Path:
        """Return the folder for JUnit XML: in the target directory, or beside a named folder."""
        if location.named_folder() is not None or self.workspace is None:
            return super().junit_folder()
        return self.workspace.target / JUNIT

    def prepare_junit(self) -> None:
        """Make what the folder for JUnit XML is in, if that is the target directory."""
        if location.named_folder() is None and self.workspace is not None:
            location.make_target(self.workspace.target)


def here(manifest: str | None = None) -> Store:
    """Return the store of the workspace in which the front end was started, or of a manifest's."""
    return Here(manifest)
