"""What a run is known by: its notes, and where they come from."""

from __future__ import annotations

import json
import pathlib
import subprocess

import pytest

from rezovamy_runs.json_values import WrongMember
from rezovamy_runs.runner import run_facts
from rezovamy_runs.store import ci_variables, git_state, notes
from rezovamy_runs.store.ci_variables import CiRun
from rezovamy_runs.store.git_state import GitState
from rezovamy_runs.store.notes import CiJob, Part, RunNotes, Shard, WrongNotes

FULL = RunNotes(
    command=("cargo", "test", "--workspace"),
    project="team/shop",
    commit="0123456789abcdef0123456789abcdef01234567",
    branch="main",
    dirty=False,
    host="runner-7",
    rustc="rustc 1.90.0",
    cargo="cargo 1.90.0",
    job=CiJob("github", "tests", "https://ci.example/1"),
    group="github-77-tests",
    shard=Shard(2, 4),
    parent="550e8400-e29b-41d4-a716-446655440000",
    build_seconds=12.5,
    part=Part.AGAIN,
    free={"database": "postgres"},
)
FULL_JSON = {
    "version": 1,
    "command": ["cargo", "test", "--workspace"],
    "project": "team/shop",
    "commit": "0123456789abcdef0123456789abcdef01234567",
    "branch": "main",
    "dirty": False,
    "host": "runner-7",
    "rustc": "rustc 1.90.0",
    "cargo": "cargo 1.90.0",
    "job": {"service": "github", "name": "tests", "link": "https://ci.example/1"},
    "group": "github-77-tests",
    "shard": "2/4",
    "parent": "550e8400-e29b-41d4-a716-446655440000",
    "build-seconds": 12.5,
    "part": "again",
    "notes": {"database": "postgres"},
}
LEAST_JSON = {"version": 1, "command": [], "part": "whole", "notes": {}}


@pytest.mark.parametrize(
    ("value", "form"), [(FULL, FULL_JSON), (RunNotes(), LEAST_JSON)], ids=["full", "least"]
)
def test_notes_are_written_and_read(value: RunNotes, form: dict[str, object]) -> None:
    assert notes.json_of(value) == form
    assert notes.notes_of(json.dumps(form).encode()) == value


def test_members_that_are_not_known_are_left_alone() -> None:
    data = json.dumps({**LEAST_JSON, "colour": 3, "branch": None}).encode()
    assert notes.notes_of(data) == RunNotes()


@pytest.mark.parametrize(
    ("data", "said"),
    [
        (b"", "no JSON object"),
        (b"[]", "no object"),
        (b"\xff", "no JSON object"),
        (b"[" * 100_000, "no JSON object"),
        (b'{"part": "whole"}', "no member 'version'"),
        (b'{"version": 2, "part": "whole"}', "of version 2, and 1 is read here"),
        (b'{"version": 1}', "no member 'part'"),
        (b'{"version": 1, "part": "half"}', "'part' is 'half'"),
        (b'{"version": 1, "part": "whole", "shard": "5/4"}', "no shard"),
        (b'{"version": 1, "part": "whole", "commit": 5}', "'commit' is no text"),
        (b'{"version": 1, "part": "whole", "dirty": 0}', "'dirty' is no truth value"),
        (b'{"version": 1, "part": "whole", "job": {}}', "no member 'service'"),
        (b'{"version": 1, "part": "whole", "build-seconds": -1}', "no number of seconds"),
        (b'{"version": 1, "part": "whole", "build-seconds": NaN}', "no number of seconds"),
        (b'{"version": 1, "part": "whole", "build-seconds": true}', "no number of seconds"),
        (b'{"version": 1, "part": "whole", "notes": {"a": 1}}', "the note 'a' is no text"),
        (b'{"version": 1, "part": "whole", "command": "cargo"}', "'command' is no list"),
    ],
)
def test_what_is_no_notes_has_an_error_that_says_why(data: bytes, said: str) -> None:
    with pytest.raises(WrongMember, match=said):
        notes.notes_of(data)


def test_a_file_of_notes_is_read_back(tmp_path: pathlib.Path) -> None:
    path = tmp_path / "one.json"
    assert notes.read(path) is None
    notes.write(FULL, path)
    assert notes.read(path) == FULL
    assert [file.name for file in tmp_path.iterdir()] == ["one.json"]


def test_bytes_that_are_no_text_are_kept(tmp_path: pathlib.Path) -> None:
    odd = RunNotes(free={"word": "a\udcffb"})
    notes.write(odd, tmp_path / "one.json")
    assert notes.read(tmp_path / "one.json") == odd


@pytest.mark.parametrize("made", ["text", "folder"])
def test_a_file_that_is_no_notes_names_itself(tmp_path: pathlib.Path, made: str) -> None:
    path = tmp_path / "one.json"
    if made == "text":
        path.write_text("{")
    else:
        path.mkdir()
    with pytest.raises(WrongNotes, match=f"^{path} .*remove it"):
        notes.read(path)


@pytest.mark.parametrize("name", ["a.bundle", "a.bundle.gz"])
def test_notes_stand_beside_both_forms_of_a_bundle(name: str) -> None:
    assert notes.path_beside(pathlib.Path("runs") / name) == pathlib.Path("runs/a.json")


def test_a_given_note_sets_what_is_known_or_is_a_further_one() -> None:
    given = FULL.noted({"branch": "next", "database": "mysql", "colour": "red"})
    assert given.branch == "next"
    assert given.free == {"database": "mysql", "colour": "red"}
    assert given.commit == FULL.commit


@pytest.mark.parametrize("word", ["0/4", "5/4", "1/0", "1", "1/4/2", "a/b", "-1/4", "1/ 4", ""])
def test_what_is_no_shard_is_an_error(word: str) -> None:
    with pytest.raises(ValueError, match="K/N"):
        Shard.read(word)


# What a CI says.

GITHUB = {
    "GITHUB_ACTIONS": "true",
    "GITHUB_SERVER_URL": "https://github.com",
    "GITHUB_REPOSITORY": "team/shop",
    "GITHUB_RUN_ID": "77",
    "GITHUB_JOB": "tests",
    "GITHUB_SHA": "c0ffee",
    "GITHUB_REF_NAME": "main",
    "GITHUB_HEAD_REF": "",
}
GITLAB = {
    "GITLAB_CI": "true",
    "CI_JOB_NAME": "tests 2/4",
    "CI_JOB_GROUP_NAME": "tests",
    "CI_JOB_URL": "https://gitlab.com/team/shop/-/jobs/9",
    "CI_PIPELINE_ID": "88",
    "CI_NODE_INDEX": "2",
    "CI_NODE_TOTAL": "4",
    "CI_PROJECT_PATH": "team/shop",
    "CI_COMMIT_SHA": "c0ffee",
    "CI_COMMIT_REF_NAME": "main",
}
BUILDKITE = {
    "BUILDKITE": "true",
    "BUILDKITE_BUILD_ID": "b1",
    "BUILDKITE_STEP_ID": "s1",
    "BUILDKITE_STEP_KEY": "tests",
    "BUILDKITE_BUILD_URL": "https://buildkite.com/team/shop/builds/5",
    "BUILDKITE_JOB_ID": "j1",
    "BUILDKITE_PARALLEL_JOB": "0",
    "BUILDKITE_PARALLEL_JOB_COUNT": "3",
    "BUILDKITE_PIPELINE_SLUG": "shop",
    "BUILDKITE_COMMIT": "c0ffee",
    "BUILDKITE_BRANCH": "main",
}
CIRCLECI = {
    "CIRCLECI": "true",
    "CIRCLE_JOB": "tests",
    "CIRCLE_WORKFLOW_ID": "w1",
    "CIRCLE_BUILD_URL": "https://circleci.com/gh/team/shop/5",
    "CIRCLE_NODE_INDEX": "1",
    "CIRCLE_NODE_TOTAL": "2",
    "CIRCLE_PROJECT_REPONAME": "shop",
    "CIRCLE_SHA1": "c0ffee",
    "CIRCLE_BRANCH": "main",
}
JENKINS = {
    "JENKINS_URL": "https://ci.example/",
    "JOB_NAME": "shop/main",
    "BUILD_NUMBER": "12",
    "BUILD_URL": "https://ci.example/job/shop/12/",
    "GIT_COMMIT": "c0ffee",
    "GIT_BRANCH": "origin/main",
}
AZURE = {
    "TF_BUILD": "True",
    "SYSTEM_COLLECTIONURI": "https://dev.azure.com/team/",
    "SYSTEM_TEAMPROJECT": "shop",
    "BUILD_BUILDID": "31",
    "AGENT_JOBNAME": "tests",
    "SYSTEM_PHASENAME": "tests",
    "BUILD_REPOSITORY_NAME": "shop",
    "BUILD_SOURCEVERSION": "c0ffee",
    "BUILD_SOURCEBRANCH": "refs/heads/main",
}
EXPECTED = {
    "github": CiRun(
        job=CiJob("github", "tests", "https://github.com/team/shop/actions/runs/77"),
        group="github-77-tests",
        project="team/shop",
        commit="c0ffee",
        branch="main",
    ),
    "gitlab": CiRun(
        job=CiJob("gitlab", "tests 2/4", "https://gitlab.com/team/shop/-/jobs/9"),
        group="gitlab-88-tests",
        shard=Shard(2, 4),
        project="team/shop",
        commit="c0ffee",
        branch="main",
    ),
    "buildkite": CiRun(
        job=CiJob("buildkite", "tests", "https://buildkite.com/team/shop/builds/5#j1"),
        group="buildkite-b1-s1",
        shard=Shard(1, 3),
        project="shop",
        commit="c0ffee",
        branch="main",
    ),
    "circleci": CiRun(
        job=CiJob("circleci", "tests", "https://circleci.com/gh/team/shop/5"),
        group="circleci-w1-tests",
        shard=Shard(2, 2),
        project="shop",
        commit="c0ffee",
        branch="main",
    ),
    "jenkins": CiRun(
        job=CiJob("jenkins", "shop/main", "https://ci.example/job/shop/12/"),
        group="jenkins-shop/main-12",
        project="shop/main",
        commit="c0ffee",
        branch="main",
    ),
    "azure": CiRun(
        job=CiJob("azure", "tests", "https://dev.azure.com/team/shop/_build/results?buildId=31"),
        group="azure-31-tests",
        project="shop",
        commit="c0ffee",
        branch="main",
    ),
}
SERVICES = {
    "github": GITHUB,
    "gitlab": GITLAB,
    "buildkite": BUILDKITE,
    "circleci": CIRCLECI,
    "jenkins": JENKINS,
    "azure": AZURE,
}


@pytest.mark.parametrize("service", SERVICES)
def test_a_ci_says_what_job_it_is(service: str) -> None:
    assert ci_variables.ci_run(SERVICES[service]) == EXPECTED[service]


@pytest.mark.parametrize(
    ("service", "mark"),
    [
        ("github", "GITHUB_ACTIONS"),
        ("gitlab", "GITLAB_CI"),
        ("buildkite", "BUILDKITE"),
        ("circleci", "CIRCLECI"),
        ("jenkins", "JENKINS_URL"),
        ("azure", "TF_BUILD"),
    ],
)
def test_a_ci_that_says_nothing_more_is_still_known(service: str, mark: str) -> None:
    assert ci_variables.ci_run({mark: "true"}) == CiRun(job=CiJob(service), group=None)


@pytest.mark.parametrize("variables", [{}, {"CI": "true"}, {"GITHUB_ACTIONS": ""}])
def test_outside_of_a_ci_nothing_is_known(variables: dict[str, str]) -> None:
    assert ci_variables.ci_run(variables) is None


@pytest.mark.parametrize(
    ("variables", "branch"),
    [
        ({**GITHUB, "GITHUB_HEAD_REF": "topic"}, "topic"),
        ({**GITLAB, "CI_MERGE_REQUEST_SOURCE_BRANCH_NAME": "topic"}, "topic"),
        ({**JENKINS, "CHANGE_BRANCH": "topic"}, "topic"),
        ({**AZURE, "SYSTEM_PULLREQUEST_SOURCEBRANCH": "refs/heads/topic"}, "topic"),
    ],
)
def test_the_branch_of_a_change_is_that_of_its_author(
    variables: dict[str, str], branch: str
) -> None:
    found = ci_variables.ci_run(variables)
    assert found and found.branch == branch


@pytest.mark.parametrize(
    "variables",
    [
        # A matrix: each of its jobs runs all tests.
        {**GITLAB, "CI_JOB_NAME": "tests: [stable, 3]"},
        {**GITLAB, "CI_NODE_TOTAL": "1", "CI_NODE_INDEX": "1", "CI_JOB_NAME": "tests 1/1"},
        {**CIRCLECI, "CIRCLE_NODE_TOTAL": "1", "CIRCLE_NODE_INDEX": "0"},
        {**CIRCLECI, "CIRCLE_NODE_INDEX": "2"},
        {**CIRCLECI, "CIRCLE_NODE_TOTAL": "two"},
        {**BUILDKITE, "BUILDKITE_PARALLEL_JOB": ""},
    ],
)
def test_a_job_that_runs_all_tests_is_no_shard(variables: dict[str, str]) -> None:
    found = ci_variables.ci_run(variables)
    assert found and found.shard is None


# What git says.


@pytest.mark.parametrize(
    ("status", "state"),
    [
        ("", GitState()),
        ("# branch.oid c0ffee\n# branch.head main\n", GitState("c0ffee", "main", False)),
        (
            "# branch.oid c0ffee\n# branch.head (detached)\n1 .M N... 100644 100644 100644 a b c\n",
            GitState("c0ffee", None, True),
        ),
        ("# branch.oid (initial)\n# branch.head main\n", GitState(None, "main", False)),
        (
            "# branch.oid c0ffee\n# branch.head main\n# branch.upstream origin/main\n"
            "# branch.ab +1 -0\n",
            GitState("c0ffee", "main", False),
        ),
    ],
)
def test_git_says_commit_branch_and_changes(status: str, state: GitState) -> None:
    assert git_state.state_of(status) == state


def test_git_is_asked_about_a_tree(tmp_path: pathlib.Path) -> None:
    assert asked_of_git(tmp_path) == GitState()
    git(tmp_path, "init", "--initial-branch=main")
    assert asked_of_git(tmp_path) == GitState(None, "main", False)
    (tmp_path / "a").write_text("1")
    git(tmp_path, "add", "a")
    git(tmp_path, "commit", "--message", "one")
    commit = git(tmp_path, "rev-parse", "HEAD").strip()
    (tmp_path / "untracked").write_text("1")
    assert asked_of_git(tmp_path) == GitState(commit, "main", False)
    (tmp_path / "a").write_text("2")
    git(tmp_path, "checkout", "--detach")
    assert asked_of_git(tmp_path) == GitState(commit, None, True)


def test_nothing_is_known_without_git(
    tmp_path: pathlib.Path, monkeypatch: pytest.MonkeyPatch
) -> None:
    monkeypatch.setenv("PATH", str(tmp_path))
    assert asked_of_git(tmp_path) == GitState()


def asked_of_git(folder: pathlib.Path) -> GitState:
    """Return what git says of a folder."""
    return git_state.state_of(run_facts.answers(git_state.COMMAND, folder=folder)[0])


def git(folder: pathlib.Path, *words: str) -> str:
    """Run git, and return what it prints."""
    person = ["-c", "user.name=a", "-c", "user.email=a@example.org"]
    done = subprocess.run(
        ["git", *person, *words], cwd=folder, capture_output=True, check=True, text=True
    )
    return done.stdout
