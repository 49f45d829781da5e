"""The pipelines of docs/CI.md, whose scripts run as they stand, on machines that are folders."""

from __future__ import annotations

import dataclasses
import os
import pathlib
import re
import shutil
import string
import subprocess
import sys
import xml.etree.ElementTree
from collections.abc import Iterator, Mapping

import pytest
import yaml  # type: ignore # It comes without types.

from rezovamy_runs.quarantine import FILE
from rezovamy_runs.store.ci_variables import SERVICES
from tests import EXAMPLES, FRONT, TOP, junit_schema, postgres

pytestmark = [pytest.mark.cargo, pytest.mark.program, pytest.mark.postgres]

WORKFLOW, PIPELINE, _ = [
    yaml.safe_load(text)
    for text in re.findall(r"^```yaml\n(.*?)^```$", (TOP / "docs/CI.md").read_text(), re.M | re.S)
]
EXPRESSION = re.compile(r"\$\{\{ *([\w.]+) *\}\}")
SHARDS = 4
# It lays the files of the package where `gh` and `curl` would.
GH = '#!/bin/sh\ncp "$FETCHED"/* .\n'
CURL = '#!/bin/sh\nfor word; do case "$before" in --output) to=$word;; esac; before=$word; done\n'
CURL += 'cp "$FETCHED/$(basename "$to")" "$to"\n'


@dataclasses.dataclass
class Service:
    """What all machines of a CI have, and what it keeps between jobs."""

    folder: pathlib.Path
    history: str

    @property
    def artifacts(self) -> pathlib.Path:
        """The folder of the artifacts."""
        return self.folder / "artifacts"

    @property
    def cache(self) -> pathlib.Path:
        """The folder of the cache for recorded runs."""
        return self.folder / "cache"

    def machine(self, name: str) -> pathlib.Path:
        """Make a machine with a checkout of the repository."""
        folder = self.folder / name
        shutil.copytree(EXAMPLES / "sums", folder)
        (folder / FILE).parent.mkdir()
        (folder / FILE).write_text("sums::wrong *  # they fail on purpose\n")
        return folder

    def environment(self, machine: pathlib.Path, own: Mapping[str, str]) -> dict[str, str]:
        """Return the environment of a script on a machine."""
        left = ("REZOVAMY", "REZOVAMY_RUNS", *SERVICES)
        kept = {name: value for name, value in os.environ.items() if name not in left}
        home = pathlib.Path.home()
        return {
            "CARGO_HOME": str(home / ".cargo"),
            "RUSTUP_HOME": str(home / ".rustup"),
            **kept,
            "HOME": str(machine / "home"),
            "PATH": f"{self.folder / 'bin'}:{os.environ['PATH']}",
            "FETCHED": str(self.folder / "package"),
            "CARGO_TARGET_DIR": str(self.folder / "target"),
            "CARGO_NET_OFFLINE": "true",
            **own,
        }


@pytest.fixture(scope="module")
def server() -> Iterator[postgres.Server]:
    """A server of PostgreSQL."""
    with postgres.server() as running:
        yield running


@pytest.fixture
def service(tmp_path: pathlib.Path, program: pathlib.Path, server: postgres.Server) -> Service:
    """A CI with the package of this clone, and a database."""
    (tmp_path / "package").mkdir()
    subprocess.run(
        [FRONT / "package.sh", tmp_path / "package"],
        env={**os.environ, "REZOVAMY": str(program)},
        stdout=subprocess.DEVNULL,
        check=True,
    )
    tools = tmp_path / "bin"
    tools.mkdir()
    (tools / "python3").symlink_to(sys.executable)
    for name, text in (("gh", GH), ("curl", CURL)):
        (tools / name).write_text(text)
        (tools / name).chmod(0o755)
    return Service(tmp_path, server.make("ci"))


def run(script: str, machine: pathlib.Path, environment: Mapping[str, str]) -> None:
    """Run a script as a CI does, which must end well."""
    done = subprocess.run(
        ["bash", "-eo", "pipefail", "-c", script],
        cwd=machine,
        env=environment,
        text=True,
        capture_output=True,
        check=False,
    )
    assert done.returncode == 0, f"{script}\n{done.stdout}{done.stderr}"


def put_in(value: object, known: Mapping[str, str]) -> str:
    """Return a value of a workflow with what GitHub puts in."""
    return EXPRESSION.sub(lambda found: known[found[1]], str(value))


def run_github_job(
    name: str, service: Service, machine: pathlib.Path, number: int, shard: int
) -> None:
    """Run a job of the workflow, with what its actions do."""
    job = WORKFLOW["jobs"][name]
    known = {
        "github.token": "secret",
        "github.workspace": str(machine),
        "github.run_id": str(number),
        "github.run_attempt": "1",
        "matrix.shard": str(shard),
        "secrets.TEST_HISTORY": service.history,
    }
    own = {
        key: put_in(one, known) for key, one in {**WORKFLOW["env"], **job.get("env", {})}.items()
    }
    known.update({f"env.{key}": one for key, one in own.items()})
    files = {"GITHUB_PATH": str(machine / "path"), "GITHUB_STEP_SUMMARY": str(machine / "summary")}
    about = {"GITHUB_ACTIONS": "true", "GITHUB_JOB": name, "GITHUB_REF_NAME": "main"}
    environment = service.environment(machine, {**own, **files, **about})
    for step in job["steps"]:
        given = {key: put_in(one, known) for key, one in step.get("with", {}).items()}
        action = step.get("uses", "").partition("@")[0]
        if "run" in step:
            run(put_in(step["run"], known), machine, environment)
            added = machine / "path"
            if added.exists():
                environment["PATH"] = f"{added.read_text().strip()}:{environment['PATH']}"
                added.unlink()
        elif action == "actions/upload-artifact":
            shutil.copytree(machine / given["path"], service.artifacts / given["name"])
        elif action == "actions/download-artifact":
            shutil.copytree(service.artifacts, machine / given["path"])
        elif action == "actions/cache" and "restore-keys" in given and service.cache.exists():
            shutil.copytree(service.cache, machine / given["path"])


def github_report(service: Service, number: int) -> tuple[pathlib.Path, str]:
    """Run the workflow, and return the folder of its report and the summary."""
    shutil.rmtree(service.artifacts, ignore_errors=True)
    for shard in WORKFLOW["jobs"]["tests"]["strategy"]["matrix"]["shard"]:
        run_github_job("tests", service, service.machine(f"{number}-{shard}"), number, shard)
    machine = service.machine(f"{number}-report")
    run_github_job("report", service, machine, number, 0)
    shutil.copytree(machine / "test-runs", service.cache, dirs_exist_ok=True)
    return service.artifacts / "report", (machine / "summary").read_text()


def run_gitlab_job(
    name: str, service: Service, machine: pathlib.Path, number: int, about: Mapping[str, str]
) -> None:
    """Run a job of the pipeline."""
    job = {**PIPELINE[PIPELINE[name]["extends"]], **PIPELINE[name]}
    known = {
        "GITLAB_CI": "true",
        "CI_PROJECT_DIR": str(machine),
        "CI_PROJECT_ID": "3",
        "CI_API_V4_URL": "https://host/api/v4",
        "CI_JOB_TOKEN": "secret",
        "CI_PIPELINE_ID": str(number),
        "CI_COMMIT_REF_NAME": "main",
        "CI_JOB_NAME": name,
        "CI_JOB_GROUP_NAME": name,
        "TEST_HISTORY": service.history,
        **about,
    }
    for key, one in {**PIPELINE["variables"], **job["variables"]}.items():
        known[key] = string.Template(one).substitute(known)
    script = "\n".join([*job["before_script"], *job["script"]])
    run(script, machine, service.environment(machine, known))


def gitlab_report(service: Service, number: int) -> tuple[pathlib.Path, str]:
    """Run the pipeline, and return the folder of its report and the summary."""
    report = service.machine(f"{number}-report")
    total = PIPELINE["tests"]["parallel"]
    for shard in range(1, total + 1):
        machine = service.machine(f"{number}-{shard}")
        about = {"CI_NODE_INDEX": str(shard), "CI_NODE_TOTAL": str(total)}
        about["CI_JOB_NAME"] = f"tests {shard}/{total}"
        run_gitlab_job("tests", service, machine, number, about)
        for path in PIPELINE["tests"]["artifacts"]["paths"]:
            shutil.copytree(machine / path, report / path, dirs_exist_ok=True)
    if service.cache.exists():
        shutil.copytree(service.cache, report / "test-runs")
    run_gitlab_job("report", service, report, number, {})
    shutil.copytree(report / "test-runs", service.cache, dirs_exist_ok=True)
    return report / "report", (report / "report/summary.md").read_text()


@pytest.mark.parametrize("run_pipeline", [github_report, gitlab_report])
@pytest.mark.parametrize("has_database", [True, False], ids=["postgresql", "cache"])
def test_two_pipelines(service: Service, run_pipeline: object, has_database: bool) -> None:
    """Each gives one page and one XML, and the second one knows the first by its history."""
    assert callable(run_pipeline)
    if not has_database:
        service.history = ""
    said = []
    for number in (7, 8):
        folder, summary = run_pipeline(service, number)
        said.append(summary)
        assert "shard 4/4" in (folder / "page.html").read_text()
        root = xml.etree.ElementTree.parse(folder / "junit.xml").getroot()
        assert (root.get("tests"), root.get("failures")) == ("9", "0")
        skipped = [one.get("message") or "" for one in root.iter("skipped")]
        assert sum(one.startswith("QUARANTINED: they fail on purpose") for one in skipped) == 2
        assert junit_schema.faults([folder / "junit.xml"]) == []
        assert f"2 tests failed over {number - 6} run" in summary
        assert "sums::wrong expects\\_a\\_product (QUARANTINED)" in summary
    assert ["from the run of" in one for one in said] == [False, True]
