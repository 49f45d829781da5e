"""Reads what a CI says of its job in the variables that its documentation names.

It knows GitHub, GitLab, Buildkite, CircleCI, Jenkins and Azure.
"""

from __future__ import annotations

import dataclasses
from collections.abc import Callable, Mapping

from rezovamy_runs.store.notes import CiJob, Shard

Variables = Mapping[str, str]
BRANCHES, ORIGIN = "refs/heads/", "origin/"


@dataclasses.dataclass(frozen=True, kw_only=True)
class CiRun:
    """What a CI says of a job. What it doesn't say is None."""

    job: CiJob
    # What all shards of the job have in common, and no other job has.
    group: str | None
    shard: Shard | None = None
    project: str | None = None
    commit: str | None = None
    branch: str | None = None


def ci_run(variables: Variables) -> CiRun | None:
    """Return what the CI says of the job in which the process runs, None outside of one."""
    known = {name: value for name, value in variables.items() if value}
    return next((read(known) for mark, read in SERVICES.items() if mark in known), None)


def group_of(*pieces: str | None) -> str | None:
    """Return the name of a group, None if a piece of it isn't known."""
    return "-".join(piece for piece in pieces if piece) if all(pieces) else None


def first(variables: Variables, *names: str) -> str | None:
    """Return the value of the first of these variables that there is."""
    return next((variables[name] for name in names if name in variables), None)


def shard_of(number: str | None, total: str | None, starts_at: int) -> Shard | None:
    """Return the shard of a number that counts from 0 or 1, None if there is only one."""
    try:
        shard = Shard.read(f"{int(number or '') - starts_at + 1}/{int(total or '')}")
    except ValueError:
        return None
    return shard if shard.total > 1 else None


def branch_of(name: str | None) -> str | None:
    """Return a branch without what stands before its name."""
    return name.removeprefix(BRANCHES).removeprefix(ORIGIN) if name else None


def github(variables: Variables) -> CiRun:
    """Read the variables of GitHub Actions. A job of a matrix names its shard by an option."""
    server, project = variables.get("GITHUB_SERVER_URL"), variables.get("GITHUB_REPOSITORY")
    run, job = variables.get("GITHUB_RUN_ID"), variables.get("GITHUB_JOB")
    link = f"{server}/{project}/actions/runs/{run}" if server and project and run else None
    return CiRun(
        job=CiJob("github", job, link),
        group=group_of("github", run, job),
        project=project,
        commit=variables.get("GITHUB_SHA"),
        branch=first(variables, "GITHUB_HEAD_REF", "GITHUB_REF_NAME"),
    )


def gitlab(variables: Variables) -> CiRun:
    """Read the variables of GitLab.

    Jobs of `parallel: N` are called `NAME K/N`, and those of `parallel: matrix`, which have the
    same variables, are not. Each of these runs all tests.
    """
    job, name = variables.get("CI_JOB_NAME"), variables.get("CI_JOB_GROUP_NAME")
    shard = shard_of(variables.get("CI_NODE_INDEX"), variables.get("CI_NODE_TOTAL"), 1)
    return CiRun(
        job=CiJob("gitlab", job, variables.get("CI_JOB_URL")),
        group=group_of("gitlab", variables.get("CI_PIPELINE_ID"), name or job),
        shard=shard if job and job.endswith(f" {shard}") else None,
        project=variables.get("CI_PROJECT_PATH"),
        commit=variables.get("CI_COMMIT_SHA"),
        branch=first(variables, "CI_MERGE_REQUEST_SOURCE_BRANCH_NAME", "CI_COMMIT_REF_NAME"),
    )


def buildkite(variables: Variables) -> CiRun:
    """Read the variables of Buildkite."""
    build, step = variables.get("BUILDKITE_BUILD_ID"), variables.get("BUILDKITE_STEP_ID")
    url, job = variables.get("BUILDKITE_BUILD_URL"), variables.get("BUILDKITE_JOB_ID")
    number = variables.get("BUILDKITE_PARALLEL_JOB")
    return CiRun(
        job=CiJob(
            "buildkite",
            first(variables, "BUILDKITE_STEP_KEY", "BUILDKITE_LABEL"),
            f"{url}#{job}" if url and job else url,
        ),
        group=group_of("buildkite", build, step),
        shard=shard_of(number, variables.get("BUILDKITE_PARALLEL_JOB_COUNT"), 0),
        project=variables.get("BUILDKITE_PIPELINE_SLUG"),
        commit=variables.get("BUILDKITE_COMMIT"),
        branch=variables.get("BUILDKITE_BRANCH"),
    )


def circleci(variables: Variables) -> CiRun:
    """Read the variables of CircleCI."""
    job, workflow = variables.get("CIRCLE_JOB"), variables.get("CIRCLE_WORKFLOW_ID")
    index, total = variables.get("CIRCLE_NODE_INDEX"), variables.get("CIRCLE_NODE_TOTAL")
    return CiRun(
        job=CiJob("circleci", job, variables.get("CIRCLE_BUILD_URL")),
        group=group_of("circleci", workflow, job),
        shard=shard_of(index, total, 0),
        project=variables.get("CIRCLE_PROJECT_REPONAME"),
        commit=variables.get("CIRCLE_SHA1"),
        branch=variables.get("CIRCLE_BRANCH"),
    )


def jenkins(variables: Variables) -> CiRun:
    """Read the variables of Jenkins, with those of its plugins for Git and branches."""
    name = variables.get("JOB_NAME")
    return CiRun(
        job=CiJob("jenkins", name, first(variables, "RUN_DISPLAY_URL", "BUILD_URL")),
        group=group_of("jenkins", name, variables.get("BUILD_NUMBER")),
        project=name,
        commit=variables.get("GIT_COMMIT"),
        branch=branch_of(first(variables, "CHANGE_BRANCH", "BRANCH_NAME", "GIT_BRANCH")),
    )


def azure(variables: Variables) -> CiRun:
    """Read the variables of Azure Pipelines. A job of a matrix names its shard by an option."""
    collection, project = variables.get("SYSTEM_COLLECTIONURI"), variables.get("SYSTEM_TEAMPROJECT")
    build = variables.get("BUILD_BUILDID")
    link = f"{collection}{project}/_build/results?buildId={build}"
    return CiRun(
        job=CiJob(
            "azure",
            first(variables, "AGENT_JOBNAME", "SYSTEM_JOBDISPLAYNAME"),
            link if collection and project and build else None,
        ),
        group=group_of("azure", build, variables.get("SYSTEM_PHASENAME")),
        project=variables.get("BUILD_REPOSITORY_NAME"),
        commit=variables.get("BUILD_SOURCEVERSION"),
        branch=branch_of(first(variables, "SYSTEM_PULLREQUEST_SOURCEBRANCH", "BUILD_SOURCEBRANCH")),
    )


# The services by a variable that each sets.
SERVICES: dict[str, Callable[[Variables], CiRun]] = {
    "GITHUB_ACTIONS": github,
    "GITLAB_CI": gitlab,
    "BUILDKITE": buildkite,
    "CIRCLECI": circleci,
    "TF_BUILD": azure,
    "JENKINS_URL": jenkins,
}
