"""Says of the cases of a report which failed in quarantine."""

from __future__ import annotations

import dataclasses

from rezovamy_runs.model import TestName
from rezovamy_runs.quarantine import Quarantine
from rezovamy_runs.report.run_events import STRESS
from rezovamy_runs.report.run_report import Case, NonSuccess, Report, Skipped
from rezovamy_runs.report.unfinished import UNFINISHED

# What the suites of setup scripts are called, which no quarantine is for.
SETUP_SCRIPT = "@setup-script:"


def without_excused(report: Report, quarantine: Quarantine) -> Report:
    """Return a report in which a failure in quarantine is a skipped case that says so."""
    if not quarantine.entries:
        return report
    suites = tuple(
        dataclasses.replace(suite, cases=tuple(excused(case, quarantine) for case in suite.cases))
        for suite in report.suites
    )
    return dataclasses.replace(report, suites=suites)


def excused(case: Case, quarantine: Quarantine) -> Case:
    """Return a case, skipped if it failed in quarantine; one that never ended stays an error."""
    status = case.status
    if not isinstance(status, NonSuccess) or status.fault.type == UNFINISHED:
        return case
    if case.classname.startswith(SETUP_SCRIPT):
        return case
    entry = quarantine.entry_of(TestName(case.classname.partition(STRESS)[0], case.name))
    if entry is None:
        return case
    said = status.fault.message or status.fault.type
    return dataclasses.replace(case, status=Skipped(f"{entry.text}; it failed: {said}"))
