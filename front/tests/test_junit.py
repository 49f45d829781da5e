"""JUnit XML of reports of each kind, in both dialects, and the statuses of `junit_xml`."""

from __future__ import annotations

import dataclasses
import json
import pathlib
from xml.etree import ElementTree
from xml.etree.ElementTree import Element

import pytest

from rezovamy_runs.commands import junit_xml
from tests import junit_schema
from tests.junit_cases import (
    CLEAN,
    RUN_ID,
    made_case,
    made_events,
    made_report,
    passed_report,
    report_of_cases,
    session_of,
    unfinished_events,
)

OTHERS = "junit-own.xml"
LINE, GOOD = json.dumps(made_report()), json.dumps(passed_report())
STARTED = "1970-01-01T00:59:59.999+01:00"
DIALECTS = list(junit_schema.SCHEMAS)


@dataclasses.dataclass(frozen=True)
class Tool:
    """A folder in which `junit_xml` is run on files."""

    folder: pathlib.Path
    printed: pytest.CaptureFixture[str]

    def run(self, reports: str, *options: object) -> tuple[int, list[pathlib.Path]]:
        """Return the status of a run on these reports, and the files that are there then."""
        (self.folder / "reports").write_text(reports)
        words = [
            *map(str, options),
            str(self.folder / "reports"),
            str(self.folder / "made"),
        ]
        status = junit_xml.run(junit_xml.options_of(words))
        paths = sorted((self.folder / "made").glob("*"))
        printed = self.printed.readouterr().out.splitlines()
        assert sorted(printed) == [str(path) for path in paths if path.name != OTHERS]
        return status, paths

    def root(self, reports: str, *options: object) -> Element:
        """Return the root of the file that is made of a report."""
        self.run(reports, *options)
        path = self.folder / "made" / "junit.xml"
        assert junit_schema.faults([path]) == []
        return ElementTree.parse(path).getroot()

    def file(self, name: str, data: bytes) -> pathlib.Path:
        """Return the path of a file that is written into the folder."""
        path = self.folder / name
        path.write_bytes(data)
        return path


@pytest.fixture
def tool(tmp_path: pathlib.Path, capsys: pytest.CaptureFixture[str]) -> Tool:
    """Return the tool in an empty folder."""
    return Tool(tmp_path, capsys)


def found(root: Element, path: str) -> Element:
    """Return the first element at a path, which has to be there."""
    element = root.find(path)
    assert element is not None
    return element


# What the made report becomes.


@pytest.fixture(params=DIALECTS)
def dialect(request: pytest.FixtureRequest) -> str:
    """Return each dialect."""
    return str(request.param)


@pytest.fixture
def root(tool: Tool, dialect: str) -> Element:
    """Return the XML of the made report in a dialect."""
    status, paths = tool.run(LINE, "--dialect", dialect)
    assert status == 0
    assert junit_schema.faults(paths, dialect) == []
    return ElementTree.parse(paths[0]).getroot()


def test_the_root_has_the_run_and_its_counts(root: Element, dialect: str) -> None:
    expected = {"name": "nextest-run", "tests": "6", "failures": "1", "errors": "1"}
    expected["time"] = "11.000"
    if dialect == "nextest":
        expected |= {"uuid": RUN_ID, "timestamp": "2020-09-13T06:56:40.123-05:30"}
    assert root.attrib == expected


def test_a_property_is_cleaned(root: Element) -> None:
    attributes = found(root[0], "properties/property[1]").attrib
    assert attributes == {"name": "command", "value": CLEAN}


def test_a_name_is_cleaned(root: Element) -> None:
    assert found(root[0], "testcase").get("name") == CLEAN


def test_an_instant_without_a_date_is_left_out(root: Element) -> None:
    assert found(root[0], "testcase").get("timestamp") is None


def test_a_suite_has_counts(root: Element, dialect: str) -> None:
    expected = {"name": "bin", "tests": "5", "errors": "1", "failures": "1"}
    if dialect == "nextest":
        expected["disabled"] = "1"
    else:
        expected |= {"skipped": "1", "timestamp": STARTED, "time": "2.000"}
    assert root[1].attrib == expected


def test_a_case_that_passed(root: Element) -> None:
    assert (root[1][0].get("time"), len(root[1][0])) == ("2.000", 0)


def test_a_flaky_case_has_its_attempts(root: Element) -> None:
    assert [child.tag for child in root[1][1]] == ["flakyFailure", "flakyError"]


def test_an_attempt_has_its_type_as_message_and_text(root: Element, dialect: str) -> None:
    expected = {"message": "test timeout", "type": "test timeout"}
    if dialect == "nextest":
        expected |= {"timestamp": "1970-01-01T00:00:01.000+00:00", "time": "0.002"}
    attempt = root[1][1][0]
    assert (attempt.attrib, attempt.text) == (expected, "test timeout")


def test_a_case_that_failed(root: Element, dialect: str) -> None:
    failed = root[1][2]
    tags = ["failure", "rerunFailure", "rerunError", "system-out", "system-err"]
    assert [child.tag for child in failed] == tags
    assert (failed[0].attrib, failed[0].text) == (
        {"message": CLEAN, "type": "t"},
        CLEAN,
    )
    assert (found(failed, "system-out").text, found(failed, "system-err").text) == (
        CLEAN,
        None,
    )
    assert failed.get("timestamp") == (STARTED if dialect == "nextest" else None)


def test_a_case_that_passed_and_counts_as_failed(root: Element) -> None:
    counted = root[1][3]
    assert [child.tag for child in counted] == ["error", "flakyFailure"]
    assert (counted[0].attrib, counted[0].text) == ({"message": "t", "type": "t"}, "t")
    assert [child.tag for child in counted[1]] == ["system-out", "system-err"]
    assert counted[1].text == CLEAN


def test_a_case_that_was_skipped(root: Element) -> None:
    assert root[1][4][0].attrib == {"message": "Skipped: test already passed"}


@pytest.mark.skipif(not junit_schema.is_there(), reason="xmllint is missing")
def test_the_schema_of_jenkins_refuses_the_other_dialect(tool: Tool) -> None:
    _, paths = tool.run(LINE, "--dialect", "nextest")
    assert junit_schema.faults(paths, "jenkins") != []


def test_the_text_of_a_document(tool: Tool) -> None:
    said = {"system-out": 'a<b>&"c"\r\n\t]]>', "system-err": ""}
    attempt = {"kind": "error", "type-text": "a\tb\n", "system-out": "x"}
    case = made_case("'q' \"r\"\r", {"success": [attempt]}, **said)
    tool.run(json.dumps(report_of_cases(case, made_case("s", {"skipped": ""}))))
    assert (tool.folder / "made" / "junit.xml").read_bytes() == (
        b'<?xml version="1.0" encoding="UTF-8"?>\n'
        b'<testsuites name="nextest-run" tests="2" failures="0" errors="0" time="11.000">\n'
        b'    <testsuite name="bin" tests="2" skipped="1" errors="0" failures="0">\n'
        b'        <testcase name="\'q\' &quot;r&quot;&#13;" classname="bin">\n'
        b'            <flakyError message="a&#9;b&#10;" type="a&#9;b&#10;">a\tb\n'
        b"<system-out>x</system-out></flakyError>\n"
        b'            <system-out>a&lt;b&gt;&amp;"c"&#13;\n\t]]&gt;</system-out>\n'
        b"            <system-err></system-err>\n"
        b"        </testcase>\n"
        b'        <testcase name="s" classname="bin">\n'
        b'            <skipped message=""/>\n'
        b"        </testcase>\n"
        b"    </testsuite>\n"
        b"</testsuites>\n"
    )


# Files and statuses.


def test_each_line_becomes_a_file(tool: Tool) -> None:
    status, paths = tool.run(f"{LINE}\n\n{LINE}\n")
    assert (status, [path.name for path in paths]) == (0, ["junit-2.xml", "junit.xml"])
    assert junit_schema.faults(paths) == []
    assert paths[0].read_bytes() == paths[1].read_bytes()


@pytest.mark.parametrize(
    ("reports", "options", "status", "count"),
    [
        pytest.param(f"{LINE}\n{LINE}\n{LINE}", [], 0, 3, id="three reports"),
        pytest.param(GOOD, [], 0, 1, id="all passed"),
        pytest.param(GOOD, ["--fail"], 0, 1, id="all passed, with --fail"),
        pytest.param(LINE, ["--fail"], 4, 1, id="a failure, with --fail"),
        pytest.param("\n", [], 3, 0, id="no report"),
        pytest.param(LINE, [], 0, 1, id="a failure"),
        pytest.param("{", [], 1, 0, id="no JSON"),
        pytest.param('{"a":' * 99999, [], 1, 0, id="JSON that is nested too deeply"),
        pytest.param(f"{LINE}\n[]", [], 1, 0, id="a list"),
        pytest.param("{}", [], 1, 0, id="an empty object"),
        pytest.param(
            '{"name":1,"suites":[],"run-id":"","timestamp":null,"time":null}',
            [],
            1,
            0,
            id="a name that is no text",
        ),
        pytest.param(
            LINE.replace('"success"', '"succeeded"'),
            [],
            1,
            0,
            id="a status that isn't known",
        ),
        *(
            pytest.param(
                LINE.replace('"secs": 11', f'"secs": {odd}'),
                [],
                1,
                0,
                id=f"{odd} seconds",
            )
            for odd in ("1.5", "NaN", "-5", '"11"')
        ),
        pytest.param(
            LINE.replace('"nanos": 1500000', '"nanos": -9000000000'),
            [],
            1,
            0,
            id="an odd attempt",
        ),
    ],
)
def test_statuses(tool: Tool, reports: str, options: list[str], status: int, count: int) -> None:
    tool.run(f"{LINE}\n{LINE}")
    (tool.folder / "made" / OTHERS).touch()
    found_status, paths = tool.run(reports, *options)
    assert (found_status, len(paths) - 1) == (status, count)


@pytest.mark.parametrize("data", [None, b"text\ntext"], ids=["missing", "neither"])
def test_events_that_cannot_be_read(tool: Tool, data: bytes | None) -> None:
    tool.run(LINE)
    path = tool.folder / "events"
    if data is not None:
        path.write_bytes(data)
    assert tool.run(LINE, "--events", path) == (1, [])


def test_the_fault_of_a_line_is_told(tool: Tool, capsys: pytest.CaptureFixture[str]) -> None:
    path = tool.file("reports", f"{GOOD}\n[]".encode())
    assert junit_xml.run(junit_xml.options_of([str(path), str(tool.folder / "made")])) == 1
    told = "junit_xml: line 2 is no report: a value is no object: []\n"
    assert capsys.readouterr() == ("", told)


# Long texts are cut, with their begin and their end, so that a reader of XML takes them.


@pytest.fixture(scope="module")
def long_line() -> str:
    """Return a report with an output and a name that are too long."""
    long = {"system-out": "€" * 5_000_000 + "end"}
    return json.dumps(report_of_cases(made_case('"' * 5_000_000, {"success": []}, **long)))


def test_long_texts_are_cut(tool: Tool, long_line: str) -> None:
    root = tool.root(long_line)
    text = found(root, ".//system-out").text or ""
    assert 9_999_900 < len(text.encode()) <= 10_000_000
    note = "... [of 15000003 bytes the middle is left out] ..."
    assert (text[:9], note in text, text[-4:]) == ("€" * 9, True, "€end")
    assert 999_900 < len(found(root, ".//testcase").get("name", "")) <= 1_000_000


def test_texts_are_cut_where_it_is_asked_for(tool: Tool, long_line: str) -> None:
    root = tool.root(long_line, "--most-text", "1000")
    assert len((found(root, ".//system-out").text or "").encode()) in range(990, 1001)


# What never ended is an error, in a report of a session as in one of a bundle.


@pytest.fixture
def unfinished_line() -> str:
    """Return a report without the tests that never ended."""
    skipped = made_case("skipped", {"skipped": "Skipped: no"})
    return json.dumps(report_of_cases(made_case("passed", {"success": []}), skipped))


def test_what_never_ended_is_an_error(tool: Tool, unfinished_line: str) -> None:
    path = tool.file("events", session_of(unfinished_events()))
    root = tool.root(unfinished_line, "--events", path)
    names = [
        [suite.get("name")] + [case.get("name") for case in suite if case.find("error") is not None]
        for suite in root
    ]
    assert root.get("errors") == "3"
    assert names == [["bin", "tried"], ["other", "late"], ["(run)", "(run)"]]
    tried, late, whole = root.iter("error")
    broken = "; the run was broken off (interrupt)"
    assert tried.text == (
        f"the test started, and no event says how it ended{broken}\nattempt 1: it is flaky"
    )
    assert late.get("message") == f"the test was announced, and never started{broken}"
    said = "2 announced tests never started, and no event names them"
    assert (whole.text or "").splitlines()[-1] == said
    assert found(root, ".//skipped").get("message") == "Skipped: no: is slow"
    assert tool.run(unfinished_line, "--events", path, "--fail")[0] == 4


def test_a_whole_run_has_no_error(tool: Tool, unfinished_line: str) -> None:
    path = tool.file("events", session_of(made_events(tried=False)))
    assert tool.run(unfinished_line, "--events", path, "--fail")[0] == 0


def test_events_of_another_run_are_refused(tool: Tool, unfinished_line: str) -> None:
    data = session_of(made_events(tried=False)).replace(b"550e", b"660e")
    assert tool.run(unfinished_line, "--events", tool.file("events", data))[0] == 1


def test_too_few_events_are_refused(tool: Tool, unfinished_line: str) -> None:
    path = tool.file("events", session_of(made_events(tried=False)))
    assert tool.run(f"{unfinished_line}\n{unfinished_line}", "--events", path)[0] == 1
