"""Programs in place of `rezovamy` and of cargo, which do what files beside them say."""

from __future__ import annotations

import dataclasses
import json
import pathlib
import sys

from rezovamy_runs import recorder
from tests import FRONT
from tests.front_end import FrontEnd

PATHS = [str(FRONT), str(FRONT / "src"), str(FRONT.parent)]
# It lets the real one view, and answers `rerun` with the text of a file. `record`, or `live` and
# `pack`, make the bundle of the session, which it keeps.
PROGRAM = f"""#!{sys.executable}
import os, pathlib, sys
sys.path[:0] = {PATHS!r}
from tests import made
folder = pathlib.Path(__file__).parent
if sys.argv[1] == "view":
    os.execv(os.environ["REAL_REZOVAMY"], sys.argv)
elif sys.argv[1] == "rerun":
    print((folder / "rerun").read_text(), end="")
elif sys.argv[1] == "record":
    session = sys.stdin.read()
    (folder / "session").write_text(session)
    pathlib.Path(sys.argv[2]).write_bytes(made.bundle_of(session))
elif sys.argv[1] == "live":
    run = pathlib.Path(sys.argv[2])
    run.mkdir()
    (run / "run.log.zst").write_text(sys.stdin.read())
elif sys.argv[1] == "pack":
    lines = (pathlib.Path(sys.argv[2]) / "run.log.zst").read_text().splitlines(True)
    session = "".join([sys.stdin.read() or lines[0], *lines[1:]])
    (folder / "session").write_text(session)
    pathlib.Path(sys.argv[3]).write_bytes(made.bundle_of(session))
"""
# It keeps its words, and lets the runner that they name run the binary, which is beside it.
CARGO = f"""#!{sys.executable}
import json, os, pathlib, subprocess, sys
folder, words = pathlib.Path(__file__).parent, sys.argv[1:]
if words[0] == "metadata":
    print((folder / "metadata").read_text())
if words[0] == "-vV":
    print("host: some-triple")
if words[0] != "test":
    sys.exit(0)
if sys.argv[1:] == ["-V"]:
    print("cargo 1.2.3")
    sys.exit(0)
with open(folder / "asked", "a") as asked:
    asked.write(json.dumps(words) + "\\n")
kind = words[words.index("-p") + 2]
name = words[words.index(kind) + 1] if kind != "--lib" else "alpha"
runner = json.loads(words[words.index("--config") + 1].partition("=")[2])
of_tests = words[words.index("--") + 1:] if "--" in words else []
binary = folder / f"{{name}}-0123456789abcdef"
binary.write_text((folder / "binary").read_text())
binary.chmod(0o755)
print(json.dumps({{
    "reason": "compiler-artifact", "package_id": "path+file:///alpha#0.1.0",
    "target": {{"kind": [kind.lstrip("-")], "name": name}}, "profile": {{"test": True}},
    "executable": str(binary), "manifest_path": str(folder / "Cargo.toml"),
}}), flush=True)
environment = {{**os.environ, "CARGO_PKG_NAME": "alpha"}}
sys.exit(subprocess.run([*runner, binary, *of_tests], env=environment).returncode)
"""
# It has the tests after `--exact`: those whose names begin with `bad` fail, one exits, one crashes
# and one hangs; it has none whose name begins with `gone`, and besides as many as the file `others`
# says.
BINARY = f"""#!{sys.executable}
import json, os, pathlib, sys, time
folder, words = pathlib.Path(__file__).parent, sys.argv[1:]
if "--help" in words:
    print("--logfile")
    sys.exit(0)
asked_for = words[words.index("--exact") + 1:] if "--exact" in words else ["t0"]
names = [name for name in asked_for if "gone" not in name and name[0] not in "-/"]
known = folder / (pathlib.Path(__file__).name + ".names")
if "--list" in words and "--exact" not in words:
    others = folder / "others"
    number = int(others.read_text()) if others.exists() else 0
    names = known.read_text().split() if known.exists() else names
    names += [f"other{{number}}" for number in range(number)]
if "--list" in words:
    if "--exact" in words:
        known.write_text(" ".join(names))
    print("".join(f"{{name}}: test\\n" for name in names if "--ignored" not in words), end="")
    sys.exit(0)
log = open(words[words.index("--logfile") + 1], "a")
say = lambda text: print('{{ "type": "test", ' + text + ' }}', flush=True)
for test in names[:1] if "--nocapture" in words and "--format" not in words else names:
    say(f'"event": "started", "name": "{{test}}"')
    if test == "hangs":
        (folder / "hanging").touch()
        time.sleep(600)
    if test == "exits":
        os._exit(0)
    if test == "crashes":
        os.abort()
    event = "failed" if test.startswith("bad") else "ok"
    print(event, test, file=log, flush=True)
    say(f'"event": "{{event}}", "name": "{{test}}", "exec_time": 0.5')
sys.exit(101 if any(test.startswith("bad") for test in names) else 0)
"""


@dataclasses.dataclass(frozen=True)
class FakePrograms:
    """The programs in a folder."""

    folder: pathlib.Path
    info: dict[str, object]

    def write(self) -> None:
        """Write them, and packages of which there are none."""
        for name, text in (("rezovamy", PROGRAM), ("cargo", CARGO), ("binary", BINARY)):
            (self.folder / name).write_text(text)
            (self.folder / name).chmod(0o755)
        self.write_metadata([])

    def use_in(self, front_end: FrontEnd) -> None:
        """Let a front end start them."""
        environment = front_end.environment
        environment["REAL_REZOVAMY"] = str(recorder.find())
        environment["REZOVAMY"] = str(self.folder / "rezovamy")
        environment["PATH"] = f"{self.folder}:{environment['PATH']}"

    def write_metadata(self, packages: list[dict[str, object]]) -> None:
        """Let cargo say that there are these packages."""
        (self.folder / "metadata").write_text(json.dumps({"packages": packages}))

    def write_plan(self, *lines: str) -> None:
        """Let the program answer `rerun` so."""
        text = "".join(f"{line}\n" for line in (json.dumps(self.info), *lines))
        (self.folder / "rerun").write_text(text)

    def asked(self) -> list[list[str]]:
        """Return what stands after the words of each run of cargo that the front end sets."""
        path = self.folder / "asked"
        lines = path.read_text().splitlines() if path.exists() else []
        return [without_runner(json.loads(line))[4:] for line in lines]

    def session(self) -> list[dict[str, object]]:
        """Return the session that was recorded."""
        lines = (self.folder / "session").read_text().splitlines()
        return [json.loads(line) for line in lines]

    def suites(self) -> object:
        """Return the tests by binary that the head of the session lists."""
        listed = self.session()[0]["test-list"]
        assert isinstance(listed, dict)
        return listed["suites"]


def without_runner(words: list[str]) -> list[str]:
    """Return the words of cargo without those that name a runner."""
    place = words.index("--config")
    return [*words[:place], *words[place + 2 :]]
