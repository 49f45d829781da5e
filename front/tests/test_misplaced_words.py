"""What is said of words of `cargo test` that stand where those of the front end do."""

from __future__ import annotations

import pytest

from rezovamy_runs import cli
from rezovamy_runs.faults.fault import Fault

OPTIONS, WORDS = "cargo's options go after `--`: ", "cargo's words go after `--`: "
HELP = "; `rezovamy-runs --help` says what is taken"


@pytest.mark.parametrize(
    ("line", "said"),
    [
        ("test --lib", f"{OPTIONS}rezovamy-runs test -- --lib"),
        ("test --lib --page", f"{OPTIONS}rezovamy-runs test --page -- --lib"),
        ("test -p x --retries 2", f"{OPTIONS}rezovamy-runs test --retries 2 -- -p x"),
        ("test --features=a,b name", f"{OPTIONS}rezovamy-runs test -- --features=a,b name"),
        ("test --nocapture", f"{OPTIONS}rezovamy-runs test -- -- --nocapture"),
        ("test --lib --skip a", f"{OPTIONS}rezovamy-runs test -- --lib -- --skip a"),
        ("test --lib -- --doc -- b", f"{OPTIONS}rezovamy-runs test -- --lib --doc -- b"),
        ("test name", f"{WORDS}rezovamy-runs test -- name"),
        ("again -p x", f"{OPTIONS}rezovamy-runs again -- -p x"),
        ("again last --release", f"{OPTIONS}rezovamy-runs again last -- --release"),
        ("test --no-such-option", f"unrecognized arguments: --no-such-option{HELP}"),
        ("list --lib", f"unrecognized arguments: --lib{HELP}"),
    ],
)
def test_words_before_the_dashes(line: str, said: str) -> None:
    with pytest.raises(Fault) as fault:
        cli.run(line.split())
    assert (str(fault.value), fault.value.status) == (said, 2)
