"""Stands in place of a test binary and of rustdoc, and writes down how cargo calls it.

It is a script of its own: a copy of it is in a folder where the records go, as `runner` and as
`rustdoc`. The name by which it is called says what it stands for.
"""

import os
import sys


def record(folder: str, kind: str, words: list[str]) -> None:
    """Write what it was called with: the kind, the directory, the words, the environment."""
    # Python may add to `os.environ` what cargo hasn't given.
    with open("/proc/self/environ", "rb") as given:
        environment = given.read()
    parts = [kind, os.getcwd(), str(len(words)), *words]
    taken = sum(not name.startswith(".") for name in os.listdir(folder))
    aside = os.path.join(folder, f".{taken:06}")
    with open(aside, "wb") as file:
        file.write(b"".join(os.fsencode(part) + b"\0" for part in parts) + environment)
    os.rename(aside, os.path.join(folder, f"{taken:06}"))


def main() -> None:
    """Write the call down, or let the real rustdoc answer where no test is asked for."""
    here, name = os.path.split(os.path.abspath(sys.argv[0]))
    if name == "rustdoc" and "--test" not in sys.argv:
        with open(os.path.join(here, "real-rustdoc"), encoding="utf-8") as file:
            real = file.read()
        os.execvp(real, [real, *sys.argv[1:]])
    record(os.path.join(here, "records"), name, sys.argv[1:])


if __name__ == "__main__":
    main()
