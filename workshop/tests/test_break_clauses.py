"""Clauses: where they are broken, and that nothing but the lines changes."""

from __future__ import annotations

import pytest

from workshop.break_clauses import COLUMNS, in_columns, long_lines

# What is too long, and what it becomes.
CASES = {
    "each premise begins a line": (
        "fn f()\n"
        "    ensures { (bytes more : List ℕ) (es fs : List Entry) → IsContainer bytes es"
        " → IsContainer (bytes ++ more) fs → more ≡ [] }\n"
        "{\n",
        """fn f()
    ensures { (bytes more : List ℕ) (es fs : List Entry)
        → IsContainer bytes es
        → IsContainer (bytes ++ more) fs
        → more ≡ [] }
{
""",
    ),
    "a premise within brackets begins none": (
        "    requires all { AllByRecursion (λ entry. length entry.name < 65536"
        " → length entry.content < 18446744073709551616) entries }\n",
        "    requires all { AllByRecursion\n"
        "        (λ entry. length entry.name < 65536"
        " → length entry.content < 18446744073709551616) entries }\n",
    ),
    "an operator rather than an argument": (
        "    ensures { entries_of entries.new.entries ≡ entries_of entries.old.entries"
        " ++ entry_of (entry.name, entry.content) ∷ [] }\n",
        """    ensures { entries_of entries.new.entries
        ≡ entries_of entries.old.entries ++ entry_of (entry.name, entry.content) ∷ [] }
""",
    ),
    "a later line keeps its place": (
        "    ensures place { MatchOption result (is_stuck bytes.now)\n"
        "            (λ text. step_at at (placed_entries seen.now) bytes.now"
        " ≡ Ok (Some (placed_entry text.0, text.1.now))) }\n",
        """    ensures place { MatchOption result (is_stuck bytes.now)
            (λ text. step_at at (placed_entries seen.now) bytes.now
            ≡ Ok (Some (placed_entry text.0, text.1.now))) }
""",
    ),
    "a bracket in a text is none": (
        '    ensures { shown result ≡ (codes "(event {" ++ decimal event.now)'
        """ ++ codes "} of this run isn't known to it)" }\n""",
        """    ensures { shown result
        ≡ (codes "(event {" ++ decimal event.now) ++ codes "} of this run isn't known to it)" }
""",
    ),
    "a member of an impl": (
        "    ghost invariant = { λ o. AreTied o.slots.entries o.spans.entries"
        " × AreNoted o.scripts.notes o.spans.entries × IsOne o };\n",
        """    ghost invariant = { λ o. AreTied o.slots.entries o.spans.entries
        × AreNoted o.scripts.notes o.spans.entries × IsOne o };
""",
    ),
}

# Nothing of these is a clause that is too long.
KEPT = (
    "ghost use Rattle.rec_spans.specs.declared.spans.SpanKey."
    "{AVeryLongNameOfAThing, AnotherOne, AndAThirdOneThatIsLongToo};\n\n"
    "/// Says at some length, in a comment that is longer than all the columns that a clause"
    " may have, what it does.\n"
    "fn f(first: u64) -> u64\n"
    "    ensures { result ≡ first }\n"
    "{\n"
    '    call("a text in the code of the function that is much longer than a clause could ever'
    ' be", first, first)\n'
    "}\n"
)


@pytest.mark.parametrize(("text", "wanted"), CASES.values(), ids=CASES)
def test_long_clauses_are_broken(text: str, wanted: str) -> None:
    assert in_columns(text) == wanted
    assert in_columns(wanted) == wanted
    assert text.split() == wanted.split()
    assert max(map(len, wanted.split("\n"))) <= COLUMNS


def test_all_else_is_kept() -> None:
    assert in_columns(KEPT) == KEPT
    assert long_lines(KEPT) == []


def test_long_lines_are_named() -> None:
    joined = "\n".join(text.rstrip("\n") for text, _ in CASES.values())
    assert long_lines(joined) == [2, 4, 5, 7, 8, 9]
