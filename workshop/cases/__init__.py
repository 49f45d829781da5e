"""Cases for the built program, a module for each idea; `python3 -m workshop.try_cases` runs them.
Each module begins with what it shows.

`case`, `texts`, `made`, `events`, `histories`, `whole_bundles`, `line_cases` and `outlines` have no
cases: they hold what several of the others need.
"""

from __future__ import annotations
