"""Reports of a run: as text, as tables, and as JUnit XML."""
