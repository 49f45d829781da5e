"""The lines of a test run: how they are read, judged, and written as a session."""
