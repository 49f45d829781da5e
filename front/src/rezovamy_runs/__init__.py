"""The front end of Rezovamy: records test runs, and shows what was recorded."""
