"""The commands, a module each: its words, its steps and its exit status."""
