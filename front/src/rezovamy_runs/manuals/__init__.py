"""Man pages and completions of the programs, made of the parsers that print their `--help`."""
