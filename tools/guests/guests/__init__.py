"""Makes the guests of `make` and tries the counter, apart from the program."""
