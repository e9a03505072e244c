"""The limits of program texts, as docs/language.md has them."""

BYTES = 1_048_576
VARIABLES, LOCATIONS, EDGES, DRAWS = 512, 1024, 4096, 64
CASES = 8192
PROCESSES = 8
# numbers of a text are below it
WIDE = 2**62
