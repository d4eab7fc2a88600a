"""The limits of the script language and of the program."""

SCRIPT_BYTES = 1 << 24
WORD_BYTES = 32
NUMBER_DIGITS = 9
VERSIONS = (1, 2)
SIZES = {1: 255, 2: 1000}  # the greatest size of an algebra, by version
OPERATIONS = 64
ARITY = 4
NESTING = 64
WIDTH = 1 << 26
PLACES = 16  # of a condition
WORKERS = 16
JOBS = 16
BUDGET = 1_000_000
DEFAULT_BUDGET = 10_000
CERTIFICATE_NUMBERS = 1 << 32
CERTIFICATE_DEPTH = 127  # arrays and objects in one another
