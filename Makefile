# The project's commands. `make` proves and builds the program; docs/USAGE.md says how long that takes.

program := crates/uacalc/out/uacalc

.PHONY: build try check long bench fmt

build:
	@echo "Every crate is proved first: about an hour on four cores, and seconds where nothing has changed."
	.ci/build
	$(program) --workers 1 < examples/meet.ua

# The first example, answered by the unproved program, in a minute or two.
try:
	cd crates/uacalc && rt try -- --workers 1 < ../../examples/meet.ua

check:
	.ci/run

long:
	.ci/long

bench:
	bench/run.sh $(program)

fmt:
	for crate in crates/*/; do (cd $$crate && rt fmt) || exit 1; done
