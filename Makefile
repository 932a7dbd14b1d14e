# `make demo` proves and builds the replay program and replays the worked sessions; `make test` passes everything.
.PHONY: demo test library quick measure index sizes

demo:
	@scripts/demo

test:
	@.ci/run

# The two static libraries for C, in target/staticlib.
library:
	@scripts/library

# The loop of the daily work: what changed is proved, and the must-fail edits that it touches are tried; CRATES='board status' is for
# two crates alone. Not the verdict.
quick:
	@scripts/quick $(CRATES)

# Instructions per message and time of a million messages, beside the second implementation.
measure:
	@scripts/measure

# Every public function and every must-fail edit, listed from the sources in target/index.
index:
	@scripts/index

# The sizes that a landing note states.
sizes:
	@scripts/sizes
