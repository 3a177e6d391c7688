.PHONY: run lib claims test bench fmt

# a question for the program hits: make run INPUT=file
INPUT = examples/hits/listing.txt

# which cases to time, by a part of their names, and how often: make bench ONLY='dense k=8' REPS=3
ONLY =
REPS =

run:
	@bash scripts/run.sh "$(INPUT)"

# target/staticlib/libquorum.a
lib:
	@bash scripts/prove.sh lib quorum

claims:
	@bash scripts/claims.sh

test:
	@bash scripts/test.sh

# ratios of running times, same inputs in one run
bench:
	@bash scripts/bench.sh "$(ONLY)" "$(REPS)"

fmt:
	@for crate in crates/*/; do (cd "$$crate" && rt fmt) || exit 1; done
	@cd rust && cargo fmt
