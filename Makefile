# make run       shows examples/reload.script and examples/tails.script line by line with their answers: the oracle's at once, and, once it is proved and built, the driver's
# make test      the gate: the kit's identity, lints, the oracle's tests, `rt ci` over every crate, and a short comparison
# make replay FILE=..   proves and builds the program replay, and replays an input log: FILE=examples/reload.log, and WORDS="7 40 2 300 3" for its opening and portions
# make audit FILE=..    proves and builds the program audit, and asks the plain engine about an input log: FILE=examples/reload.log, and WORDS="7 40 2 300" for its opening
# make compare   plays the fixed scripts and 200 random ones, 1,000,000 calls, by the driver and by the oracle, and compares them byte for byte; then replays input logs, 1,000,000 events, and audits some, 1,000,000 questions, likewise
# make bench     times copying, exchanging, finding and moving tails, replaying, and the driver beside Rust's, and an audit by itself
.PHONY: help run test replay audit compare bench

# What `make replay` and `make audit` are given: the file, and the numbers behind it (docs/REPLAY.md, docs/AUDIT.md).
FILE =
WORDS =

help:
	@sed -n 's/^# //p' Makefile

run:
	@tools/story examples/reload.script examples/tails.script

test:
	@tools/gate

replay audit:
	@tools/prove $@ >&2
	@tools/play $@ $(if $(FILE),'$(FILE)') $(WORDS)

compare:
	@tools/prove drive replay audit
	@tools/compare 200 5000
	@tools/compare-replays 2200
	@tools/compare-audits 170

bench:
	@tools/bench
