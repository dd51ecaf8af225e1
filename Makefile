# run: a working day, the incident, and the listing of a sample set-up    test: the gate    bench: figures beside C, OpenSSL, memmove and the Rust model
# replay FILE=examples/incident.replay: carries out a run that is written as text    fuzz N=20000: replay beside the model, on so many made-up runs
# fuzz-listing: the listing beside a second reader, on 20,000 made-up texts    fmt: lay out every file
.PHONY: run test bench replay fuzz fuzz-listing fmt rt-is-there

run: rt-is-there crates/workday/out/workday crates/incident/out/incident crates/listing/out/listing
	@echo 'make run: a working day:'
	@crates/workday/out/workday
	@echo 'make run: the incident:'
	@crates/incident/out/incident
	@echo
	@echo 'make run: the listing of examples/sample.txt:'
	@crates/listing/out/listing <examples/sample.txt

test:
	@.ci/run

bench: rt-is-there
	@bench/all

# What is not an answer goes to standard error, so that the answers can be kept in a file.
replay: rt-is-there
	@[ -n "$$FILE" ] || { echo 'make replay: which text? For instance: make replay FILE=examples/incident.replay' >&2; exit 1; }
	@[ -f "$$FILE" ] && [ -r "$$FILE" ] || { echo "make replay: there is no text $$FILE, or it cannot be read" >&2; exit 1; }
	@$(MAKE) --no-print-directory crates/replay/out/replay >&2
	@crates/replay/out/replay <"$$FILE"

# The texts are made from seeds, N of them from SEED on; tests/replay has those from 0 on. A text that shows a difference is kept in target/.
fuzz: N = 20000
fuzz: SEED = 1000000
fuzz: rt-is-there crates/replay/out/replay
	@command -v cargo >/dev/null || { echo 'make: cargo is not on the PATH, and the model needs it'; exit 1; }
	@cargo build --release --offline --quiet --manifest-path tests/model/Cargo.toml --target-dir target/model
	@cd target && model/release/fuzz ../crates/replay/out/replay $(N) $(SEED)
	@target/model/release/load crates/replay/out/replay large

fuzz-listing: rt-is-there crates/listing/out/listing
	@command -v python3 >/dev/null || { echo 'make: python3 is not on the PATH, and the second reader needs it'; exit 1; }
	@tools/listing-fuzz -n 20000

fmt: rt-is-there
	@for crate in crates/*/; do (cd "$$crate" && rt fmt) || exit 1; done

# rt run proves a program, builds it and runs it, here on nothing at all: what it writes is thrown away, what the check says goes to standard error.
.PHONY: crates/workday/out/workday crates/incident/out/incident crates/listing/out/listing crates/replay/out/replay
crates/workday/out/workday crates/incident/out/incident crates/listing/out/listing crates/replay/out/replay: rt-is-there
	@echo 'make: proving and building $(notdir $@) (minutes after a change, seconds else) ..'
	@cd crates/$(notdir $@) && rt run </dev/null >/dev/null

rt-is-there:
	@command -v rt >/dev/null || { echo 'make: rt, the command of the Rattle kit, is not on the PATH'; exit 1; }
