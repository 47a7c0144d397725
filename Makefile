# `make test` is the whole test command; `make demo` shows the main job on the sample image; `make face` tries the C header, the Rust crate and the
# examples; `make repair` makes the program that repairs a block, and tries it; `make compare` asks the crate mf4-rs as well, and `make bench` takes the
# speed beside it.
KIT := $(shell cat KIT)

# The comparison: N cases from SEED on, the folder of the crate's source, and the folder of the packages that the source needs.
N ?= 8000000
SEED ?= 1
MF4_SOURCE ?= ../shared/docs/src/src
CARGO_REGISTRY ?= /usr/share/cargo/registry
export MF4_SOURCE CARGO_REGISTRY

.PHONY: test demo face repair compare sharp record bench kit

# The gate comes first and proves everything that it has not passed here yet; a must-fail edit that it could not try fails it here too. The faces and the comparison
# then link what rt builds of the same files; the comparison runs where its source and packages are at hand, or can be installed, and is otherwise
# named in one line. The gate's verdict is said again at the end.
test: kit
	@tools/cited docs/RULES.md
	@said="$$(mktemp)"; { rt ci 2>&1; echo "$$?" > "$$said.status"; } | tee "$$said"; \
	verdict="$$(tail -n 1 "$$said")"; status="$$(cat "$$said.status")"; bad="$$(grep -E '^rt: ok.*, [1-9][0-9]* bad' "$$said")"; \
	rm -f "$$said" "$$said.status"; \
	[ "$$status" = 0 ] || exit 1; \
	if [ "$$bad" ]; then echo "must-fail edits that could not be tried, as told above: mend them"; exit 1; fi; \
	$(MAKE) --no-print-directory face repair && compare/run --if-possible run $(N) $(SEED) && echo "$$verdict"

# The program is proved before it is run. It is shown which crate is being proved, k of n; what the prover says is kept in target/demo.log.
demo: kit
	@mkdir -p target; echo "Proving the program before it runs: some minutes the first time."
	@tools/progress target/demo.log show_values rt run < /dev/null || { tail -n 20 target/demo.log; exit 1; }
	@if tools/run; then tools/run crates/show_values/out/show_values < crates/show_values/stdin; else echo "demo: no emulator here, so not run: show_values"; fi

# The archive that C and Rust link is proved before it is built, and shown likewise; what the prover says is kept in target/face.log.
face: kit
	@mkdir -p target; echo "Proving what C and Rust link: some minutes the first time."
	@tools/progress target/face.log 'gateway_c invert_c' ../../tools/archive || { tail -n 20 target/face.log; exit 1; }
	@sh face/test.sh

# The program of crate repair_block, proved, and run on inputs whose answers tools/repaired.py works out.
repair: kit
	@mkdir -p target/bin; tools/progress target/repair.log repair_block rt run < /dev/null || { tail -n 20 target/repair.log; exit 1; }
	@cp crates/repair_block/out/repair_block target/bin/
	@if ! command -v python3 > /dev/null; then echo "repair: no python3 here, so not run: repair_block on its inputs"; \
	elif ! tools/run; then echo "repair: no emulator here, so not run: repair_block on its inputs"; \
	else tools/repaired.py target/bin/repair_block; fi

compare: kit
	@compare/run run $(N) $(SEED)

# Is the comparison sharp? Each of the wrong builds in compare/WRONG-BUILDS.md has to be caught.
sharp: kit
	@compare/run sharp $(SEED)

# Makes the recorded answers of the program replay anew.
record: kit
	@compare/run record crates/replay 300 $(SEED)

# The speed beside the crate: docs/BENCHMARKS.md says how it is taken.
bench: kit
	@compare/run bench

# Says so where another kit is found than the one that the project was proved with.
kit:
	@found="$$(rt version 2>/dev/null)"; \
	if [ -z "$$found" ]; then echo "no Rattle kit: the command rt is not on the PATH"; exit 1; fi; \
	if [ "$$found" != "$(KIT)" ]; then echo "another kit: proved with '$(KIT)', found '$$found'"; fi
