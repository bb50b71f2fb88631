# What the README tells: run and test; the library for C and Rust; the example host; a real kernel as its client.
.PHONY: run test programs library host kernel

# A tape as text (NAME.txt, see reference/README.md), or as bytes.
TAPE ?= tapes/late-picture.txt

# Proves and builds the programs, and replays a tape: what it tells, and the lines that the box answers with.
run:
	@echo "proving and building (some minutes the first time)"
	@$(MAKE) --no-print-directory programs
	@cargo build --quiet --release --offline --manifest-path reference/Cargo.toml
	@case "$(TAPE)" in \
	*.txt) sed -n 's/^# *//p' "$(TAPE)" && echo && \
	    reference/target/release/assemble < "$(TAPE)" > target/run.tape && target/bin/replay < target/run.tape ;; \
	*) target/bin/replay < "$(TAPE)" ;; \
	esac

# The programs replay and trace, proved: rt run leaves a program in its crate's out/ once it has run, here on a tape with no record.
programs:
	@mkdir -p target/bin
	@for it in replay trace; do \
	    (cd crates/$$it && rt run < /dev/null) > target/run.log 2>&1 || { cat target/run.log; exit 1; }; \
	    cp crates/$$it/out/$$it target/bin/$$it || exit 1; \
	done

# The gate: every proof, every must-fail edit, every test.
test:
	@.ci/run

# Proves the engine and makes the archive of include/rimemaple.h.
library:
	@mkdir -p target/lib
	@(cd crates/capi && rt lib) > target/lib/log 2>&1 || { cat target/lib/log; exit 1; }
	@cp crates/capi/out/libcapi.a target/lib/librimemaple.a
	@echo "target/lib/librimemaple.a"

# The example host (hosts/README.md): target/bin/deckhost.
host: library
	@$(MAKE) --no-print-directory -C hosts

# A real kernel as the host's client (kernel/README.md); not a part of the gate, since it downloads that kernel.
kernel: library programs
	@kernel/check
