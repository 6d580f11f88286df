# The commands, each by one word. Everything that they make goes to target/, and what rt makes to the crates' out/.

help:
	@echo 'make demo      proves and builds what it needs, seals the example diary, prints its outline'
	@echo 'make test      the gate, .ci/run: proves everything that has changed since it passed here, then tries the product'
	@echo 'make bench     times the store beside plain C and its peers'
	@echo 'make against   compares the library with the independent program for longer (SEED=7 MINUTES=10)'
	@echo 'make clean     removes target/ and the out/ of each crate'

# $(call step,WHAT,LOG,COMMAND): a line for WHAT. What COMMAND says goes to target/LOG.log, and its end is shown where it fails.
step = @printf '%s: ' '$(1)'; if ($(3)) >target/$(2).log 2>&1; then echo done; else echo 'failed. The end of target/$(2).log:'; tail -n 30 target/$(2).log; exit 1; fi
build-seal = gcc -std=c11 -Wall -Wextra -Werror -O2 -Iinclude examples/seal.c target/lib/libparlaqen.a -o target/examples/seal

demo:
	@mkdir -p target/examples
	$(call step,1. prove the outline program and all it needs (some minutes),demo-check,cd crates/outline && rt run </dev/null)
	$(call step,2. prove the library and make its archive for this machine,demo-archive,tools/archive)
	$(call step,3. build the example that seals,demo-build,$(build-seal))
	$(call step,4. seal examples/diary.txt,demo-seal,target/examples/seal examples/diary.txt target/examples/diary.plq)
	@echo '5. its outline: number and depth of each node and its number of children'
	@tools/run-program outline < target/examples/diary.plq

test:
	.ci/run

bench:
	bench/run

SEED = 7
MINUTES = 10
against: target/lib/libparlaqen.a
	cd against && CARGO_TARGET_DIR=$(CURDIR)/target/cargo cargo run --release --offline --locked -- --seed $(SEED) --minutes $(MINUTES)

target/lib/libparlaqen.a:
	tools/archive

clean:
	rm -rf target crates/*/out

.PHONY: help demo test bench against clean
