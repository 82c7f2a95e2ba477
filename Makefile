# One word for each of the commands that are spread over the pages. `make check CRATE=sg_index` checks one crate.
.PHONY: help gate check rows hostile corpus strength bench live
PYTHON = python3

help:
	@sed -n 's/^\([a-z]*\):.*##/make \1 /p' Makefile

gate: ## every proof, wrong body, test and program, and the checks behind them
	bash .ci/run
check: ## one crate, CRATE=..
	cd crates/$(or $(CRATE),$(error name the crate: make check CRATE=sg_index)) && rt check
rows: ## interop/rows and examples, written anew
	cd interop && $(PYTHON) rows.py && $(PYTHON) examples.py
	for file in examples/demo-*.out; do of=$${file#examples/demo-}; of=$${of%.out}; \
	  $(PYTHON) interop/demonstration.py $${of%%-*} $${of#*-} > $$file || exit; done
hostile: ## the program that is built, used badly
	.ci/refused-memory && .ci/hostile && .ci/hostile-relay
corpus: ## captures, short scripts, the borders of 2^30 octets and the deepest stack, by the program that is built: once a release, an hour of one processor at the most
	$(PYTHON) interop/corpus.py crates/srtpgw/out/srtpgw
	$(PYTHON) interop/deepest.py crates/srtpgw/out/srtpgw || [ $$? -eq 77 ]
	$(PYTHON) interop/captured_live.py crates/srtpgw/out/srtpgw || [ $$? -eq 77 ]
strength: ## the wrong bodies that the gate doesn't try, of all crates or of CRATE=..
	scripts/strength $(CRATE)
bench: ## speed beside libsrtp
	bench/run.sh
live: ## other people's programs talk through the gateway; one whose programs are missing says so
	for one in examples/live/*.sh; do [ "$$one" = examples/live/needs.sh ] || "$$one" || [ $$? -eq 77 ] || exit 1; done
