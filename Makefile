# make run: the program on the base job, proved first. make prove: the proofs alone. make test: the gate.
# make ask TOWN=.. or JOB=..: a town by names, or a job of records, to the program. make city: a whole city to the library.
# make lib: the library for C. make install PREFIX=..: library, header and siltbrow.pc there.
# make soak: millions of cases through the C calls, SEED=.. CASES=.. if given. It prints the seed: with it a failure comes again.
# make fuzz: damaged tables, queries, rooms and jobs for an hour, SEED=.. SECONDS=.. if given.
# make edits: the wrong programs that the gate leaves out, CRATES=.. if given; all take more than an hour.
# make bench: the library's times beside those of two programs in Rust, and whether it bears the evening load. make figures: how many vertices it holds, into docs/.
PREFIX = /usr/local
INTO = $(DESTDIR)$(abspath $(PREFIX))
VERSION = $(shell sed -n 's/^.define SILTBROW_VERSION "\(.*\)"$$/\1/p' include/siltbrow.h)

export TOWN JOB ASK RAW BRIEF SVG GEOJSON TABLES STREETS RIDES CORNERS

.PHONY: run prove test ask city lib install soak fuzz edits bench figures

run: prove
	@bash -c '. tests/common && for_x86_64 && $$run target/bin/reach <crates/reach/stdin'

prove:
	@bash -c '. tests/common && prove reach'

test:
	@bash .ci/run

ask:
	@outside/ask ask

city:
	@outside/ask city

lib:
	@bash -c '. tests/common && library && echo "$$archive"'

install: lib
	@install -d "$(INTO)/lib/pkgconfig" "$(INTO)/include"
	@install -m 644 target/staticlib/libsiltbrow.a "$(INTO)/lib/"
	@install -m 644 include/siltbrow.h "$(INTO)/include/"
	@sed -e 's|@PREFIX@|$(abspath $(PREFIX))|' -e 's|@VERSION@|$(VERSION)|' include/siltbrow.pc.in >"$(INTO)/lib/pkgconfig/siltbrow.pc"
	@echo "siltbrow $(VERSION) is in $(INTO)"

soak:
	@bash tests/run/run $(or $(SEED),$(shell date +%s)) $(or $(CASES),3000000)

fuzz:
	@bash tests/fuzz/run $(or $(SEED),$(shell date +%s)) $(or $(SECONDS),3600)

edits:
	@bash tests/also-fail $(CRATES)

bench:
	@bench/run speed

figures:
	@bench/run figures
