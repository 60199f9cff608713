# make          proves every crate that the program needs, and builds bin/ordtx
# make run      prints the report of a day's ledger, by bin/ordtx or else by a build without proofs
# make test     runs every test of the crates and every case, without proofs
# make check    checks the crates that differ from the revision SINCE (HEAD), with their tests, and those that use them
# make prove    the gate: every proof from nothing, the must-fail edits, the tests, the programs; then `make try`
# make try      tries the built program: documents, command lines, failing devices, refused memory
# make bench    prints the figures of bench/
# make install  puts the program, its pages, the documents, the licences, the changelog and the examples into PREFIX/bin, PREFIX/share/man
#               and PREFIX/share/doc/ordtx, and completions for bash, zsh and fish where these look for them below PREFIX/share
RT ?= rt
PREFIX ?= /usr/local
SINCE ?= HEAD
PROGRAM := crates/ordtx_cli
SOURCES := crates.txt $(shell find crates \( -name '*.rt' -o -name '*.antt' \) -not -path '*/out/*')

.PHONY: all run test check prove try bench install clean

all: bin/ordtx

# Crate by crate. The program that was built prints its version.
bin/ordtx: $(SOURCES)
	@echo "Proving and building ordtx: some minutes the first time, fewer after an edit."
	RT=$(RT) tools/prove ordtx_cli --version
	cp $(PROGRAM)/out/ordtx_cli bin/ordtx

# A bin/ordtx that is newer than the sources is taken as it is.
run:
	@if $(MAKE) --silent --question bin/ordtx; then bin/ordtx run examples/ledger.json; \
	else RT=$(RT) tools/report examples/ledger.json; fi

test:
	RT=$(RT) tools/test

# For the daily loop: nothing is proved that an edit can't have touched.
check:
	RT=$(RT) tools/prove --since $(SINCE)

# `rt ci` leaves the programs that it proved and built: those are tried.
prove:
	@echo "Proving every crate from nothing, with its must-fail edits, tests and programs."
	@mkdir -p bin
	@date +%s > bin/begun
	$(RT) ci
	@echo "The proofs, must-fail edits, tests and programs took $$(( ($$(date +%s) - $$(cat bin/begun) + 30) / 60 )) minutes."
	cp crates/ordtx_cli/out/ordtx_cli bin/ordtx
	cp crates/tests_memory/out/tests_memory bin/tests_memory
	$(MAKE) try

try: bin/ordtx bin/tests_memory
	@echo "Trying the program: documents, command lines, failing devices, refused memory."
	tests/run bin/ordtx bin/tests_memory

bin/tests_memory: $(SOURCES)
	RT=$(RT) tools/prove tests_memory
	cp crates/tests_memory/out/tests_memory bin/tests_memory

bench: bin/ordtx
	RT=$(RT) bench/claims
	bench/run bin/ordtx
	bench/growth bin/ordtx
	if command -v sqlite3 > /dev/null; then bench/smallbank bin/ordtx; fi
	cd crates/bench_stages && $(RT) run > /dev/null
	bench/stages crates/bench_stages/out/bench_stages

install: bin/ordtx
	install -d $(DESTDIR)$(PREFIX)/bin
	install -m 755 bin/ordtx $(DESTDIR)$(PREFIX)/bin/ordtx
	install -d $(DESTDIR)$(PREFIX)/share/man/man1 $(DESTDIR)$(PREFIX)/share/man/man5
	install -m 644 docs/ordtx.1 $(DESTDIR)$(PREFIX)/share/man/man1/ordtx.1
	install -m 644 docs/ordtx.5 $(DESTDIR)$(PREFIX)/share/man/man5/ordtx.5
	install -d $(DESTDIR)$(PREFIX)/share/doc/ordtx/examples
	install -m 644 docs/*.md docs/*.svg docs/document.schema.json $(DESTDIR)$(PREFIX)/share/doc/ordtx
	install -m 644 LICENSE-MIT LICENSE-APACHE CHANGELOG.md $(DESTDIR)$(PREFIX)/share/doc/ordtx
	install -m 644 examples/*.* $(DESTDIR)$(PREFIX)/share/doc/ordtx/examples
	install -d $(DESTDIR)$(PREFIX)/share/bash-completion/completions
	install -m 644 completions/ordtx.bash $(DESTDIR)$(PREFIX)/share/bash-completion/completions/ordtx
	install -d $(DESTDIR)$(PREFIX)/share/zsh/site-functions
	install -m 644 completions/_ordtx $(DESTDIR)$(PREFIX)/share/zsh/site-functions/_ordtx
	install -d $(DESTDIR)$(PREFIX)/share/fish/vendor_completions.d
	install -m 644 completions/ordtx.fish $(DESTDIR)$(PREFIX)/share/fish/vendor_completions.d/ordtx.fish

clean:
	rm -rf bin crates/*/out
