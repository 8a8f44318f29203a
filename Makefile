# make plan      builds the bench program and runs the example of document 01 (the first time it proves for some minutes)
# make test      every test: the proofs, the must-fail edits and the programs' runs, then the host tests
# make tools     the desk's and the tenant's programs, in C
# make lines     the proved programs on outputs and inputs that fail: no line is lost
# make hire      an example hire from end to end: desk, shelf, tenant
# make install   programs, header, library and manual pages to PREFIX (/usr/local), below DESTDIR if it is given
# make compare   20,000 inputs (COUNT) to each program and to the second program
# make fuzz      12,000 damaged inputs (INPUTS) to the C programs, under the sanitizers; SEED (1) chooses which
# make edits     every wrong program and wrong promise on file, those that `make test` leaves out among them
# make race      the benchmark against LEMON; `race/run docs` also puts its tables into docs/SPEED.md
# make landing   what the last commit moved, the check's time and the instructions before and after it; BASE=.. AFTER=.. for others
# make help      this list
.PHONY: plan test programs library tools lines hire install second second-tests stored-runs readable host-tests compare fuzz edits race landing help FORCE

# All paths are relative: the folder's own may have blanks in it.
LIBRARY := target/staticlib/libdesk.a
SECOND := target/second/release/second
RT ?= rt
CARGO ?= cargo
PREFIX ?= /usr/local
COUNT ?= 20000
INPUTS ?= 12000
SEED ?= 1

# $(call need,PROGRAM,WHAT FOR): says what is missing, and ends.
need = @command -v $(1) >/dev/null 2>&1 || { echo "make: $(1) is missing: $(2)" >&2; exit 2; }
need-rt = $(call need,$(RT),it proves and builds the programs and the library; put the Rattle kit on the PATH)
need-cc = $(call need,$(firstword $(CC)),it builds the desk and tenant programs; install a C compiler or set CC)
need-cargo = $(call need,$(CARGO),it builds the second program that the tests compare with; install Rust's cargo)

# $(call files,NAME): what a crate is proved from, its own files and those of the crates that it uses.
files = $(shell awk -F: -v want=$(1) '/^[a-z]/ { split($$1, word, " "); name[++n] = word[1]; uses[n] = $$2 } END { in_use[want]; \
	for (i = n; i > 0; i--) if (name[i] in in_use) { print "crates/" name[i]; \
	k = split(uses[i], u, " "); for (j = 1; j <= k; j++) in_use[u[j]] } }' crates.txt \
	| xargs -I{} find {} -type f -not -path '*/must-fail/*' -not -path '*/wrong/*' -not -path '*/out/*' 2>/dev/null | sort) crates.txt

# The sum of these files is written anew only when it is another: what was made from them is then out of date, and else not.
target/%.sum: FORCE
	@mkdir -p target
	@cat $(call files,$*) | sha256sum >$@.new; if cmp -s $@.new $@; then rm $@.new; else mv $@.new $@; fi
.PRECIOUS: target/%.sum
FORCE:

# $(call rt,CRATE,WORD): runs rt in a crate's folder, and tells each crate that it proves as it comes to it; all that rt says is in
# target/CRATE.log.
define rt
@mkdir -p target
@{ (cd crates/$(1) && $(RT) $(2)) 2>&1 || echo failed; } | tee target/$(1).log \
	| awk '/^rt: chose --jobs/ { print "proving " $$NF; fflush() }' >&2; \
	test "$$(tail -n 1 target/$(1).log)" != failed || { cat target/$(1).log >&2; exit 1; }
endef

plan: target/bin/bench
	@./target/bin/bench <crates/bench/stdin

# The proved programs. rt run proves, builds and runs one, on the input that lies beside its source.
target/bin/bench target/bin/shelf: target/bin/%: target/%.sum
	$(need-rt)
	@echo 'Proving the $* program and the crates it uses: some minutes, the first time.' >&2
	$(call rt,$*,run)
	@mkdir -p target/bin && cp crates/$*/out/$* $@

programs: target/bin/bench target/bin/shelf

# The library for C: the crate desk_c, which exports what desk does, under the name that C callers link.
library: $(LIBRARY)
$(LIBRARY): target/desk_c.sum
	$(need-rt)
	@echo 'Proving the library for C: some minutes, the first time.' >&2
	$(call rt,desk_c,lib)
	@mkdir -p target/staticlib && cp crates/desk_c/out/libdesk_c.a $@

tools: $(LIBRARY)
	$(need-cc)
	@$(MAKE) -s --no-print-directory -C hosts

# The shelf after the tools: of two runs of rt at once, one would wait for the other.
hire: tools
	@$(MAKE) -s --no-print-directory target/bin/shelf
	@examples/hire.sh

install: tools
	@$(MAKE) -s --no-print-directory target/bin/shelf
	@$(MAKE) -s --no-print-directory -C hosts install PREFIX="$(PREFIX)" DESTDIR="$(DESTDIR)"

# After the proofs: the trials need the proved programs.
lines: programs
	tests/hosts/shelf-lines.sh

# The independent second program.
second:
	$(need-cargo)
	cd second && $(CARGO) build --offline --release --quiet

second-tests: second
	cd second && $(CARGO) test --offline --release --quiet
	$(SECOND) vectors second/vectors/sheets.txt

# The programs' stored runs are the second program's answers; the shelf's is made of words and 4,000 generated calls. rt ci
# then holds the proved programs to them.
stored-runs: second
	$(SECOND) stream crates/shelf/run.txt | cmp - crates/shelf/stdin
	$(SECOND) shelf <crates/shelf/stdin | cmp - crates/shelf/stdout
	$(SECOND) bench <crates/bench/stdin | cmp - crates/bench/stdout

# Lines that can be read, papers that cite what is there, a reading list as long as it says.
readable:
	tests/layout.sh
	tests/papers.sh
	tests/reading

host-tests: $(LIBRARY) second-tests stored-runs readable
	$(need-cc)
	LIB=$(LIBRARY) SECOND=$(SECOND) SHELF='$(SECOND) shelf' sh tests/hosts/run.sh

compare: programs second
	$(SECOND) compare bench $(COUNT) 1 ./target/bin/bench
	$(SECOND) compare shelf $(COUNT) 1 ./target/bin/shelf

fuzz: $(LIBRARY)
	$(need-cc)
	@LIB=$(LIBRARY) sh tests/hosts/fuzz.sh $(INPUTS) $(SEED)

edits:
	$(need-rt)
	tests/edits.sh

race: programs
	race/run

landing:
	@tests/landing $(BASE) $(AFTER)

# rt ci comes first, on the tree as it was checked out, and its closing lines come last.
test:
	$(need-rt)
	RT="$(RT)" tests/gate.sh
	$(MAKE) -j2 --output-sync=target --no-print-directory host-tests
	@tail -n 2 target/ci.log

help:
	@sed -n 's/^# \(make [a-z]* .*\)/\1/p' Makefile
