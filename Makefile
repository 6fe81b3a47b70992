# The program and its tests. A machine needs the proof kit's command `rt` (with the Python 3 that it needs itself) and GNU
# make, nothing else; `bench` needs more (bench/README.md), and so does the service (docs/SERVICE.md).

.PHONY: run demo prove build claim test quick scripts examples hostile bench smoke service service-test test-streams install install-program \
  install-service uninstall deb deb-test

# No file here is made by a rule that make has of its own; it would look for one for each source.
MAKEFLAGS += --no-builtin-rules

SHELL := /bin/bash
.SHELLFLAGS := -o pipefail -c

PREFIX ?= /usr/local
# What proves and builds a program; the test of this file puts another command in its place.
PROVE ?= tools/prove
# (A user's WAGONS names another program: make would hand one of its own on in its place.)
BUILT = out/wagons
# What `wagons` is made from: sources with their folders, and out/wagons.with, which has the kit's line and the program's
# own lines of crates.txt.
SOURCES := $(shell tools/sources wagons)

# Shows the program at work: the proved one where it is built; else first a build with nothing proved, and then it is
# proved and built.
run:
	@if $(MAKE) -q $(BUILT); then tools/play; else tools/play --unproved && $(MAKE) --no-print-directory prove; fi

# Shows the program at work through a build with nothing proved, in one to three minutes, and leaves nothing behind.
demo:
	@tools/play --unproved

# Proves all that the program stands on and builds it, where that has changed. Interrupted, it goes on where it was.
prove: $(BUILT)
	@echo "the proved program: $(CURDIR)/$(BUILT)"

build: prove

$(BUILT): $(SOURCES)
	@$(PROVE) wagons

# Compares the manual of refusals with what `wagons explain` must print, the picture of the crates with crates.txt, and the
# version with the sources that it names; tries
# what this file says of sources, the completion for bash, and that the definitions of the claims are found; proves every crate
# from nothing, tries the wrong bodies that must fail, runs every test and the programs on their stored files; then tries the
# program that was built so on the pages' commands, by hostile use, in the benches at their smallest size, under the service,
# and in Debian's packages; Python's types come first. `make` need not build it again. The last line is that of `rt ci`.
test:
	@tools/part --pace
	@tools/try_pages
	@tools/crate_map --check
	@tools/version --check
	@sed '1,/^\$$ wagons explain$$/d;$$d' crates/wagons_scripts/data/explain.script | cmp docs/REFUSALS.md -
	@tools/try_make
	@tools/try_completions
	@tools/claim
	@tools/wrong_bodies --read
	@mkdir -p out && touch out/tested
	@tools/part "rt ci: every proof from nothing (bench/README.md has its time)"
	@rt ci | tee out/test.log; status=$$?; tools/verdict --note out/test.log && exit $$status
	@for program in wagons benches; do \
	  cp crates/$$program/out/$$program out/$$program.new && touch -r out/tested out/$$program.new && mv out/$$program.new out/$$program || exit 1; \
	done
	@tools/part "the types of the Python files, by mypy"
	@tools/try_types
	@tools/part "each line gets its reply at once; the scripts; the commands of the examples' pages"
	@tools/try_replies $(BUILT)
	@tools/scripts $(BUILT)
	@WAGONS= examples/try
	@tools/part "the service with the program, a disk and a browser"
	@WAGONS= service/tests/run
	@tools/part "beside each other: wrong bodies, many in one check; calls whose requests for memory are refused; and the short form of make hostile, Debian's packages, the benches at their smallest size and Redis Streams, one after the other"
	@WAGONS= BENCH= TESTS=$(CURDIR)/crates/seat_tests/out/seat_tests_tests tools/side_by_side "nice tools/wrong_bodies --built" "nice hostile/run calls" "hostile/run --short && tools/try_deb && bench/smoke && service/stream_tests/run --kills 2"
	@tools/part "all parts have passed"
	@tools/part --table
	@tail -n 1 out/test.log

# Writes all that one must believe beside the kit, on one page each: out/claim.md of the headline, out/claim_run.md of what
# `wagons run` prints.
claim:
	@tools/claim

# For one who changes the code: checks each crate that changed (SINCE=REV: since a revision), runs its tests, and plays the
# scripts through a build with nothing proved.
quick:
	@tools/quick $(SINCE)

# Plays the scripts of crates/wagons_scripts/data through the program, in seconds.
scripts:
	@tools/scripts "$$(tools/program wagons)"

# Runs each command of the examples' pages and compares what it prints with what the page says.
examples:
	@examples/try

# Runs each script of bench once at its smallest size, which compares but times nothing.
smoke:
	@bench/smoke

# Times the program's words, the distances and the planner beside their peers, and a book beside itself. Each says which
# build it times and what it installs.
bench:
	@bench/check/run.sh
	@bench/solve/run.sh
	@bench/run/run.sh
	@bench/feed/run.sh
	@bench/distances/run.sh
	@bench/plan/run.sh
	@bench/book/run.sh
	@bench/save/run.py
	@bench/notes/run.py
	@bench/why/run.sh
	@bench/service/run.py
	@bench/page/run.py
	@bench/streams/run.sh

# Uses the program as nobody should, and prints what was tried, how often, and what was lost (see docs/HOSTILE.md).
hostile:
	@hostile/run

# Starts the service over the example day, and says which address to open (docs/SERVICE.md).
service:
	@examples/service/start

# Tests the service with the real program, a real disk and a real browser; it installs Debian's packages that it needs.
service-test:
	@service/tests/run

# Tests offices behind Redis Streams: servers, offices and routers are killed (docs/STREAMS.md). It installs what it needs too.
test-streams:
	@service/stream_tests/run

# Builds Debian's packages of what `install` installs, from the proved program, in out/deb (docs/RELEASE.md).
deb: $(BUILT)
	@tools/deb

# Tries the packages in a fresh Debian root, which debootstrap makes once.
deb-test:
	@tools/try_deb

SHARE = $(DESTDIR)$(PREFIX)/share
LIB = $(DESTDIR)$(PREFIX)/lib/wagons-service
# Where the units and zsh's completion go; Debian's packages have other folders for them.
UNITS = $(PREFIX)/lib/systemd/system
ZSH = $(PREFIX)/share/zsh/site-functions

install: install-program install-service

# The program, its manual page, its other pages with the examples that they use, and completions for bash, zsh and fish,
# under PREFIX.
install-program: $(BUILT)
	install -D -m 755 $(BUILT) $(DESTDIR)$(PREFIX)/bin/wagons
	install -D -m 644 docs/wagons.1 $(SHARE)/man/man1/wagons.1
	install -D -m 644 -t $(SHARE)/doc/wagons README.md CHANGELOG.md
	install -D -m 644 -t $(SHARE)/doc/wagons/docs docs/*.md docs/crates.svg docs/day.svg docs/fleet.svg docs/page.png
	install -D -m 644 -t $(SHARE)/doc/wagons/bench bench/README.md bench/LOG.md
	install -D -m 644 -t $(SHARE)/doc/wagons/examples examples/README.md examples/*.jsonl examples/*.py
	install -D -m 644 -t $(SHARE)/doc/wagons/examples/day examples/day/*
	install -D -m 644 -t $(SHARE)/doc/wagons/examples/faults examples/faults/*
	install -D -m 755 -t $(SHARE)/doc/wagons/examples/service examples/service/railway.py
	install -D -m 644 -t $(SHARE)/doc/wagons/examples/service examples/service/README.md examples/service/map.toml examples/service/movements.xml examples/service/tokens
	install -D -m 644 completions/wagons.bash $(SHARE)/bash-completion/completions/wagons
	install -D -m 644 completions/_wagons $(DESTDIR)$(ZSH)/_wagons
	install -D -m 644 completions/wagons.fish $(SHARE)/fish/vendor_completions.d/wagons.fish

# The service, the router, XML, their manual pages and their units, which systemd starts only when they are enabled.
install-service:
	install -D -m 755 -t $(DESTDIR)$(PREFIX)/bin service/wagons-service service/wagons-router service/wagons-xml
	install -D -m 644 -t $(LIB)/wagons_service service/wagons_service/*.py service/wagons_service/openapi.json
	install -D -m 644 -t $(LIB)/wagons_service/page_files service/wagons_service/page_files/*
	install -D -m 644 -t $(SHARE)/man/man1 service/wagons-service.1 service/wagons-router.1 service/wagons-xml.1
	install -D -m 644 -t $(SHARE)/doc/wagons/service service/offices.csv service/nginx.conf service/alerts.yml
	install -D -m 644 -t $(DESTDIR)$(UNITS) service/*.service
	sed -i 's#/usr/local/bin/#$(PREFIX)/bin/#g' $(patsubst service/%,$(DESTDIR)$(UNITS)/%,$(wildcard service/*.service))

uninstall:
	rm -f $(DESTDIR)$(PREFIX)/bin/wagons $(SHARE)/man/man1/wagons.1 $(SHARE)/bash-completion/completions/wagons \
	  $(DESTDIR)$(ZSH)/_wagons $(SHARE)/fish/vendor_completions.d/wagons.fish
	rm -f $(DESTDIR)$(PREFIX)/bin/wagons-service $(DESTDIR)$(PREFIX)/bin/wagons-router $(DESTDIR)$(PREFIX)/bin/wagons-xml \
	  $(SHARE)/man/man1/wagons-service.1 $(SHARE)/man/man1/wagons-router.1 $(SHARE)/man/man1/wagons-xml.1 \
	  $(patsubst service/%,$(DESTDIR)$(UNITS)/%,$(wildcard service/*.service))
	rm -rf $(SHARE)/doc/wagons $(LIB)
