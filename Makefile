# Builds, shows and tests the programs. Needs the kit's command `rt` on the path, but not for contrib and its tests.
PACE ?= crates/dtmx_pace/out/dtmx_pace
PREFIX ?= /usr/local

.PHONY: build demo test bench contrib contrib-test cli-test install

build:
	cd crates/dtmx_pace && rt run -- builtin=out/built.txt < stdin
	cd crates/word_cases && rt run
	cd crates/value_costs && rt run -- clashes 12

demo: build contrib
	contrib/xml2pyx examples/two_items.xml | $(PACE) builtin=crates/dtmx_pace/out/demo.txt
	@cat crates/dtmx_pace/out/demo.txt && echo

test:
	rt ci

bench: build contrib
	bench/lines.sh
	bench/scopes.sh
	bench/turns.sh
	bench/real.sh
	bench/items.sh
	bench/words.sh
	bench/values.sh
	bench/hostile.sh

# The programs between XML and the lines need a C compiler and expat, and their tests python3.
contrib:
	@$(MAKE) --no-print-directory -C contrib

contrib-test: contrib
	python3 contrib/test_pyx.py

# Runs dtmx_pace, as `make build` leaves it or as PACE names another, for each status, and the examples. Needs python3.
cli-test: contrib
	python3 contrib/test_cli.py

# Installs the programs between XML and the lines, and dtmx_pace where it is built.
install: contrib
	@$(MAKE) --no-print-directory -C contrib install PREFIX='$(PREFIX)' DESTDIR='$(DESTDIR)'
	@if [ -x $(PACE) ]; then install -m 755 $(PACE) '$(DESTDIR)$(PREFIX)/bin'; \
	else echo "dtmx_pace isn't built (make build), so it isn't installed"; fi
