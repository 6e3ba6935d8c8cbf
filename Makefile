# make demo        plans and checks a service of two sites, by the released program or by the one built here
# make try ARGS='plan --settings F ..'    runs the program on your own files, without an installation
# make install     installs the programs and hsp below $(PREFIX) with manual pages, completions and guide;
#                  with PROVED=1 the program is proved and built first
# make uninstall   removes what make install put there
# make prove       proves the program's crates from nothing, and builds the program
# make release     writes the folder release: the programs that were proved and built here, and their sums
# make deb         makes a package of Debian in out/, of the programs built here or else of the released ones
# make archive     makes an archive in out/ in the same way
# make quick       runs the checks that need no built program: documents, examples, completions, types
# make check       runs what needs no kit, over the released programs: documents, examples, hsp, cases, random inputs
# make test        runs the whole gate: the checks of documents and examples, every proof from nothing,
#                  every test and every must-fail edit; without the kit it is `make check`, and ends with an error
# make scripts     runs the checks of the programs that are built here, which end `make test`
# make mutants     checks that each wrong body of mutants/ is refused by its test or case; outside the gate
# make fuzz N=..   gives the built programs N inputs that are changed at random; outside the gate

MAKEFLAGS += --no-print-directory
PREFIX ?= /usr/local
DESTDIR ?=

# HSPLAN and HSPLAN_STREAM name the programs that a check tries. Here these are the ones that are built.
unexport HSPLAN HSPLAN_STREAM

.PHONY: demo try install uninstall prove release deb archive quick check test gate scripts unproved mutants fuzz

demo:
	@tools/demo.py

try:
	@tools/try.py --from-make $(ARGS)

install: $(if $(PROVED),prove)
	@tools/install.py --prefix "$(PREFIX)" --destdir "$(DESTDIR)"

uninstall:
	@tools/install.py --prefix "$(PREFIX)" --destdir "$(DESTDIR)" --uninstall

prove:
	@tools/prove.py

release:
	@tools/make_release.py

deb:
	@tools/make_package.py deb

archive:
	@tools/make_package.py archive

quick:
	tools/gate/packages.py
	tools/gate/make_examples.py --check
	tools/pictures/draw.py --check
	tools/gate/check_docs.py --names
	tools/gate/list_reading.py --check
	tools/gate/list_calls.py --check
	tools/gate/write_grammar.py --check
	tools/gate/check_manual.py
	tools/gate/check_completions.py
	tools/gate/check_modules.py
	tools/gate/check_tools.py

check:
	@tools/check.py

test: $(if $(shell command -v rt 2> /dev/null),gate,unproved)

unproved:
	@tools/check.py --unproved

# The checks that need no built program run before the proofs.
gate: quick
	RT_JOBS=$${RT_JOBS:-$$(tools/gate/lanes.py)} rt ci
	@tools/check.py --built

# The checks of the programs that are built here, one after the other. The gate runs them side by side.
scripts:
	tools/gate/check_docs.py
	tools/gate/check_examples.py
	tools/gate/check_install.py
	tools/gate/check_release.py
	tools/gate/check_deb.py
	tools/gate/check_growth.py
	tools/gate/check_program.py
	tools/gate/check_stream.py
	tools/gate/check_companion.py
	tools/gate/check_hostile.py
	tools/gate/check_limits.py
	tools/gate/check_io.py

mutants:
	tools/fuzz/mutants.py

fuzz:
	tools/fuzz/fuzz.py --cases $(or $(N),100000)
