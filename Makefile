# What a newcomer runs: make help lists it. The toolchain's `rt` is on the PATH.
PREFIX ?= /usr/local
PYTHON ?= python3

# A folder with names.csv, script.csv and a sheet in each other CSV file. Folders and files may have blanks in their names.
WORKBOOK ?= examples/mix
export WORKBOOK

program = crates/opensolver
built = $(program)/out/opensolver

# The programs of the repository.
programs = opensolver optcheck

bin = $(DESTDIR)$(PREFIX)/bin
man = $(DESTDIR)$(PREFIX)/share/man/man1
completions = $(DESTDIR)$(PREFIX)/share/bash-completion/completions

# Runs the program over the workbook, by the words that stand before the program's own. No list of make's holds the files.
define over_workbook
folder=$$(cd "$$WORKBOOK" && pwd) || exit 2; \
for file in names.csv script.csv; do test -f "$$folder/$$file" || { echo "$$folder has no $$file."; exit 2; }; done; \
set --; for sheet in "$$folder"/*.csv; do \
case "$$sheet" in "$$folder/names.csv" | "$$folder/script.csv") ;; *) set -- "$$@" "$$sheet" ;; esac; done; \
cd $(program) && $(1) -- --names "$$folder/names.csv" "$$@" < "$$folder/script.csv"
endef

needs_build = test -x $(built) || { echo 'Nothing is built yet: make run proves and builds the program first.'; exit 1; }

.PHONY: help run test try examples install uninstall

help:
	@echo 'make try         compiles the program without any proof and runs a workbook: three to five minutes, each time'
	@echo 'make run         proves both programs, builds them and runs a workbook: long from nothing, then seconds'
	@echo 'make examples    runs the workbooks of examples/, the scripts of tools/ and the commands of the pages, and compares'
	@echo 'make test        the gate: every proof, every edit that must be refused, every test and the run of the program'
	@echo 'make install     copies what make run built, its manual page and its completion for bash below PREFIX'
	@echo 'make uninstall   takes these files away'
	@echo ''
	@echo 'try and run take WORKBOOK=FOLDER (now $(WORKBOOK)): names.csv, script.csv and a CSV file for each sheet.'
	@echo 'install and uninstall take PREFIX=FOLDER (now $(PREFIX)) and DESTDIR=FOLDER; examples takes PYTHON=PROGRAM.'

# Proves both programs, builds them, and runs the workbook's script and a check.
run:
	@$(call over_workbook,rt run)
	@cd crates/optcheck && rt run -- --names "$$PWD/data/names.csv" --cert "$$PWD/data/cert.txt" "$$PWD/data/plan.csv"

# The gate: every proof, every edit that must be refused, every test and the program's run.
test:
	rt ci

# Compiles the program without any proof and runs the workbook's script.
try:
	@echo 'This run proves nothing: make run proves the program first.'
	@$(call over_workbook,rt try)

# Runs the example workbooks, the tools and the commands of the pages with the program that `make run` built, and compares.
examples:
	@$(needs_build)
	$(PYTHON) examples/run.py $(built)
	$(PYTHON) examples/run_tools.py $(built)
	$(PYTHON) examples/run_pages.py $(built)

# Copies the programs that are built, and what belongs to them.
install:
	@$(needs_build)
	@for name in $(programs); do \
	if test -x crates/$$name/out/$$name; then install -D crates/$$name/out/$$name "$(bin)/$$name" || exit 1; else echo "$$name is not built, so it is left out."; fi; done
	install -D -m 644 share/opensolver.1 "$(man)/opensolver.1"
	install -D -m 644 share/optcheck.1 "$(man)/optcheck.1"
	install -D -m 644 share/opensolver.bash "$(completions)/opensolver"

# Takes away what `make install` copied.
uninstall:
	@for name in $(programs); do rm -f "$(bin)/$$name"; done
	rm -f "$(man)/opensolver.1" "$(man)/optcheck.1" "$(completions)/opensolver"
