# `rt`, the command of the Rattle toolchain, proves and builds the program. The tools need Python 3.11 or later.

PREFIX := /usr/local
PROGRAM := bin/ggp_manager
# The words after `mutations`, `unit` and `check`.
NAMED := $(if $(filter mutations unit check,$(firstword $(MAKECMDGOALS))),$(wordlist 2,$(words $(MAKECMDGOALS)),$(MAKECMDGOALS)))

.PHONY: help needs demo match play season competition build install uninstall dist lint test unit check mutations memory budget prove gate $(NAMED)

help:
	@echo 'To try the program, which is compiled first and not proved:'
	@echo '  make demo              a match of Countdown, text line by text line'
	@echo '  make match             a match over HTTP between two players on this computer, and its record'
	@echo '  make play              a match of tic-tac-toe that you play in a browser'
	@echo '  make season            a schedule of matches over HTTP on this computer'
	@echo '  make competition       a competition of three players that it starts: 12 matches, live pages, the table, the archive'
	@echo 'To use it:'
	@echo '  make build             proves the program and puts it at $(PROGRAM)'
	@echo '  make install           installs the proved program, the commands of python/ and their manual below $(PREFIX) (PREFIX=DIR)'
	@echo '  make uninstall         removes what make install has installed'
	@echo '  make dist              an archive of the proved program for computers without the Rattle toolchain'
	@echo 'To change it:'
	@echo '  make lint              layout, documents, tables, constants: seconds'
	@echo '  make test              the unit tests, the Python tests and the commands of README.md, with a program that is not proved'
	@echo '  make unit [NAME [TEST]]  the unit tests, those of a crate of tests/unit, or its tests whose names contain TEST'
	@echo '  make check [NAME..]    proves the crates, over cached proofs'
	@echo '  make mutations [NAME..]  tries the mutations of the crates: the prover must refuse each'
	@echo '  make memory            refuses each allocation in turn'
	@echo '  make prove             proves everything, and tries the must-fail edits'
	@echo '  make budget            what the proof of each crate costs'
	@echo '  make gate              make test, make lint, make prove, and the tests of the proved program'

needs:
	@command -v python3 > /dev/null || { echo 'ggp_manager: python3 is missing: install Python 3.11 or later, for example by apt-get install python3' >&2; exit 1; }

# `tools/program` prints the path of the proved program if that is up to date, else of one that is not proved, which it compiles.
demo: needs
	@program=$$(tools/program) && examples/side-by-side examples/games/countdown.script "$$program" desk --countdown 3

match: needs
	@program=$$(tools/program --match) && examples/play-a-match "$$program" examples/games/tictactoe.kif

play: needs
	@program=$$(tools/program) && examples/play-yourself "$$program" examples/games/tictactoe.kif

season: needs
	@program=$$(tools/program) && tests/program/season-crowd "$$program"

competition: needs
	@program=$$(tools/program) && examples/hold-a-competition "$$program"

build: needs
	@tools/build

install: build
	@tools/install --program $(PROGRAM) '$(DESTDIR)$(PREFIX)'

uninstall: needs
	@tools/install --remove '$(DESTDIR)$(PREFIX)'

dist: build
	@tools/dist

lint test: needs
	@tools/gate $@

unit: needs
	@tools/unit $(NAMED)

check: needs
	@tools/check $(NAMED)

mutations: needs
	@tools/edits $(NAMED)

memory: needs
	@tools/memory

budget: needs
	@tools/budget

prove: needs
	@tools/build --edits

gate: needs
	@.ci/run

# These names are arguments, not targets.
$(NAMED): ; @:
