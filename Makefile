.DEFAULT_GOAL := help
.PHONY: help setup try demo build test check lint definitions commands mutants page-test postgres-test package package-test

help: ## this list
	@awk -F ':.*## ' '/^[a-z-]+:.*## / { printf "make %-13s %s\n", $$1, $$2 }' Makefile

# As root. `make setup test` is what CI runs.
setup: ## installs the Debian packages that the lints and the tests want
	@tools/setup

# It prints the path of the program.
try: ## in minutes and without any proof: the program, to try it out
	@tests/try

# It takes the proved program, or else the unproved one, and needs no nginx, password or certificate.
demo: ## the buyers' page with the desk of a shop's week, on this machine alone
	@tools/demo

# 'make test' does not repeat these proofs, if the toolchain keeps any.
build: ## proves and builds the program, crates/onixdesk/out/onixdesk
	@tools/build

# Every proof, the edits that the prover must refuse, the tests of the libraries, and the program as two compilers build
# it: 'N passed, M failed'. Then the tests of the desks run with memory refused, and tests from outside run the program,
# the page in a browser and the tables in PostgreSQL. It first names what it leaves out because a tool is missing.
test: ## the gate: all that is proved and tested
	@tests/gate

check: lint ## in minutes: the lints, and the tests of the built program
	@tests/run

lint: ## looks over the Python, the shell, the JavaScript, and the Rattle as far as that needs no proof
	@tools/lint

definitions: ## writes docs/DEFINITIONS.md, which git does not keep
	tools/python -m tools.specs.page

# It asks the program of 'make try'.
commands: ## writes docs/COMMANDS.md, which git does not keep
	tools/python -m tools.commands

# The prover must refuse these too.
mutants: ## tries the mutants, wrong bodies that the gate leaves out
	@tools/mutants

# tests/page/run names the Debian packages it needs. Before, node tries the page's modules, if it is installed. The last
# line is 'page: N cases, M failed'.
page-test: ## the buyers' page in a browser, before nginx and the built program
	@tests/page/modules/run
	@tests/page/run

# tests/postgres/run names the Debian packages it needs. The last line is 'postgres: N cases, M failed'.
postgres-test: ## the tables and functions in PostgreSQL, on a cluster of the tests' own
	@tests/postgres/run

# Of the commit; it includes the page of definitions.
package: ## dist/onixdesk_VERSION_amd64.deb, of the built program
	@packaging/build

package-test: ## that package in a clean Debian, as root and over the network
	@packaging/try-in-debian
