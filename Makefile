# hg_pushd: see a push, build, test, measure.
#
#   make run         shows a push that Mercurial sent, its reply and the report: a few minutes, nothing proved. The
#                    program that it compiles stays at build/unproved/hg_pushd
#   make host-demo   an unmodified hg pushes to host, which is killed and started again
#   make serve-demo  shows the server with two clients; both demos run on what make build left, else on what make run did
#   make build       proves every crate and leaves the program at build/hg_pushd
#   make test        the gate: proves everything from nothing, tries the wrong bodies, runs the tests and the program
#   make test-all    proves everything from nothing, the tests too
#   make wrong-bodies, make run-tests   two parts of the gate by themselves
#   make try-install, make try-team   try the installation, and every command of docs/team.md in a room of its own
#   make try-clients   random pushes of three real clients to host, mirrored: a quarter of an hour
#   make try-cluster   a store on a Ceph cluster of this machine, and the end of each of its parts: two hours
#   make install     installs what was built below PREFIX (/usr/local), in DESTDIR where that is given
#   make deb         makes a Debian package of what was built
#   make docs        makes build/docs of the sources: the index, definitions, examples and wrong bodies
#   make bench       measures the program; bench/*/run.sh measure the crates below it

PROGRAM := build/hg_pushd
UNPROVED := build/unproved/hg_pushd
# what the demos run: the proved program where it is there
SHOWN := $(if $(wildcard $(PROGRAM)),$(PROGRAM),$(UNPROVED))
PREFIX ?= /usr/local
DESTDIR ?=
SOURCES := crates.txt $(shell find crates -name out -prune -o -type f \
	\( -name '*.rt' -o -name '*.antt' \) -print 2>/dev/null)

# a push that `hg push` sent
PUSHED := examples/pushes/first-changesets/01.hg20

.PHONY: run build serve-demo host-demo test test-all wrong-bodies run-tests docs \
	bench install deb man try-install try-team try-clients try-cluster clean \
	toolchain

run: $(UNPROVED)
	@bash examples/run.sh $(UNPROVED) $(PUSHED)

toolchain:
	@python3 tools/gate.py toolchain

$(UNPROVED): $(SOURCES)
	@$(MAKE) --no-print-directory toolchain
	@echo 'Compiling the program with checks and without proofs: two or three minutes.'
	@mkdir -p $(dir $@)
	@python3 bench/unproved.py --checks crates/hg_pushd $@

build: $(PROGRAM)

$(PROGRAM): $(SOURCES)
	@$(MAKE) --no-print-directory toolchain
	@echo 'Proving every crate. From nothing this takes half an hour to an hour and a quarter on four processors,'
	@echo 'by their speed; where crates did not change, some minutes.'
	@python3 tools/gate.py build
	@echo 'Building the program.'
	@cd crates/hg_pushd && python3 ../../tools/gate/once.py run -- one < ../../examples/first-push.hg20 > /dev/null
	@mkdir -p build
	@cp crates/hg_pushd/out/hg_pushd $(PROGRAM)
	@echo 'The program is at $(PROGRAM).'

serve-demo: $(SHOWN)
	@bash examples/serve-demo.sh $(SHOWN)

host-demo: $(SHOWN)
	@bash examples/host-demo.sh $(SHOWN)

test: toolchain
	@python3 tools/gate.py

# one process for each proof: left to itself, `rt ci` has the longest chain of crates wait for memory that it does
# not want
test-all: toolchain
	@RT_JOBS=$$(nproc) rt ci

wrong-bodies: $(PROGRAM)
	@python3 tools/wrong_bodies.py

run-tests: toolchain
	@python3 tools/gate.py tests

install: $(PROGRAM)
	@DESTDIR='$(DESTDIR)' PREFIX='$(PREFIX)' python3 tools/package.py install $(PROGRAM)
	@echo 'Installed below $(DESTDIR)$(PREFIX).'

deb: $(PROGRAM)
	@python3 tools/package.py deb $(PROGRAM)

man:
	@python3 tools/package.py manual build/manual $(if $(wildcard $(PROGRAM)),$(PROGRAM),--compiled)
	@echo 'The manual and the completions are in build/manual.'

try-install: $(PROGRAM)
	@bash tests/install.sh $(PROGRAM)

try-team: $(PROGRAM)
	@python3 tests/team.py $(PROGRAM)

try-clients: $(PROGRAM)
	@python3 tests/clients.py $(PROGRAM)

try-cluster: $(PROGRAM)
	@python3 tests/cluster.py $(PROGRAM)

docs:
	@python3 tools/documents.py
	@echo 'The lists are in build/docs.'

bench: $(PROGRAM)
	@bash bench/one.sh

clean:
	@rm -rf build crates/*/out
