# The commands of the project; `make` alone lists them, and CONTRIBUTING.md says more of each.
.PHONY: help test edits believed library programs compare bench host command demo install uninstall prebuilt browser

# A relative folder is meant from here, and cargo builds each crate in the crate's own.
ifdef MOLANGX_SRC
override MOLANGX_SRC := $(abspath $(MOLANGX_SRC))
export MOLANGX_SRC
endif

# The folder of an archive that `bench` times beside the library.
ifdef SORBRUDDER_BEFORE
override SORBRUDDER_BEFORE := $(abspath $(SORBRUDDER_BEFORE))
export SORBRUDDER_BEFORE
endif

help:
	@echo 'make command    builds the command host/target/release/sorbrudder'
	@echo 'make demo       writes sample archives to target/sample, and checks, compares, lifts, draws and reports on them'
	@echo 'make install    installs the command with its man page and completions, the programs but liftlists, the library, its header' \
	    'and its pkg-config file (PREFIX=/usr/local DESTDIR=)'
	@echo 'make uninstall  takes them away again (the same PREFIX and DESTDIR)'
	@echo 'make library    proves the library and builds it, where something changed; without rt the prebuilt one is used'
	@echo 'make programs   proves the programs everylist, liftcount, liftlists and treelist and builds them, to target/bin'
	@echo 'make host       runs the tests of the host crate'
	@echo 'make browser    looks at the pages of draw and report in a headless Chromium, and takes screenshots'
	@echo 'make test       the gate: rt ci, which takes long where nothing is proved yet, the Rust tests and all that is looked at besides'
	@echo 'make compare    compares the library and the programs with the Rust parser (LISTS=5000000 SEED=1)'
	@echo 'make bench      times reading, writing, stack order, lifting and the programs' \
	    '(SORBRUDDER_BEFORE=folder of an archive to time beside)'
	@echo 'make edits      tries the must-fail edits that the gate leaves out, some 45 minutes on four processors'
	@echo 'make believed   writes docs/BELIEVED.md, what must be believed, with its lines'
	@echo 'make prebuilt   fills prebuilt/ with the library and the programs as they are proved here'

test:
	@tools/gate.sh

# The must-fail edits that the gate leaves out for its time.
edits:
	@tools/more-edits.sh

# What a reader of the promises must believe, with its lines: docs/BELIEVED.md.
believed:
	@tools/believed.py

# The proved static library. It is built again only where something that it is proved from changed.
LIBRARY := target/staticlib/libsorbrudder.a
library: $(LIBRARY)

$(LIBRARY): crates.txt $(shell find crates -name must-fail -prune -o -path 'crates/*/out' -prune -o -type f -print)
	@tools/library.sh

# The programs, to target/bin. What is proved already is not proved again.
programs:
	@tools/programs.sh

# The library and the programs as they are proved here, for machines without rt; the gate compares them with what it builds.
prebuilt: library programs
	@tools/prebuilt.sh

LISTS ?= 5000000

compare: library
	@cd compare && cargo run --release --offline --quiet --bin compare $(LISTS) $(SEED)

bench: library
	@cd host && cargo bench --offline --quiet --bench lift
	@cd compare && cargo run --release --offline --quiet --bin bench

host: library
	@cd host && cargo test --release --offline

command: library
	@cd host && cargo build --release --offline --quiet --bin sorbrudder

demo: command
	@tools/demo.sh

browser: command
	@tools/browser.sh

PREFIX ?= /usr/local
DESTDIR ?=
install: command
	@tools/install.sh '$(DESTDIR)' '$(PREFIX)'

uninstall:
	@tools/install.sh --remove '$(DESTDIR)' '$(PREFIX)'

include tools/definition-check.mk
