# Builds, tests and installs Haspeljo with GNU make. README.md has the targets.

PREFIX = /usr/local
DESTDIR =

version := $(shell sed -n 's/^version = "\(.*\)"$$/\1/p' rust/Cargo.toml)
sources := crates.txt $(shell find crates \( -name must-fail -o -name out \) -prune -o -type f -print)
program = cli/target/release/haspeljo
example = \254\002\002ab\006\000\001\000\000\000\001\000\002\004\001\000\000\000\000

# As for rust/sys/build.rs, the variable names the folder of an archive that is there, seen from rust/.
ifdef HASPELJO_LIB_DIR
library := $(shell cd rust && realpath "$(HASPELJO_LIB_DIR)")/libhaspeljo.a
else
library = target/staticlib/libhaspeljo.a
endif

prefix = $(DESTDIR)$(PREFIX)
bash = $(prefix)/share/bash-completion/completions/haspeljo
zsh = $(prefix)/share/zsh/site-functions/_haspeljo
fish = $(prefix)/share/fish/vendor_completions.d/haspeljo.fish

.PHONY: all library program report test gate install install-library install-program uninstall

all: program

library: $(library)

# rt lib proves the crate and those below it.
target/staticlib/libhaspeljo.a: $(sources)
	cd crates/haspeljo_c && rt lib
	mkdir -p target/staticlib
	cp crates/haspeljo_c/out/libhaspeljo_c.a $@

program: library
	cd cli && cargo build --release --offline --target-dir target

# The statuses 1 and 3 say how a session ends; from 4 on the capture was not read.
report: program
ifdef FILE
	@$(program) report "$(FILE)" || [ $$? -lt 4 ]
else
	@printf '$(example)' | $(program) report
endif

test: library
	rust/test
	cd cli && cargo test --release --offline --target-dir target

gate:
	.ci/run

install: install-library install-program

install-library: library
	install -d "$(prefix)/lib/pkgconfig" "$(prefix)/include" "$(prefix)/share/doc/haspeljo"
	install -m 644 "$(library)" "$(prefix)/lib/libhaspeljo.a"
	install -m 644 rust/include/haspeljo.h "$(prefix)/include/haspeljo.h"
	sed 's|@PREFIX@|$(PREFIX)|; s|@VERSION@|$(version)|' haspeljo.pc.in > "$(prefix)/lib/pkgconfig/haspeljo.pc"
	install -m 644 LICENSE NOTICE "$(prefix)/share/doc/haspeljo"

install-program: program
	install -d "$(prefix)/bin" "$(prefix)/share/man/man1" "$(dir $(bash))" "$(dir $(zsh))" "$(dir $(fish))"
	install -m 755 $(program) "$(prefix)/bin/haspeljo"
	cli/man $(program) "$(prefix)/share/man/man1"
	$(program) completions bash > "$(bash)"
	$(program) completions zsh > "$(zsh)"
	$(program) completions fish > "$(fish)"

uninstall:
	rm -f "$(prefix)/lib/libhaspeljo.a" "$(prefix)/include/haspeljo.h" "$(prefix)/lib/pkgconfig/haspeljo.pc"
	rm -f "$(prefix)/bin/haspeljo" "$(prefix)"/share/man/man1/haspeljo.1 "$(prefix)"/share/man/man1/haspeljo-*.1
	rm -f "$(bash)" "$(zsh)" "$(fish)"
	rm -rf "$(prefix)/share/doc/haspeljo"
