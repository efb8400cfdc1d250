PREFIX ?= /usr/local
PROGRAM = crates/gds/out/gds
ROOT = $(DESTDIR)$(PREFIX)

.PHONY: build test check install dist

# proves the program and what it stands on, and builds it
build:
	tools/prove

# the gate: every proof, every test, and the built program on real files
test:
	.ci/run

# which names of crates.txt no file of their crate uses
check:
	tools/check_crates

install: build
	install -D -m 755 $(PROGRAM) $(ROOT)/bin/gds
	install -D -m 644 dist/gds.1 $(ROOT)/share/man/man1/gds.1
	install -D -m 644 dist/gds.bash $(ROOT)/share/bash-completion/completions/gds

# an archive for machines without the toolchain; README.md says how to install it there
dist: build
	rm -rf out/noebulis
	$(MAKE) install DESTDIR=out PREFIX=/noebulis
	install -D -m 644 -t out/noebulis/share/doc/noebulis docs/MANUAL.md docs/FAULTS.md
	tar -C out -czf out/noebulis.tar.gz noebulis
	rm -rf out/noebulis
