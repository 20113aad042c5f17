# What there is to make; `make` alone says it. README.md tells more.

# The version of all stands in Cargo.toml; its first number is that of the shared library.
VERSION := $(shell sed -n 's/^version = "\(.*\)"$$/\1/p' Cargo.toml)
SONAME := libalgebra.so.$(firstword $(subst ., ,$(VERSION)))
PREFIX ?= /usr/local
LIBDIR ?= $(PREFIX)/lib
INCLUDEDIR ?= $(PREFIX)/include
PKGCONFIGDIR ?= $(LIBDIR)/pkgconfig
BINDIR ?= $(PREFIX)/bin
MANDIR ?= $(PREFIX)/share/man/man1
BASHDIR ?= $(PREFIX)/share/bash-completion/completions
ZSHDIR ?= $(PREFIX)/share/zsh/site-functions

# The folder of the archive. Where it is named, the archive is taken from there as it is.
BUILT_ARCHIVE := $(if $(ALGEBRA_LIB_DIR),,$(CURDIR)/target/staticlib/libalgebra.a)
ALGEBRA_LIB_DIR ?= target/staticlib
export ALGEBRA_LIB_DIR := $(abspath $(ALGEBRA_LIB_DIR))
ARCHIVE := $(ALGEBRA_LIB_DIR)/libalgebra.a
COMMAND := target/release/algebra
SHARED := target/lib/$(SONAME)
PROVED := crates.txt $(shell find crates -name out -prune -o \( -name '*.rt' -o -name '*.antt' \) -print)

.PHONY: help run test library command examples install uninstall target/share

help:
	@echo 'make run        builds what is needed and shows a session: check, reduce, list, run'
	@echo 'make test       all tests, as .ci/run does'
	@echo 'make library    the archive target/staticlib/libalgebra.a, the listing and the display program, proved'
	@echo 'make command    the command $(COMMAND)'
	@echo 'make install    command, its manual page and completion, header, archive, shared library and algebra.pc'
	@echo '                below PREFIX ($(PREFIX)); DESTDIR too'
	@echo 'make uninstall  takes them away again'
	@echo 'make examples   writes the made files of examples/ anew'

run: library command
	@COMMAND=$(COMMAND) bash examples/tour

test:
	bash tests/all

library: $(ARCHIVE)

# All is proved in one go, up to four crates at a time, with a line for each; then the archive and the programs are built.
$(BUILT_ARCHIVE): $(PROVED)
	@bash crates/prove

command: $(ARCHIVE)
	cargo build --quiet --release --offline --package algebra-command

examples: $(ARCHIVE)
	bash examples/write

$(SHARED): $(ARCHIVE)
	mkdir -p $(@D)
	$(CC) -shared -Wl,-soname,$(SONAME) -Wl,-z,noexecstack -Wl,--no-undefined \
	    -Wl,--whole-archive $(ARCHIVE) -Wl,--no-whole-archive -o $@

target/lib/algebra.pc: include/algebra.pc.in FORCE
	mkdir -p $(@D)
	sed -e 's|@PREFIX@|$(PREFIX)|' -e 's|@LIBDIR@|$(LIBDIR)|' -e 's|@INCLUDEDIR@|$(INCLUDEDIR)|' \
	    -e 's|@VERSION@|$(VERSION)|' $< > $@

FORCE:

# The manual page and completion, which the command prints from its table of verbs.
target/share: command
	mkdir -p $@
	$(COMMAND) manual > $@/algebra.1
	$(COMMAND) completion bash > $@/algebra.bash
	$(COMMAND) completion zsh > $@/_algebra

install: $(ARCHIVE) $(SHARED) target/lib/algebra.pc target/share
	install -d $(addprefix $(DESTDIR),$(INCLUDEDIR) $(LIBDIR) $(PKGCONFIGDIR) $(BINDIR) $(MANDIR) $(BASHDIR) $(ZSHDIR))
	install -m 755 $(COMMAND) $(DESTDIR)$(BINDIR)
	install -m 644 target/share/algebra.1 $(DESTDIR)$(MANDIR)
	install -m 644 target/share/algebra.bash $(DESTDIR)$(BASHDIR)/algebra
	install -m 644 target/share/_algebra $(DESTDIR)$(ZSHDIR)
	install -m 644 include/algebra.h $(DESTDIR)$(INCLUDEDIR)
	install -m 644 $(ARCHIVE) $(DESTDIR)$(LIBDIR)
	install -m 755 $(SHARED) $(DESTDIR)$(LIBDIR)
	ln -sf $(SONAME) $(DESTDIR)$(LIBDIR)/libalgebra.so
	install -m 644 target/lib/algebra.pc $(DESTDIR)$(PKGCONFIGDIR)

uninstall:
	rm -f $(DESTDIR)$(INCLUDEDIR)/algebra.h $(DESTDIR)$(PKGCONFIGDIR)/algebra.pc
	rm -f $(addprefix $(DESTDIR)$(LIBDIR)/,libalgebra.a $(SONAME) libalgebra.so)
	rm -f $(addprefix $(DESTDIR),$(BINDIR)/algebra $(MANDIR)/algebra.1 $(BASHDIR)/algebra $(ZSHDIR)/_algebra)
