# Installs the codebook tool and the library: `make`, then `make install PREFIX=/usr/local`; `make uninstall` removes what was installed.
# `make TARGET=aarch64` makes the library for another processor (targets/make), `make dist` packs a release for all of them (targets/dist).

PREFIX = /usr/local
DESTDIR =
VERSION = $(shell sed -n 's/^version = "\(.*\)"/\1/p' host/Cargo.toml)
# other builds of the tool and of the archive can be named here
TOOL = host/target/release/codebook
ARCHIVE = $(or $(BLOCKTREE_ARCHIVE),target/staticlib/libabi.a)
SHARED = target/libblocktree.so

# the soname: it has the first number of the version, which increases when a call is changed or removed
SONAME = libblocktree.so.$(firstword $(subst ., ,$(VERSION)))
root = $(DESTDIR)$(PREFIX)
documents = README.md LICENSE CHANGELOG.md docs/FORMAT.md docs/JSON.md docs/TOUR.md
installed = bin/codebook share/man/man1/codebook.1 share/bash-completion/completions/codebook share/zsh/site-functions/_codebook \
	include/blocktree.h lib/libblocktree.a lib/libblocktree.so.$(VERSION) lib/$(SONAME) lib/libblocktree.so lib/pkgconfig/blocktree.pc share/blocktree/blocktree.py share/blocktree/blocktree.magic

# for another processor the library alone, target/other/TARGET
TARGET =
ifeq ($(TARGET),)
all:
	host/needs $(if $(BLOCKTREE_ARCHIVE),,rt) cargo gcc
	host/make-archive
	cargo build --quiet --release --manifest-path host/Cargo.toml
else
all:
	targets/make $(TARGET)
endif

check:
	./test-host

# The shared library, made from the position independent archive.
shared: $(SHARED)
$(SHARED): $(ARCHIVE) host/Cargo.toml
	mkdir -p $(dir $@)
	gcc -shared -Wl,-z,defs -Wl,-soname,$(SONAME) -Wl,--whole-archive $(ARCHIVE) -Wl,--no-whole-archive -o $@

$(TOOL) $(ARCHIVE):
	@echo "$@ is not there: run make first" >&2; false

install: $(TOOL) $(SHARED)
	install -D $(TOOL) $(root)/bin/codebook
	install -D -m 644 host/share/codebook.1 $(root)/share/man/man1/codebook.1
	install -D -m 644 host/share/codebook.bash $(root)/share/bash-completion/completions/codebook
	install -D -m 644 host/share/_codebook $(root)/share/zsh/site-functions/_codebook
	install -D -m 644 include/blocktree.h $(root)/include/blocktree.h
	install -D -m 644 $(ARCHIVE) $(root)/lib/libblocktree.a
	install -D $(SHARED) $(root)/lib/libblocktree.so.$(VERSION)
	ln -sf libblocktree.so.$(VERSION) $(root)/lib/$(SONAME)
	ln -sf $(SONAME) $(root)/lib/libblocktree.so
	install -D -m 644 python/blocktree.py $(root)/share/blocktree/blocktree.py
	install -D -m 644 host/share/blocktree.magic $(root)/share/blocktree/blocktree.magic
	install -D -m 644 -t $(root)/share/doc/codebook $(documents)
	mkdir -p $(root)/lib/pkgconfig
	sed 's|@PREFIX@|$(PREFIX)|; s|@VERSION@|$(VERSION)|' blocktree.pc.in > $(root)/lib/pkgconfig/blocktree.pc
	@[ -n "$(DESTDIR)" ] || host/loader $(PREFIX)/lib $(SONAME)

dist: all shared
	targets/dist

uninstall:
	rm -f $(addprefix $(root)/,$(installed)) $(addprefix $(root)/share/doc/codebook/,$(notdir $(documents)))
	-rmdir $(root)/share/blocktree $(root)/share/doc/codebook

.PHONY: all check shared install dist uninstall
