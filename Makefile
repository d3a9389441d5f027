# Builds and installs the library: `make`, `make install PREFIX=/usr/local DESTDIR=`, `make uninstall`, `make check`.
PREFIX = /usr/local
DESTDIR =
RT = rt
INSTALL = install

archive = target/staticlib/librhoikandra.a
sources = crates.txt $(shell find crates -name out -prune -o \( -name '*.rt' -o -name '*.antt' \) -print)
headers = rhoikandra/rhoikandra.h rhoikandra/rhoikandra_saved.h
crate = rhoikandra/Cargo.toml rhoikandra/build.rs rhoikandra/link.rs
modules = $(wildcard rhoikandra/src/*.rs)
examples = $(addprefix rhoikandra/examples/kept_day.,c cpp rs)
tables = rhoikandra/numbers.tsv rhoikandra/rules.tsv
version = $(shell sed -n 's/^version = "\(.*\)"/\1/p' rhoikandra/Cargo.toml)

ifeq ($(filter /%,$(PREFIX)),)
$(error PREFIX is to be an absolute path)
endif
top = $(DESTDIR)$(PREFIX)
share = $(top)/share/rhoikandra

all: $(archive)

# Proves the library and compiles it: some minutes, and none where nothing changed.
$(archive): $(sources)
	RT='$(RT)' tools/build rhoikandra

install: $(archive)
	$(INSTALL) -d '$(top)/lib/pkgconfig' '$(top)/include' '$(share)/rust/src' '$(share)/examples'
	$(INSTALL) -m 644 $(archive) '$(top)/lib'
	$(INSTALL) -m 644 $(headers) '$(top)/include'
	sed 's|@PREFIX@|$(PREFIX)|; s|@VERSION@|$(version)|' rhoikandra/rhoikandra.pc.in >'$(top)/lib/pkgconfig/rhoikandra.pc'
	$(INSTALL) -m 644 $(crate) '$(share)/rust'
	$(INSTALL) -m 644 $(modules) '$(share)/rust/src'
	$(INSTALL) -m 644 $(examples) '$(share)/examples'
	$(INSTALL) -m 644 $(tables) '$(share)'

uninstall:
	rm -f '$(top)/lib/$(notdir $(archive))' '$(top)/lib/pkgconfig/rhoikandra.pc'
	rm -f $(foreach file,$(headers),'$(top)/include/$(notdir $(file))')
	rm -f $(foreach file,$(crate),'$(share)/rust/$(notdir $(file))') $(foreach file,$(modules),'$(share)/rust/src/$(notdir $(file))')
	rm -f $(foreach file,$(examples),'$(share)/examples/$(notdir $(file))') $(foreach file,$(tables),'$(share)/$(notdir $(file))')
	rmdir '$(share)/rust/src' '$(share)/rust' '$(share)/examples' '$(share)' 2>/dev/null || true

check test:
	.ci/run

.PHONY: all install uninstall check test
