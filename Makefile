# The C library and the program czg: make lib, make shared, make czg, make install, make check, make clean.
# PREFIX and DESTDIR say where make install puts things; CC, LDFLAGS and INSTALL have their usual meaning.

VERSION = 0.1.0
PREFIX = /usr/local
DESTDIR =
CC = cc
INSTALL = install
RT = rt

archive = build/libchizuregwo.a
shared = build/libchizuregwo.so
header = build/chizuregwo.h
program = build/czg

# What is proved: the crates' code, definitions and proofs. The folders are among them, so that a file that is gone counts as a change.
proved := crates.txt $(shell find $(wildcard crates/*/src crates/*/specs crates/*/proofs))

.PHONY: help lib shared czg install check clean
.DELETE_ON_ERROR:
# One rt at a time: each keeps what it proved in the crates' out/.
.NOTPARALLEL:

help:
	@echo 'make lib                 prove the library and put its archive and header into build/'
	@echo 'make shared              also make build/libchizuregwo.so from the archive'
	@echo 'make czg                 prove the program czg and put it into build/'
	@echo 'make install PREFIX=DIR  install header, archive, pkg-config file and czg below DIR ($(PREFIX))'
	@echo 'make check               the gate, .ci/run'
	@echo 'make clean               remove build/'
	@echo 'What is in build/ is made again where a file of the crates changed since.'

lib: $(archive) $(header)
shared: lib $(shared)
czg: $(program)

# The old files go first, so that none is left where a proof fails.
$(archive): $(proved)
	rm -f $@ $(shared)
	cd crates/chizuregwo_c && $(RT) lib
	mkdir -p build
	cp crates/chizuregwo_c/out/libchizuregwo_c.a $@

$(program): $(proved)
	rm -f $@
	cd crates/czg && $(RT) run </dev/null
	mkdir -p build
	cp crates/czg/out/czg $@

$(header): include/chizuregwo.h
	mkdir -p build
	cp include/chizuregwo.h $@

# The archive is position independent, gives out the entries alone and needs memcpy and memset (tests/library).
$(shared): $(archive)
	$(CC) $(LDFLAGS) -shared -Wl,-soname,libchizuregwo.so -Wl,--no-undefined -Wl,-z,noexecstack,-z,relro,-z,now \
	    -o $@ -Wl,--whole-archive $(archive) -Wl,--no-whole-archive

install: lib czg
	$(INSTALL) -d '$(DESTDIR)$(PREFIX)/bin' '$(DESTDIR)$(PREFIX)/include' '$(DESTDIR)$(PREFIX)/lib/pkgconfig'
	$(INSTALL) -m 644 $(header) '$(DESTDIR)$(PREFIX)/include/chizuregwo.h'
	$(INSTALL) -m 644 $(archive) '$(DESTDIR)$(PREFIX)/lib/libchizuregwo.a'
	sed -e 's|@PREFIX@|$(PREFIX)|' -e 's|@VERSION@|$(VERSION)|' include/chizuregwo.pc.in >build/chizuregwo.pc
	$(INSTALL) -m 644 build/chizuregwo.pc '$(DESTDIR)$(PREFIX)/lib/pkgconfig/chizuregwo.pc'
	$(INSTALL) -m 755 $(program) '$(DESTDIR)$(PREFIX)/bin/czg'

check:
	.ci/run

clean:
	rm -rf build
