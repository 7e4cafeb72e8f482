# Installs the program, its manual page and the examples: `make install PREFIX=/usr/local`, for a package `make install DESTDIR=FOLDER PREFIX=/usr`.
# The program is proved and built by ./run where it is missing or older than a source. It needs the C library alone to run, and not the kit.

PREFIX = /usr/local
DESTDIR =
INSTALL = install

bin = $(DESTDIR)$(PREFIX)/bin
man = $(DESTDIR)$(PREFIX)/share/man/man1
doc = $(DESTDIR)$(PREFIX)/share/doc/ctftrace
program = crates/ctftrace/out/ctftrace
examples = $(wildcard examples/*.md examples/*/*.* examples/*/expected/*)

.PHONY: all install uninstall

all:
	./run </dev/null >/dev/null

install: all
	$(INSTALL) -d '$(bin)' '$(man)' '$(doc)'
	$(INSTALL) -m 755 $(program) '$(bin)/ctftrace'
	$(INSTALL) -m 644 docs/ctftrace.1 '$(man)/ctftrace.1'
	$(INSTALL) -m 644 LICENSE '$(doc)'
	for file in $(examples); do $(INSTALL) -D -m 644 "$$file" '$(doc)'/"$$file" || exit 1; done

uninstall:
	rm -f '$(bin)/ctftrace' '$(man)/ctftrace.1'
	rm -rf '$(doc)'
