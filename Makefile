# Builds pua, tests it, passes its gate, and installs it. Any make(1) will do.

PREFIX = /usr/local
DESTDIR =
BINDIR = $(DESTDIR)$(PREFIX)/bin
MANDIR = $(DESTDIR)$(PREFIX)/share/man

# Where the installed tools look for their modules: ../share/pua/perl, seen from where they are.
PERLDIR = $(DESTDIR)$(PREFIX)/share/pua/perl

# The program that is installed and tested: what `all` builds.
PROGRAM = crates/pua/out/pua

# Each tool is installed as pua-NAME, for tools/NAME.pl, and has a page man/pua-NAME.1.
TOOLS = list trace page glance keep conform
MODULES = Calls Help Kdump Kernel Lists Perform Process Regions Reports Together Trials

all:
	cd crates/pua && rt run -- --version

# Before each commit: what changed is proved again, and the program is tested; no edits, and nothing from nothing.
quick: all test
	perl -T tools/refused.pl
	cd crates/pua_refused && rt check
	cd crates/pua_refused_texts && rt check

check:
	.ci/run

# The tests in perl, over a program that is built already.
test:
	PUA=$(PROGRAM) prove tools
	prove tests :: $(PROGRAM)

# The program beside the plain one, over 2,000 random worlds and all rows of the tests. It takes rustc.
night:
	prove bench/plain/night.t :: $(PROGRAM)

# Writes what each public item of the libraries promises: its doc and its contract, and the laws.
reference:
	mkdir -p out
	perl -T tools/reference.pl > out/reference.md
	@echo 'all of it: out/reference.md'

# Performs the trials on this system, as root, and leaves one file to send back. Without a compiler
# what has an exec is passed over.
conform:
	mkdir -p out
	by=; if cc -static -O2 -o out/conform tools/conform.c; then by='--helper out/conform'; fi; \
	perl tools/conform.pl $$by --trials tests/data/trials > out/conform.report
	sed -n '1,/^lines/p' out/conform.report
	@echo 'all of it: out/conform.report'

install: install-tools
	install -d $(MANDIR)/man7
	install -m 755 $(PROGRAM) $(BINDIR)/pua
	install -m 644 man/pua.1 $(MANDIR)/man1/pua.1
	perl man/model.pl docs/MODEL.md > $(MANDIR)/man7/pua-model.7
	chmod 644 $(MANDIR)/man7/pua-model.7

# The tools alone, for a machine that has perl and no program.
install-tools:
	install -d $(BINDIR) $(MANDIR)/man1 $(PERLDIR)/Pua
	for tool in $(TOOLS); do \
		install -m 755 tools/$$tool.pl $(BINDIR)/pua-$$tool || exit 1; \
		install -m 644 man/pua-$$tool.1 $(MANDIR)/man1/pua-$$tool.1 || exit 1; \
	done
	for module in $(MODULES); do \
		install -m 644 tools/lib/Pua/$$module.pm $(PERLDIR)/Pua/$$module.pm || exit 1; \
	done
	install -m 644 tools/conform.c $(PERLDIR)/../conform.c

# A release for any system with a C compiler, and its tests: see release/README.md.
dist distcheck:
	cd release && $(MAKE) $@

uninstall:
	rm -f $(BINDIR)/pua $(MANDIR)/man1/pua.1 $(MANDIR)/man7/pua-model.7
	for tool in $(TOOLS); do rm -f $(BINDIR)/pua-$$tool $(MANDIR)/man1/pua-$$tool.1; done
	for module in $(MODULES); do rm -f $(PERLDIR)/Pua/$$module.pm; done
	rm -f $(PERLDIR)/../conform.c

.PHONY: all quick check test night reference conform install install-tools dist distcheck uninstall
