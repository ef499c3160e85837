# Builds gwb unproved, tries what is built, and installs it: the program, manual pages, the library, the companions, the pages and examples. It
# proves nothing: that is .ci/run.
#
#   make try                                 in some minutes: out/gwb-unproved, and in out/unproved the library for C, C++, Rust and Python
#   make check                               all tests that need no proof: the last line counts
#   make check-unproved                      the same on what `make try` builds
#   make site                                out/site: the gallery, the pages, the reference of each language, a page of all names
#   make dist                                out/dist: a wheel, the sources, a tarball of what is installed, a package for Debian
#   make install PREFIX=/usr/local           DESTDIR=.. is put before every place, as for a package
#   make uninstall PREFIX=/usr/local         takes away what was installed
#
# What is installed and checked is what is built, proved before unproved; PROGRAM and ARCHIVE name another program, and another archive of the library.
# Where there is no library, GWB_WITHOUT_LIBRARY=1 installs the rest. Python's package goes where PYTHON looks below PREFIX, or into PYTHONDIR.
PREFIX ?= /usr/local
PROGRAM ?= $(firstword $(wildcard crates/gwb/out/gwb out/gwb-unproved) crates/gwb/out/gwb)
ARCHIVE ?= $(firstword $(wildcard crates/gwb_c/out/libgwb_c.a out/libgwb_c-unproved.a) crates/gwb_c/out/libgwb_c.a)
INSTALL ?= install
PYTHON ?= python3

ROOT = $(abspath $(DESTDIR))$(abspath $(PREFIX))
BIN = $(ROOT)/bin
MAN = $(ROOT)/share/man/man1
BASH = $(ROOT)/share/bash-completion/completions
FISH = $(ROOT)/share/fish/vendor_completions.d
ZSHDIR ?= $(abspath $(PREFIX))/share/zsh/site-functions
ZSH = $(abspath $(DESTDIR))$(ZSHDIR)
SHARE = $(ROOT)/share/gwb
DOC = $(ROOT)/share/doc/gwb
# what nothing is proved of is named so
kind = $(if $(findstring unproved,$(notdir $1)),unproved,proved)
OUT ?= $(if $(filter proved,$(call kind,$(ARCHIVE))),bindings/out,out/unproved)
LIBRARY = $(MAKE) -C bindings PREFIX=$(abspath $(PREFIX)) DESTDIR=$(abspath $(DESTDIR)) ARCHIVE=$(abspath $(ARCHIVE)) OUT=$(abspath $(OUT))
SITE = import site, sys; below = sys.argv[1] + "/lib/"; own = below + "python%d.%d/site-packages" % sys.version_info[:2]; \
    print(next((at for at in [*site.getsitepackages(), site.getusersitepackages()] if at.startswith(below)), own))
PYTHONDIR ?= $(shell $(PYTHON) -c '$(SITE)' $(abspath $(PREFIX)))
PACKAGE = $(abspath $(DESTDIR))$(PYTHONDIR)/gwb
COMPANIONS = $(notdir $(wildcard companions/gwb-*))
# pages and examples lie below DOC as they lie here, so that their links lead on
PAGES = README.md CHANGELOG.md companions/README.md $(wildcard docs/*.md docs/pictures/*.* docs/tutorial/*.*) $(wildcard examples/*.* examples/gallery/*.*) \
    bindings/README.md $(wildcard bindings/examples/*.*)

UNPROVED = out/gwb-unproved out/libgwb_c-unproved.a
TRIED = ../out/unproved
SOURCES = .ci/unproved .ci/crates.py crates.txt $(shell find crates -path '*/src/*.rt')

.PHONY: help try check check-unproved site dist built built-program install uninstall install-program install-companions install-manual install-pages install-library
help:
	@echo 'make try                            builds the program and the library in some minutes, unproved'
	@echo 'make check                          runs all tests that need no proof on what is built, proved before unproved'
	@echo 'make check-unproved                 runs them on what make try builds'
	@echo 'make site                           makes a site of the gallery, the pages, the references and all names'
	@echo 'make dist                           packs what is built: a wheel, the sources, a tarball, a package for Debian'
	@echo 'make install PREFIX=/usr/local      installs what is built, proved before unproved: the program, the library, companions, pages'
	@echo 'make uninstall PREFIX=/usr/local    takes them away'
	@echo '.ci/run                             proves, tests and builds everything'

try:
	@echo '1 of 2: the program, and the kernel of the library: a minute on idle processors'
	@$(MAKE) -s --no-print-directory -j 2 $(UNPROVED)
	@echo '2 of 2: the library, with its features in C++: as long again'
	@if command -v cc > /dev/null; then \
	    $(MAKE) -s --no-print-directory -j 4 -C bindings ARCHIVE=../out/libgwb_c-unproved.a OUT=$(TRIED) $(TRIED)/libgwb.so $(TRIED)/libgwb.a; \
	else echo 'there is no cc, so the library for C, C++, Rust and Python is left out'; fi
	@echo 'Built, and nothing of it proved: out/gwb-unproved, and where cc is there libgwb.a and libgwb.so in out/unproved. For example:'
	@echo '    out/gwb-unproved examples/block_with_hole.gwb'
	@echo '    companions/gwb-view --steps examples/block_with_hole.gwb > block.html'
	@echo '    bindings/examples/block.py out/unproved/libgwb.so'
	@echo '    make check-unproved'

out/gwb-unproved: $(SOURCES)
	.ci/unproved gwb

out/libgwb_c-unproved.a: $(SOURCES)
	.ci/unproved gwb_c

check: built-program
	tests/run.py $(PROGRAM) $(wildcard $(ARCHIVE))

check-unproved: try
	tests/run.py $(UNPROVED)

site:
	@.ci/site

INTO ?= out/dist
dist: built
	@.ci/dist $(PROGRAM) $(ARCHIVE) $(OUT) --into $(INTO)

install: install-program install-companions install-manual install-pages install-library
	@echo 'installed in $(ROOT): the program $(PROGRAM) ($(call kind,$(PROGRAM))), $(if $(HAS_LIBRARY),the library $(ARCHIVE) ($(call kind,$(ARCHIVE))),no library)'
	@echo 'import gwb in Python takes $(PACKAGE): where Python does not look there, set PYTHONPATH=$(PYTHONDIR)'

# nothing is built here: it may be another user who installs
HAS_LIBRARY = $(if $(GWB_WITHOUT_LIBRARY),,$(ARCHIVE))
built: built-program
	@test -z '$(HAS_LIBRARY)' || test -f '$(ARCHIVE)' || { echo 'There is no library $(ARCHIVE). `make try` builds one, unproved;' \
	    '(cd crates/gwb_c && rt lib) proves and builds it. GWB_WITHOUT_LIBRARY=1 installs the rest alone.'; false; }

built-program:
	@test -f $(PROGRAM) || { echo 'There is no program $(PROGRAM). `make try` builds one, unproved; .ci/run proves and builds it.'; false; }

install-program: built
	$(INSTALL) -D -m 755 $(PROGRAM) $(BIN)/gwb

# the manual pages, and the completions of shells
install-manual: built
	$(PYTHON) -B .ci/manual_pages.py $(MAN) $(BASH) $(FISH) $(ZSH)
	for name in $(COMPANIONS); do ln -sf gwb $(BASH)/$$name && ln -sf gwb.fish $(FISH)/$$name.fish || exit 1; done

# each companion is a link to the file that lies beside its package, which is how it finds it, and Python finds the package by a link too
install-companions: install-program
	@test -h $(PACKAGE) || ! test -e $(PACKAGE) || { echo '$(PACKAGE) is there already: pip uninstall gwb'; false; }
	cd companions && find gwb -type f -not -path '*/__pycache__/*' -exec $(INSTALL) -D -m 644 {} $(SHARE)/companions/{} \;
	$(INSTALL) -m 755 $(COMPANIONS:%=companions/%) $(SHARE)/companions
	$(INSTALL) -d $(BIN)
	for name in $(COMPANIONS); do ln -sf ../share/gwb/companions/$$name $(BIN)/$$name || exit 1; done
	$(INSTALL) -d $(dir $(PACKAGE))
	ln -sfn $$(realpath -m --relative-to=$(dir $(PACKAGE)) $(SHARE)/companions/gwb) $(PACKAGE)

install-pages: built
	for page in $(PAGES); do $(INSTALL) -D -m 644 $$page $(DOC)/$$page || exit 1; done

install-library: built
	$(if $(HAS_LIBRARY),$(LIBRARY) install)

uninstall:
	rm -f $(BIN)/gwb $(COMPANIONS:%=$(BIN)/%) $(MAN)/gwb.1 $(COMPANIONS:%=$(MAN)/%.1)
	rm -f $(BASH)/gwb $(COMPANIONS:%=$(BASH)/%) $(FISH)/gwb.fish $(COMPANIONS:%=$(FISH)/%.fish) $(ZSH)/_gwb
	rm -rf $(SHARE) $(DOC)
	test ! -h $(PACKAGE) || rm -f $(PACKAGE)
	$(LIBRARY) uninstall
