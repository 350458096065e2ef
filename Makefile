# Installs Girvuzhan.
#
## make                    makes what is installed: in a checkout of proved builds, or else of the release; an archive has it
## make install            installs the programs, the library for C, man pages, completions and documents
## make install-programs   installs all but the library
## make install-library    installs the library, its headers and its man page
## make uninstall          takes back what was installed, by the same words
## make check              compares each file with its sum
## make test               asks the release and the sources, in a checkout
##
## PREFIX=/usr/local, LIBDIR=PREFIX/lib and DESTDIR= tell where. The first two begin with a slash, and have no signs but A-Z a-z 0-9 / . _ + ~ @ -
#
# In a checkout out/tree gets before what the toolchain has proved and built of these sources; where that doesn't stand whole, it is the
# release. What stands there is taken while it is of these sources and its sums hold: so who installs needs no toolchain.
PREFIX = /usr/local
prefix = $(PREFIX)
exec_prefix = $(prefix)
LIBDIR = $(exec_prefix)/lib
bindir = $(exec_prefix)/bin
libdir = $(LIBDIR)
includedir = $(prefix)/include
datadir = $(prefix)/share
mandir = $(datadir)/man
docdir = $(datadir)/doc/girvuzhan
cmakedir = $(libdir)/cmake/gix_glob
INSTALL = install

tree = $(if $(wildcard tools/release),out/tree,.)
# The names of the files in a folder of the tree that have a sum; no other ones are installed.
files = sed -n 's|^[0-9a-f]*  $(1)/\([^/]*\)$$|\1|p' $(tree)/SHA256SUMS
# $(call put,FOLDER,TO,MODE) installs them, and $(call take,FOLDER,TO) takes them back.
put = $(INSTALL) -d "$(DESTDIR)$(2)" && $(files) | while read -r file; do $(INSTALL) -m $(3) -t "$(DESTDIR)$(2)" "$(tree)/$(1)/$$file" || exit 1; done
take = $(files) | while read -r file; do rm -f "$(DESTDIR)$(2)/$$file"; done
notes = PROVED.md LICENSE-APACHE LICENSE-MIT
programs = $(call $(1),bin,$(bindir),755) && \
	$(call $(1),share/man/man1,$(mandir)/man1,644) && \
	$(call $(1),share/bash-completion/completions,$(datadir)/bash-completion/completions,644) && \
	$(call $(1),share/zsh/site-functions,$(datadir)/zsh/site-functions,644) && \
	$(call $(1),share/fish/vendor_completions.d,$(datadir)/fish/vendor_completions.d,644) && \
	$(call $(1),share/doc/girvuzhan,$(docdir),644)
library = $(call $(1),include,$(includedir),644) && \
	$(call $(1),lib,$(libdir),644) && \
	$(call $(1),lib/pkgconfig,$(libdir)/pkgconfig,644) && \
	$(call $(1),lib/cmake/gix_glob,$(cmakedir),644) && \
	$(call $(1),share/man/man3,$(mandir)/man3,644)
# What out/tree is made of.
sources = { find . \( -name .git -o -name out -o -name __pycache__ \) -prune -o -type f -print0 | sort -z | xargs -0 sha256sum && cat out/*.sum 2>/dev/null || :; }

.PHONY: all help test install install-programs install-library uninstall check checked
all:
	@[ "$(tree)" = . ] || { $(sources) 2>/dev/null | cmp -s - out/tree.sources && cd out/tree 2>/dev/null && sha256sum --check --status SHA256SUMS; } || { \
	    rm -rf out/tree out/tree.sources && \
	    if tools/build --built globline && tools/build --built globtree && tools/build --built gix_glob_c; \
	    then tools/release --partial --tree out/tree; else release=$$(tools/released) && mkdir -p out && cp -a "$$release" out/tree; fi >/dev/null && \
	    $(sources) >out/tree.sources; }

help:
	@sed -n 's/^## \{0,1\}//p' $(firstword $(MAKEFILE_LIST))

test:
	@$(if $(wildcard tools/test),tools/test,echo 'the archive has no tests: they lie in the repository' >&2; false)

install: install-programs install-library

# (both are written into gix_glob.pc and read from there, where a space or a sign would mean something else)
export told_prefix = $(prefix)
export told_libdir = $(libdir)
checked:
	@for it in "$$told_prefix" "$$told_libdir"; do case $$it in \
	    [!/]* | '' | *[!A-Za-z0-9/._+~@-]*) echo "make: PREFIX and LIBDIR can't be '$$it' ('make help' tells why)" >&2; exit 1 ;; esac; done

install-programs: checked all
	@$(call programs,put)
	@$(INSTALL) -m 644 -t "$(DESTDIR)$(docdir)" $(notes:%=$(tree)/%)

# (pkg-config gives the static library, also by the file of release 0.2.0; where the header and the library lie is told in two files; what lies at PREFIX as in the archive may be moved with it)
install-library: checked all
	@$(call library,put)
	@cd "$(DESTDIR)$(libdir)" && for file in libgix_glob_c.so.*; do ln -sf "$$file" libgix_glob_c.so; done
	@sed -i -e 's|^prefix=.*|prefix=$(prefix)|' -e 's|^includedir=.*|includedir=$(includedir)|' -e 's|^libdir=.*|libdir=$(libdir)|' \
	    -e 's|-lgix_glob_c$$|-l:libgix_glob_c.a|' \
	    "$(DESTDIR)$(libdir)/pkgconfig/gix_glob.pc"
	@[ "$(libdir) $(includedir)" = "$(prefix)/lib $(prefix)/include" ] || \
	    sed -i 's|^get_filename_component(_gix_glob_includedir .*|set(_gix_glob_includedir "$(includedir)")|' \
	    "$(DESTDIR)$(cmakedir)/gix_globConfig.cmake"

uninstall: checked all
	@$(call programs,take) && $(call library,take)
	@rm -f "$(DESTDIR)$(libdir)/libgix_glob_c.so" $(notes:%="$(DESTDIR)$(docdir)/%")
	@! [ -d "$(DESTDIR)$(docdir)" ] || rmdir --ignore-fail-on-non-empty "$(DESTDIR)$(docdir)"
	@! [ -d "$(DESTDIR)$(cmakedir)" ] || rmdir --ignore-fail-on-non-empty "$(DESTDIR)$(cmakedir)"

check: all
	@cd $(tree) && sha256sum --check --quiet SHA256SUMS
