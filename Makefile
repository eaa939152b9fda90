# swimwatch: who is in a memberlist cluster, from a capture; swimtab: membership tables of a SWIM
# cluster; swimunwrap: what its members send, without wrappers.
#
#   make            proves and builds the programs (build/swimwatch, build/swimtab and build/swimunwrap) and the
#                   library for C, if there is a C compiler (build/libswimtab.a and build/libswimtab.so)
#   make run        lists examples/packets.hex with a swimtab that has checks at run time and no proof, in a minute
#   make test       runs the gate of each change: each crate that ships is proved once, and all tests are run
#   make gate       proves also the tests, and tries all mutants that are due: for a release, after make test
#   make wrong-bodies
#                   tries the wrong bodies of the crates that changed and of one more crate; with ANEW=1,
#                   those of all crates
#   make bench      measures what a record costs, by size and by order of the names; takes some minutes
#   make install    copies what make built to PREFIX: the programs to bin, their man pages to
#                   share/man/man1, their completions to the folders of bash, zsh and fish in share, the
#                   library to LIBDIR, its header to include, its man pages to share/man/man3, the file for
#                   pkg-config to LIBDIR/pkgconfig, and the documents and examples to share/doc/swimtab; it
#                   builds everything first if nothing is built yet, so after make, root needs no kit for it
#   make install-library
#                   does the same for only the library
#   make uninstall  removes what make install copies
#   make dist       packs what make built: an archive and Debian's packages in build/dist; it builds only
#                   what is missing, so after make, it needs no kit
#   make programs   builds only the programs
#   make library    builds only the library
#   make clean      removes everything that was built
#   make help       prints these lines

PREFIX ?= /usr/local
LIBDIR ?= $(prefix)/lib
CC ?= cc
AR ?= ar
LD ?= ld
NM ?= nm
OBJCOPY ?= objcopy
SOURCES := $(shell find crates -type f -not -path '*/out/*') crates.txt HANDLES
SONAME := libswimtab.so.2
calls := $(shell sed -n 's/^[a-z][a-z0-9_ ]*[ *]\(swimtab_[a-z_]*\)[^a-z_ ;].*/\1/p' include/swimtab.h)
cmake_files := swimtab-config.cmake swimtab-config-version.cmake
call_groups := $(shell sed -n 's/^\/\* -* \([a-z]*\): .*/\1/p' include/swimtab.h)
VERSION := $(shell sed -n 's/^.define SWIMTAB_VERSION "\(.*\)"/\1/p' include/swimtab.h)

.PHONY: all programs library run test gate wrong-bodies bench install install-programs install-library uninstall dist \
	clean help kit

programs := swimtab swimunwrap swimwatch

# All at once, so that crates are proved side by side.
build/all: $(SOURCES) | kit
	@echo 'proving and building all; the first time this takes an hour and a half on two processors'
	@.ci/prove $(programs) $$(if command -v $(CC) > /dev/null; then echo swim_c; fi)
	@touch $@

all: build/all
	@$(MAKE) --no-print-directory programs library

programs: $(programs:%=build/%)

library:
	@if command -v $(CC) > /dev/null; then $(MAKE) --no-print-directory build/libswimtab.so; \
	else echo 'there is no $(CC), so the library is not built'; fi

$(programs:%=build/%) build/swimbench build/swimsim build/libswim_c.a: $(SOURCES) | kit
	@echo 'proving and building $@ and the libraries that it uses; the first time this takes some minutes'
	@.ci/prove $(patsubst lib%.a,%,$(@F))

# One object from library/swimtab.c, the crate's archive and the kit's few functions that call malloc, realloc and
# free. It exports only the functions of the header.
build/libswimtab.a: build/libswim_c.a include/swimtab.h library/swimtab.c library/raw.h | kit
	@rm -f $@ build/libswimtab.o
	$(CC) -std=c99 -O2 -fPIC -Iinclude -c library/swimtab.c -o build/calls.o
	@printf '%s\n' $(calls) > build/calls
	@$(LD) -r --gc-sections -o build/libswimtab.o $(calls:%=-u %) build/calls.o \
		build/libswim_c.a "$$(dirname "$$(rt doc)")/c/liblibc_c.a"
	@$(OBJCOPY) --keep-global-symbols=build/calls build/libswimtab.o
	@$(AR) rcs $@ build/libswimtab.o
	@rm -f build/libswimtab.o build/calls.o build/calls

build/libswimtab.so: build/libswimtab.a
	@echo '{ global: swimtab_*; local: *; };' > build/libswimtab.map
	$(CC) -shared -o $@ -Wl,-soname,$(SONAME) -Wl,--version-script=build/libswimtab.map \
		-Wl,--gc-sections -Wl,--whole-archive $< -Wl,--no-whole-archive
	@rm -f build/libswimtab.map

run: kit
	@echo 'compiling swimtab with checks at run time and no proof; this takes about a minute'
	@.ci/try swimtab
	@build/unproved/swimtab < examples/packets.hex
	@echo 'this build has checks at run time and no proof; make build/swimtab proves and builds it in 20 minutes on two'
	@echo 'processors, and make all programs and the library in an hour and a half'

test: kit
	@.ci/gate

gate: kit
	@rm -rf crates/*/out/rlib
	@rt ci
	@tests/wrong_bodies --due

wrong-bodies: kit
	@tests/wrong_bodies $(if $(ANEW),,--due)

bench: build/swimbench
	@build/swimbench

prefix = $(if $(filter /%,$(PREFIX)),$(PREFIX),$(CURDIR)/$(PREFIX))
root = $(DESTDIR)$(prefix)
libdir = $(DESTDIR)$(LIBDIR)
doc = $(root)/share/doc/swimtab
bash = $(root)/share/bash-completion/completions
zsh = $(root)/share/zsh/site-functions
fish = $(root)/share/fish/vendor_completions.d
documents := $(wildcard docs/*.md)
examples := $(wildcard examples/*.*)
c_examples := $(wildcard examples/c/*)

install:
	@ls build/swimtab build/libswimtab.a 2> /dev/null | grep -q . || $(MAKE) all
	@if [ -f build/swimtab ]; then $(MAKE) --no-print-directory install-programs; fi
	@if [ -f build/libswimtab.a ]; then $(MAKE) --no-print-directory install-library; fi

install-programs:
	@for program in $(programs); do test -x build/$$program || $(MAKE) build/$$program || exit 1; done
	@mkdir -p '$(root)/bin' '$(root)/share/man/man1'
	install -m 755 $(programs:%=build/%) scripts/swimwatch-live '$(root)/bin'
	install -m 644 $(programs:%=docs/%.1) '$(root)/share/man/man1'
	@echo '.so man1/swimwatch.1' > '$(root)/share/man/man1/swimwatch-live.1'
	@mkdir -p '$(bash)' '$(zsh)' '$(fish)' '$(doc)/examples/c'
	@for program in $(programs); do \
		install -m 644 completions/$$program.bash '$(bash)'/$$program || exit 1; done
	install -m 644 $(programs:%=completions/_%) '$(zsh)'
	install -m 644 $(programs:%=completions/%.fish) '$(fish)'
	install -m 644 $(documents) '$(doc)'
	install -m 644 $(examples) '$(doc)/examples'
	install -m 644 $(c_examples) '$(doc)/examples/c'

install-library:
	@test -f build/libswimtab.a || $(MAKE) library
	@mkdir -p '$(libdir)/pkgconfig' '$(root)/include'
	install -m 644 include/swimtab.h '$(root)/include/swimtab.h'
	@mkdir -p '$(root)/share/man/man3'
	awk -v version=$(VERSION) -v folder='$(root)/share/man/man3' -f docs/swimtab.3.awk include/swimtab.h
	install -m 644 build/libswimtab.a '$(libdir)/libswimtab.a'
	@if [ -f build/libswimtab.so ]; then \
		install -m 755 build/libswimtab.so '$(libdir)/$(SONAME)' && \
		ln -sf $(SONAME) '$(libdir)/libswimtab.so' && \
		echo 'if the loader does not find $(SONAME) in $(LIBDIR), run ldconfig once as root, or set LD_LIBRARY_PATH'; fi
	@mkdir -p '$(doc)' '$(libdir)/cmake/swimtab'
	install -m 644 $(documents) '$(doc)'
	@for file in $(cmake_files); do \
		sed -e 's|@prefix@|$(prefix)|g' -e 's|@libdir@|$(LIBDIR)|g' -e 's|@version@|$(VERSION)|g' \
			library/cmake/$$file.in > '$(libdir)/cmake/swimtab/'$$file || exit 1; done
	@printf '%s\n' 'prefix=$(prefix)' 'libdir=$(LIBDIR)' 'includedir=$${prefix}/include' '' \
		'Name: swimtab' 'Description: membership tables of SWIM clusters, over the messages of memberlist' \
		$(if $(URL),'URL: $(URL)') 'Version: $(VERSION)' 'Libs: -L$${libdir} -lswimtab' 'Libs.private:' \
		'Cflags: -I$${includedir}' > '$(libdir)/pkgconfig/swimtab.pc'

uninstall:
	rm -f $(programs:%='$(root)/bin/%') $(programs:%='$(root)/share/man/man1/%.1') \
		'$(root)/bin/swimwatch-live' '$(root)/share/man/man1/swimwatch-live.1' \
		$(patsubst %,'$(root)/share/man/man3/%.3',swimtab $(call_groups:%=swimtab-%) $(sort $(calls))) '$(root)/include/swimtab.h' \
		'$(libdir)/libswimtab.a' '$(libdir)/libswimtab.so' '$(libdir)/$(SONAME)' '$(libdir)/pkgconfig/swimtab.pc' \
		$(cmake_files:%='$(libdir)/cmake/swimtab/%') $(programs:%='$(bash)/%') $(programs:%='$(zsh)/_%') \
		$(programs:%='$(fish)/%.fish') $(documents:docs/%='$(doc)/%') $(examples:%='$(doc)/%') \
		$(c_examples:%='$(doc)/%')
	@for folder in '$(doc)/examples/c' '$(doc)/examples' '$(doc)' '$(libdir)/cmake/swimtab'; do \
		rmdir "$$folder" 2> /dev/null || :; done

dist:
	@MAKE='$(MAKE)' packaging/dist

help:
	@sed -n 's/^#   //p' Makefile

clean:
	rm -rf build crates/*/out

kit:
	@command -v rt > /dev/null || { echo 'rt was not found: swimtab is built with the Rattle kit; unpack the kit and put its folder bin on the PATH' >&2; exit 1; }
