# make                                      proves and builds the library and the programs; what has not changed is not proved again
# make install [PREFIX=..] [DESTDIR=..]     installs header, library, pkg-config file, programs and manual pages
# make uninstall [PREFIX=..] [DESTDIR=..]   removes these files
# make dist                                 makes build/recon-VERSION-x86_64-linux.tar.gz, for machines without the Rattle kit
#
# install and dist take what is built and build only what is missing.
SHELL := bash
.SHELLFLAGS := -o pipefail -c
PREFIX ?= /usr/local

VERSION := $(shell sed -n 's/^.define RECON_VERSION "\(.*\)"$$/\1/p' include/recon.h)
NAME := recon-$(VERSION)-x86_64-linux
STAGE := build/dist/$(NAME)
ARCHIVE := build/$(NAME).tar.gz

LIBRARY := target/staticlib/libcapi.a
SHOWMSG := target/bin/showmsg
RECONCILE := build/cargo/release/reconcile
BUILT := $(LIBRARY) $(SHOWMSG) $(RECONCILE)
PAGES := $(wildcard man/*.[13])
# What the archive has beside an installation.
SOURCES := rust/recon $(wildcard examples/*.c examples/*.rs) samples/ours.txt samples/theirs.txt \
           $(wildcard docs/SPEC.md docs/TRUST.md docs/NEGENTROPY.md LICEN[CS]E* COPYING*)
# The time of every file in the archive, so that the same files make the same archive.
EPOCH := $(or $(SOURCE_DATE_EPOCH),$(shell git log -1 --format=%ct 2>/dev/null),0)

.PHONY: all library showmsg reconcile install uninstall dist

all: library showmsg reconcile

library $(LIBRARY):
	@mkdir -p build && . scripts/setup && need_kit && library

showmsg $(SHOWMSG):
	@mkdir -p build && . scripts/setup && need_kit && program_showmsg

reconcile: library
reconcile $(RECONCILE): | $(LIBRARY)
	@mkdir -p build && . scripts/setup && need_rust && in_rust build --release -p demo

# Where a manual page goes.
man_place = share/man/man$(patsubst .%,%,$(suffix $(1)))/$(notdir $(1))
INSTALLED := include/recon.h lib/librecon.a lib/pkgconfig/recon.pc bin/reconcile bin/showmsg $(foreach page,$(PAGES),$(call man_place,$(page)))

# Puts all that is installed into a folder: FOLDER, and the prefix that pkg-config is told.
define put
install -D -m 644 include/recon.h "$(1)/include/recon.h"
install -D -m 644 $(LIBRARY) "$(1)/lib/librecon.a"
install -D -m 755 $(RECONCILE) "$(1)/bin/reconcile"
install -D -m 755 $(SHOWMSG) "$(1)/bin/showmsg"
$(foreach page,$(PAGES),install -D -m 644 $(page) "$(1)/$(call man_place,$(page))" && ):
sed 's|@PREFIX@|$(2)|; s|@VERSION@|$(VERSION)|' scripts/recon.pc.in | install -D -m 644 /dev/stdin "$(1)/lib/pkgconfig/recon.pc"
endef

install: $(BUILT)
	$(call put,$(DESTDIR)$(PREFIX),$(PREFIX))

uninstall:
	cd "$(DESTDIR)$(PREFIX)" && rm -f $(INSTALLED)

# The files are to be the same for everyone who makes the archive, so their owners, modes and times are set here. A prefix relative to recon.pc
# lets the folder stand anywhere.
dist: $(BUILT)
	rm -rf build/dist
	$(call put,$(STAGE),$${pcfiledir}/../..)
	cp -R --parents $(SOURCES) $(STAGE)
	cp docs/ARCHIVE.md $(STAGE)/README.md
	tar -C build/dist --sort=name --mtime=@$(EPOCH) --owner=0 --group=0 --numeric-owner --mode=u+rw,go=rX -cf - $(NAME) | gzip -n9 >$(ARCHIVE).new
	mv $(ARCHIVE).new $(ARCHIVE)
	rm -rf build/dist
	@echo $(ARCHIVE)
