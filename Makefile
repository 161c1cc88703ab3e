# Installs the program that `sh tests/prove.sh` built, otherwise the one of `sh tests/unproved.sh` (which needs this folder to stay), its page, its completions, and
# a unit of systemd with a document; `make` alone lists the targets.
# SYSCONFDIR/bac/plant.toml is yours to edit: it is installed only where there is none, and `make uninstall` leaves it. PREFIX/share/bac/plant.toml is as it was made.
PREFIX ?= /usr/local
SYSCONFDIR ?= /etc
PROGRAM ?= $(or $(wildcard crates/bac/out/bac),crates/bac/out/bac-unproved)
LIBRARY ?= crates/bac_c/out/libbac_c.a
AT = $(DESTDIR)$(PREFIX)
BASH = $(AT)/share/bash-completion/completions
ZSH = $(AT)/share/zsh/site-functions
FISH = $(AT)/share/fish/vendor_completions.d
ETC = $(DESTDIR)$(SYSCONFDIR)
# the commit that is packed, and its time
NAME := nuutrevi-$(shell git log -1 --format=%cs-%h)
TIME := $(shell git log -1 --format=%ct)

.PHONY: targets install uninstall dist page check-page

targets:
	@echo 'make install [PREFIX=/usr/local] [SYSCONFDIR=/etc] [DESTDIR=FOLDER] [PROGRAM=FILE]'
	@echo 'make uninstall, with the same words'
	@echo 'make dist [PROGRAM=FILE] [LIBRARY=FILE]: an archive of the program and the C library, dist/$(NAME).tar.gz'
	@echo 'make page: writes the page of the manual; make check-page compares it'

install:
	install -d $(AT)/bin $(AT)/share/man/man1 $(BASH) $(ZSH) $(FISH) $(AT)/share/bac $(AT)/lib/systemd/system $(ETC)/bac
	install -m 755 $(PROGRAM) $(AT)/bin/bac
	if test -e $(dir $(PROGRAM))bac.build; then install -m 644 $(dir $(PROGRAM))bac.build $(AT)/share/bac/bac.build; fi
	install -m 644 docs/bac.1 $(AT)/share/man/man1/bac.1
	$(PROGRAM) completion > $(BASH)/bac
	$(PROGRAM) completion zsh > $(ZSH)/_bac
	$(PROGRAM) completion fish > $(FISH)/bac.fish
	install -m 644 docs/plant.toml $(AT)/share/bac/plant.toml
	test -e $(ETC)/bac/plant.toml || install -m 644 docs/plant.toml $(ETC)/bac/plant.toml
	sed -e 's|@PREFIX@|$(PREFIX)|g' -e 's|@SYSCONFDIR@|$(SYSCONFDIR)|g' install/bac.service.in > $(AT)/lib/systemd/system/bac.service

uninstall:
	rm -f $(AT)/bin/bac $(AT)/share/man/man1/bac.1 $(BASH)/bac $(ZSH)/_bac $(FISH)/bac.fish $(AT)/share/bac/plant.toml $(AT)/share/bac/bac.build $(AT)/lib/systemd/system/bac.service

# What `make install` and `make -C include install` put below /usr/local and /etc, with the SHA-256 sum of each file: the same octets of the same commit, program and
# library.
dist:
	rm -rf dist/$(NAME)
	$(MAKE) -s install DESTDIR=dist/$(NAME) PREFIX=/usr/local SYSCONFDIR=/etc
	$(MAKE) -s -C include install DESTDIR=$(CURDIR)/dist/$(NAME) PREFIX=/usr/local LIB=$(abspath $(LIBRARY))
	cd dist/$(NAME) && find . -type f | LC_ALL=C sort | xargs sha256sum > ../SHA256SUMS && mv ../SHA256SUMS .
	tar -C dist --sort=name --owner=0 --group=0 --numeric-owner --mode=go-w --mtime=@$(TIME) -cf - $(NAME) | gzip -n9 > dist/$(NAME).tar.gz
	rm -rf dist/$(NAME)
	@echo dist/$(NAME).tar.gz

# The page of the manual is made from the table of commands.
page:
	$(PROGRAM) help --man > docs/bac.1

check-page:
	$(PROGRAM) help --man | diff docs/bac.1 -
