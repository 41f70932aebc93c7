# Builds and installs ksi, ksi-show, ksi-service, ksi-log, the library for C, their manual pages and the page for browsers:
#
#   make                        proves and builds everything except the page for browsers
#   make programs               proves and builds only the programs
#   make page                   builds the page for browsers
#   make install PREFIX=/usr/local
#   make install-service        installs only ksi, ksi-service and ksi-log, with the units of service/deploy; `make programs` is enough for it
#   make check                  runs .ci/run
#   make dist                   builds everything and writes a release: out/ksi-VERSION, with static programs, packages and SHA256SUMS
#   make deb, make static       build Debian packages, or a static ksi, after `make`
#
# `install` builds nothing, so root does not need rt.
VERSION = $(shell cat VERSION)
PREFIX = /usr/local
# the folder of the libraries
LIBDIR = $(PREFIX)/lib
DESTDIR =
RT = rt
CC = cc
OUT = out
PROGRAM = crates/ksi/out/ksi
# prints files in words: installed if it is built
VIEWER = crates/ksi_show/out/ksi_show
# the programs of ksi-service, of mirrors and of archives: installed if they are built
NODES = ksi_serve ksi_retrace ksi_roots ksi_print ksi_blocks
# the programs with a manual page and completions
NAMES = ksi ksi-show ksi-service ksi-log
# the kit's folder, with the libraries for a static program
KIT = $(dir $(realpath $(shell command -v $(RT))))..
ARCHIVE = crates/ksi_c/out/libksi_c.a
SONAME = libksi.so.1
ROOT = $(DESTDIR)$(PREFIX)
LIBRARIES = $(DESTDIR)$(LIBDIR)
DOC = $(ROOT)/share/doc/ksi
# Characters, besides the space, that units, ksi.pc or the shell would misread in a prefix, and those that the shell would misread in
# DESTDIR. Both are refused.
ODD = % | \ " ' $$ ` \#
ODD_ROOT = \ " $$ `
IS_ODD = $(strip $(foreach it,$(ODD),$(findstring $(it),$(PREFIX)))$(word 2,x$(PREFIX)x)$(filter-out /%,$(firstword $(PREFIX))))
IS_ODD_ROOT = $(strip $(foreach it,$(ODD_ROOT),$(findstring $(it),$(DESTDIR))))
REFUSED = $(if $(IS_ODD),$(error PREFIX has a space or one of $(ODD), or does not begin with /: units and ksi.pc cannot contain it))$(if $(IS_ODD_ROOT),$(error DESTDIR has one of $(ODD_ROOT), which the shell would misread))
# the replacement of @PREFIX@, for sed
FILLED = s|@PREFIX@|$(subst &,\&,$(PREFIX))|; s|@LIBDIR@|$(subst &,\&,$(LIBDIR))|
UNITS = ksi-service.service ksi-mirror.service ksi-check.service ksi-check.timer ksi-log@.service ksi-log@.timer ksi-log-journal.service ksi-log-journal.timer

all: programs library pages

.PHONY: all programs pages page library static check install install-service uninstall deb dist shared sums

# rt proves only the parts that changed, and then runs each program with arguments that give status 0
programs:
	cd crates/ksi && $(RT) run -- drill 7 > /dev/null
	cd crates/ksi_show && $(RT) run -- ../../lang/samples/deed.ksig > /dev/null
	cd crates/ksi_retrace && $(RT) run -- data/plan data/record > /dev/null
	cd crates/ksi_roots && $(RT) run -- root data 8199 > /dev/null
	cd crates/ksi_print && $(RT) run -- text data/publications 1700003599 > /dev/null
	cd crates/ksi_blocks && $(RT) run -- block data/log data/seed > /dev/null
	room=$$(mktemp -d) && trap 'rm -rf "$$room"' EXIT && cd crates/ksi_serve && $(RT) run -- data/plan c0 "$$room" facts < /dev/null > /dev/null

library:
	cd crates/ksi_c && $(RT) lib
	$(MAKE) -s shared

shared:
	mkdir -p "$(OUT)"
	$(CC) -shared -o "$(OUT)/$(SONAME)" -Wl,--whole-archive $(ARCHIVE) -Wl,--no-whole-archive -Wl,-soname,$(SONAME) -Wl,-z,relro,-z,now,-z,noexecstack -Wl,--build-id=none

pages:
	python3 package/manual.py "$(OUT)"

# programs that need no library of the system, from the objects that `make programs` writes
static:
	mkdir -p "$(OUT)"
	$(CC) -static -Wl,--build-id=none -o "$(OUT)/ksi-static" crates/ksi/out/ksi.o $(KIT)/c/libos_c.a $(KIT)/c/liblibc_c.a
	strip "$(OUT)"/*-static

# builds $(OUT)/page.html, which verifies in the browser
page:
	page/check --keep "$(OUT)"

check:
	.ci/run

install-service:
	$(REFUSED)
	install -Dm755 $(PROGRAM) "$(ROOT)/bin/ksi"
	install -Dm755 service/ksi-service "$(ROOT)/lib/ksi/ksi-service"
	install -m755 service/ksi-log "$(ROOT)/lib/ksi/ksi-log"
	install -d "$(ROOT)/lib/ksi/ksi_service" "$(ROOT)/lib/ksi/ksi_log" "$(ROOT)/lib/systemd/system" "$(ROOT)/lib/sysusers.d"
	install -m644 service/ksi_service/*.py "$(ROOT)/lib/ksi/ksi_service"
	install -m644 service/ksi_log/*.py "$(ROOT)/lib/ksi/ksi_log"
	install -Dm644 lang/python/ksi/__init__.py "$(ROOT)/lib/ksi/python/ksi/__init__.py"
	install -m644 lang/python/ksi/client.py "$(ROOT)/lib/ksi/python/ksi/client.py"
	install -m644 VERSION "$(ROOT)/lib/ksi/VERSION"
	install -m755 service/confirm-fork service/anchors/anchor-git service/anchors/anchor-ots "$(ROOT)/lib/ksi"
	install -Dm644 service/deploy/ksi-alerts.yaml "$(ROOT)/share/ksi/ksi-alerts.yaml"
	sed -e '$(FILLED)' service/deploy/ksi-log.logrotate > "$(ROOT)/share/ksi/ksi-log.logrotate" && chmod 644 "$(ROOT)/share/ksi/ksi-log.logrotate"
	for it in $(NODES); do \
	    if test -e crates/$$it/out/$$it; then install -m755 crates/$$it/out/$$it "$(ROOT)/lib/ksi/$$it" || exit; \
	    else echo "$$it is not built, so it is not installed: run make programs"; fi; \
	done
	ln -sf ../../bin/ksi "$(ROOT)/lib/ksi/ksi"
	ln -sf ../lib/ksi/ksi-service "$(ROOT)/bin/ksi-service"
	ln -sf ../lib/ksi/ksi-log "$(ROOT)/bin/ksi-log"
	for it in $(UNITS); do sed -e '$(FILLED)' service/deploy/$$it > "$(ROOT)/lib/systemd/system/$$it" && chmod 644 "$(ROOT)/lib/systemd/system/$$it" || exit; done
	install -m644 service/deploy/ksi.sysusers "$(ROOT)/lib/sysusers.d/ksi.conf"

install: install-service
	if test -e $(VIEWER); then install -Dm755 $(VIEWER) "$(ROOT)/bin/ksi-show"; else echo "ksi_show is not built, so ksi-show is not installed: run make programs"; fi
	install -Dm755 package/ksi-why "$(ROOT)/bin/ksi-why"
	install -Dm644 "$(OUT)/ksi-why.1" "$(ROOT)/share/man/man1/ksi-why.1"
	install -Dm644 docs/ANSWERS.md "$(ROOT)/share/ksi/ANSWERS.md"
	install -Dm644 $(ARCHIVE) "$(LIBRARIES)/libksi.a"
	install -Dm644 "$(OUT)/$(SONAME)" "$(LIBRARIES)/$(SONAME)"
	ln -sf $(SONAME) "$(LIBRARIES)/libksi.so"
	install -Dm644 lang/c/ksi.h "$(ROOT)/include/ksi.h"
	install -d "$(LIBRARIES)/pkgconfig"
	sed -e '$(FILLED)' -e 's,@VERSION@,$(VERSION),' lang/c/ksi.pc.in > "$(LIBRARIES)/pkgconfig/ksi.pc"
	chmod 644 "$(LIBRARIES)/pkgconfig/ksi.pc"
	for it in $(NAMES); do \
	    install -Dm644 "$(OUT)/$$it.1" "$(ROOT)/share/man/man1/$$it.1" && \
	    install -Dm644 "$(OUT)/$$it.bash" "$(ROOT)/share/bash-completion/completions/$$it" && \
	    install -Dm644 "$(OUT)/_$$it" "$(ROOT)/share/zsh/site-functions/_$$it" && \
	    install -Dm644 "$(OUT)/$$it.fish" "$(ROOT)/share/fish/vendor_completions.d/$$it.fish" || exit; \
	done
	install -d "$(DOC)/docs/howto" "$(DOC)/bench"
	install -m644 README.md NOTICE CHANGELOG.md CONTRIBUTING.md SECURITY.md "$(DOC)"
	install -m644 docs/*.md docs/way.svg docs/page.png "$(DOC)/docs"
	install -m644 docs/howto/*.md "$(DOC)/docs/howto"
	install -m644 bench/README.md "$(DOC)/bench"
	install -Dm644 page/page.html "$(ROOT)/share/ksi/page.html"
	ln -sf ../../share/ksi/page.html "$(ROOT)/lib/ksi/page.html"

uninstall:
	$(REFUSED)
	cd "$(ROOT)" && rm -f bin/ksi-why share/man/man1/ksi-why.1 include/ksi.h
	cd "$(LIBRARIES)" && rm -f libksi.a $(SONAME) libksi.so pkgconfig/ksi.pc
	cd "$(ROOT)" && for it in $(NAMES); do \
	    rm -f bin/$$it share/man/man1/$$it.1 share/bash-completion/completions/$$it share/zsh/site-functions/_$$it share/fish/vendor_completions.d/$$it.fish; \
	done
	cd "$(ROOT)" && rm -f $(UNITS:%=lib/systemd/system/%) lib/sysusers.d/ksi.conf
	rm -rf "$(DOC)" "$(ROOT)/share/ksi" "$(ROOT)/lib/ksi"

deb:
	package/deb $(VERSION) "$(OUT)"

dist: all
	package/dist $(VERSION) "$(OUT)" "$(KIT)"

# the checksums of a release
sums:
	cd "$(OUT)" && rm -f SHA256SUMS && set -- * && test -e "$$1" && sha256sum -- "$$@" > SHA256SUMS
