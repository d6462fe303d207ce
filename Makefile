# The command, the shared library, and what a compiler needs to find them:
#
#   make                                    # target/command/pechuvo and target/shared
#   make install PREFIX=/usr/local          # with DESTDIR=.. below another root, for a package
#
# The archive is built where it is missing, which proves every crate and takes minutes; 'bash tests/archive' builds it
# anew after a change. The shared library is for ELF systems.

PREFIX = /usr/local
BINDIR = $(PREFIX)/bin
LIBDIR = $(PREFIX)/lib
INCLUDEDIR = $(PREFIX)/include
MANDIR = $(PREFIX)/share/man
DOCDIR = $(PREFIX)/share/doc/pechuvo
DESTDIR =

BUILD = target
CFLAGS = -O2
WARNINGS = -Wall -Wextra -Wpedantic -Wconversion

version_of = $(shell sed -nE 's/^\#define PECHUVO_VERSION$(1) "?([0-9.]+)"?$$/\1/p' include/pechuvo.h)
VERSION := $(call version_of,)
MAJOR := $(call version_of,_MAJOR)

ARCHIVE = target/staticlib/libpechuvo.a
COMMAND = $(BUILD)/command/pechuvo
LIBRARY = libpechuvo.so
SONAME = $(LIBRARY).$(MAJOR)
SHARED = $(BUILD)/shared/$(LIBRARY).$(VERSION)

# The pictures that the page of the files shows.
PICTURES := $(shell sed -nE 's|^!\[.*\]\(pictures/([a-z0-9_]+\.svg)\)$$|\1|p' docs/FILES.md)

INSTALLED = "$(DESTDIR)$(BINDIR)/pechuvo" "$(DESTDIR)$(INCLUDEDIR)/pechuvo.h" "$(DESTDIR)$(LIBDIR)/libpechuvo.a" \
  "$(DESTDIR)$(LIBDIR)/$(LIBRARY).$(VERSION)" "$(DESTDIR)$(LIBDIR)/$(SONAME)" "$(DESTDIR)$(LIBDIR)/$(LIBRARY)" \
  "$(DESTDIR)$(LIBDIR)/pkgconfig/pechuvo.pc" "$(DESTDIR)$(MANDIR)/man1/pechuvo.1" "$(DESTDIR)$(DOCDIR)/FILES.md" \
  $(foreach picture,$(PICTURES),"$(DESTDIR)$(DOCDIR)/pictures/$(picture)")

all: $(COMMAND) $(SHARED)

shared: $(SHARED)

$(ARCHIVE):
	bash tests/archive

$(COMMAND): $(wildcard command/*.c command/*.h) include/pechuvo.h $(ARCHIVE)
	@mkdir -p $(@D)
	$(CC) -std=c11 $(WARNINGS) $(CFLAGS) -Iinclude command/*.c $(ARCHIVE) $(LDFLAGS) -o $@

# The archive's code is independent of its position, and the link fails if it isn't or takes anything but libc's.
$(SHARED): command/exported.map $(ARCHIVE)
	@mkdir -p $(@D)
	$(CC) -shared $(CFLAGS) -Wl,-soname,$(SONAME) -Wl,--version-script=command/exported.map -Wl,-z,defs -Wl,-z,text \
	  -Wl,--whole-archive $(ARCHIVE) -Wl,--no-whole-archive $(LDFLAGS) -o $@
	ln -sf $(@F) $(@D)/$(SONAME)
	ln -sf $(SONAME) $(@D)/$(LIBRARY)

install: all
	@case "$(PREFIX)" in /*) ;; *) echo "PREFIX: $(PREFIX): not a path from the root"; exit 1;; esac
	@case "$(PREFIX) $(LIBDIR) $(INCLUDEDIR)" in *\ *\ *\ * | *[\|\&\\\#\']*) \
	  echo "PREFIX: $(PREFIX): a compiler's flags take no such path: a space or one of | & \\ # '"; exit 1;; esac
	install -d "$(DESTDIR)$(BINDIR)" "$(DESTDIR)$(INCLUDEDIR)" "$(DESTDIR)$(LIBDIR)/pkgconfig" \
	  "$(DESTDIR)$(MANDIR)/man1" "$(DESTDIR)$(DOCDIR)/pictures"
	install -m 755 $(COMMAND) "$(DESTDIR)$(BINDIR)"
	install -m 644 include/pechuvo.h "$(DESTDIR)$(INCLUDEDIR)"
	install -m 644 $(ARCHIVE) "$(DESTDIR)$(LIBDIR)"
	install -m 755 $(SHARED) "$(DESTDIR)$(LIBDIR)"
	ln -sf $(LIBRARY).$(VERSION) "$(DESTDIR)$(LIBDIR)/$(SONAME)"
	ln -sf $(SONAME) "$(DESTDIR)$(LIBDIR)/$(LIBRARY)"
	sed -e 's|@PREFIX@|$(PREFIX)|' -e 's|@LIBDIR@|$(LIBDIR)|' -e 's|@INCLUDEDIR@|$(INCLUDEDIR)|' \
	  -e 's|@VERSION@|$(VERSION)|' command/pechuvo.pc.in > "$(DESTDIR)$(LIBDIR)/pkgconfig/pechuvo.pc"
	chmod 644 "$(DESTDIR)$(LIBDIR)/pkgconfig/pechuvo.pc"
	install -m 644 command/pechuvo.1 "$(DESTDIR)$(MANDIR)/man1"
	install -m 644 docs/FILES.md "$(DESTDIR)$(DOCDIR)"
	install -m 644 $(addprefix docs/pictures/,$(PICTURES)) "$(DESTDIR)$(DOCDIR)/pictures"

uninstall:
	rm -f $(INSTALLED)
	rmdir "$(DESTDIR)$(DOCDIR)/pictures" "$(DESTDIR)$(DOCDIR)" 2> /dev/null || true

check: all
	bash tests/command/run
	bash tests/install/run

# The archive stays.
clean:
	rm -rf $(BUILD)/command $(BUILD)/shared

.PHONY: all shared install uninstall check clean
