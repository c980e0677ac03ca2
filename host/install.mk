# make shared, install and uninstall. The version is the header's; the pkg-config file and the shared object's name
# have it from there.
PREFIX ?= /usr/local
BINDIR ?= $(PREFIX)/bin
LIBDIR ?= $(PREFIX)/lib
INCLUDEDIR ?= $(PREFIX)/include
DOCDIR ?= $(PREFIX)/share/doc/doughpillar

VERSION := $(shell sed -n 's/^.define DOUGHPILLAR_VERSION "\(.*\)"$$/\1/p' include/doughpillar.h)
SONAME := libdoughpillar.so.$(firstword $(subst ., ,$(VERSION)))
SHARED := libdoughpillar.so.$(VERSION)

.PHONY: shared install uninstall

# make shared: the library as a shared object, for languages that load it as they run.
shared: target/shared/$(SHARED)

target/shared/$(SHARED): $(LIBRARY) include/doughpillar.h
	@mkdir -p target/shared
	@$(CC) -shared -Wl,-soname,$(SONAME) -Wl,-z,defs -Wl,--whole-archive $(LIBRARY) -Wl,--no-whole-archive -o $@
	@ln -sf $(SHARED) target/shared/$(SONAME)
	@ln -sf $(SONAME) target/shared/libdoughpillar.so

# make install: under PREFIX, an absolute path; DESTDIR is put before each path, for those who make packages.
install: library listing host shared
	@install -d $(addprefix $(DESTDIR),$(BINDIR) $(LIBDIR)/pkgconfig $(INCLUDEDIR) $(DOCDIR))
	@install -m 755 target/bin/listing $(DESTDIR)$(BINDIR)/doughpillar-listing
	@install -m 755 target/host/logger $(DESTDIR)$(BINDIR)/doughpillar-logger
	@install -m 644 $(LIBRARY) $(DESTDIR)$(LIBDIR)
	@install -m 755 target/shared/$(SHARED) $(DESTDIR)$(LIBDIR)
	@ln -sf $(SHARED) $(DESTDIR)$(LIBDIR)/$(SONAME)
	@ln -sf $(SONAME) $(DESTDIR)$(LIBDIR)/libdoughpillar.so
	@sed 's|@PREFIX@|$(PREFIX)|; s|@LIBDIR@|$(LIBDIR)|; s|@INCLUDEDIR@|$(INCLUDEDIR)|; s|@VERSION@|$(VERSION)|' \
		host/doughpillar.pc.in > $(DESTDIR)$(LIBDIR)/pkgconfig/doughpillar.pc
	@install -m 644 include/doughpillar.h $(DESTDIR)$(INCLUDEDIR)
	@install -m 644 docs/FORMAT.md $(DESTDIR)$(DOCDIR)

# make uninstall: removes what make install with the same PREFIX and DESTDIR put there.
uninstall:
	@rm -f $(addprefix $(DESTDIR)$(BINDIR)/,doughpillar-listing doughpillar-logger) \
		$(addprefix $(DESTDIR)$(LIBDIR)/,libdoughpillar.a libdoughpillar.so $(SONAME) $(SHARED) pkgconfig/doughpillar.pc) \
		$(DESTDIR)$(INCLUDEDIR)/doughpillar.h $(DESTDIR)$(DOCDIR)/FORMAT.md
	@[ ! -d $(DESTDIR)$(DOCDIR) ] || rmdir --ignore-fail-on-non-empty $(DESTDIR)$(DOCDIR)
