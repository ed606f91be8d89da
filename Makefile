# make                       proves and builds the library and the command for this machine, in target/native
# make check                 tests what is built, from outside (no proof of its own: the gate, .ci/run, has those)
# make install PREFIX=DIR    installs them, with header, pkg-config file and man page; DESTDIR stands before it
# make uninstall PREFIX=DIR  takes away what `make install` of the same version and PREFIX put there

PREFIX ?= /usr/local
DESTDIR ?=
INSTALL ?= install
PYTHON ?= python3
VERSION := $(shell cat VERSION)
SERIES := $(basename $(VERSION))
filled := sed -e "s|@PREFIX@|$$PREFIX|" -e "s|@VERSION@|$(VERSION)|"
# The shell's, so that no character of it means anything to make.
to := "$$DESTDIR$$PREFIX"
export PREFIX DESTDIR

.PHONY: all check install uninstall clean prefix

all:
	@build/native library
	@build/native rate

check: all
	build/version --check
	tests/outside/run
	$(PYTHON) -B -m unittest discover -s bindings/python/tests
	$(PYTHON) -B -m unittest discover -s tests/command
	$(PYTHON) -B -m unittest discover -s tests/packages

install: prefix all
	$(INSTALL) -d $(to)/bin $(to)/lib/pkgconfig $(to)/include $(to)/share/man/man1
	$(INSTALL) -m 755 target/native/rate $(to)/bin/rate
	$(INSTALL) -m 644 target/native/libimbrolt.a $(to)/lib/libimbrolt.a
	$(INSTALL) -m 755 target/native/libimbrolt.so $(to)/lib/libimbrolt.so.$(VERSION)
	ln -sf libimbrolt.so.$(VERSION) $(to)/lib/libimbrolt.so.$(SERIES)
	ln -sf libimbrolt.so.$(SERIES) $(to)/lib/libimbrolt.so
	$(INSTALL) -m 644 include/imbrolt.h $(to)/include/imbrolt.h
	$(filled) build/imbrolt.pc.in > $(to)/lib/pkgconfig/imbrolt.pc
	$(filled) command/rate.1 > $(to)/share/man/man1/rate.1
	chmod 644 $(to)/lib/pkgconfig/imbrolt.pc $(to)/share/man/man1/rate.1

uninstall: prefix
	rm -f $(to)/bin/rate $(to)/include/imbrolt.h $(to)/share/man/man1/rate.1 $(to)/lib/pkgconfig/imbrolt.pc
	rm -f $(to)/lib/libimbrolt.a $(to)/lib/libimbrolt.so $(to)/lib/libimbrolt.so.$(SERIES) $(to)/lib/libimbrolt.so.$(VERSION)

# It stands in the pkg-config file: a path from the root, without characters that mean something there.
prefix:
	@case $$PREFIX in ''|[!/]*|*[!A-Za-z0-9/._+@~-]*) \
		echo "make: PREFIX has to be a path from the root, of letters, digits and / . _ + @ ~ - alone: '$$PREFIX'" >&2; \
		exit 1 ;; \
	esac

clean:
	rm -rf target
