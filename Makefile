# The ledger as a C library, and the listing program. `make` proves and builds the library, `make install` puts header, library and
# pkg-config file under PREFIX, `make list` prints the listing of FILE, `make test` tests both from outside. Everything made stands in
# target/.

PREFIX = /usr/local
INCLUDEDIR = $(PREFIX)/include
LIBDIR = $(PREFIX)/lib
# Of the interface, as the header says it.
VERSION := $(shell awk '/define TOLL_LEDGER_VERSION_/ {v = v dot $$3; dot = "."} END {print v}' include/toll_ledger.h)
RT = rt
CC = cc
CFLAGS = -O2 -std=c11 -Wall -Wextra -Wpedantic -Wconversion
LIBRARY = target/staticlib/libtoll_ledger.a
LISTING = target/bin/listing
# What `make list` lists.
FILE = examples/listing.csv

# The program where the toolchain builds it. `rt ci` leaves it there, so that what it has proved and built is taken as it is; of the
# library `rt ci` proves what stands in it, and builds no archive.
BUILT_LISTING = crates/listing/out/listing

# What library and program are made of: newer than they, and they are proved and built again.
SOURCES := crates.txt $(shell find crates -name out -prune -o \( -name '*.rt' -o -name '*.antt' \) -print)

.PHONY: build install uninstall host listing list test times bench clean

build: $(LIBRARY)

$(LIBRARY): $(SOURCES)
	cd crates/toll_ledger_c && $(RT) lib
	install -D -m 644 crates/toll_ledger_c/out/libtoll_ledger_c.a $@

# The example host, against the library as it stands here.
host: target/host

target/host: examples/host.c include/toll_ledger.h $(LIBRARY)
	$(CC) $(CFLAGS) -Iinclude -o $@ examples/host.c $(LIBRARY)

# The listing program, and the listing of a file by it.
listing: $(LISTING)

$(LISTING): $(BUILT_LISTING)
	install -D $< $@

# Taken away where it has run and did not do what it should; nothing to make again where only this copy is missing.
.DELETE_ON_ERROR:
.SECONDARY: $(BUILT_LISTING)
$(BUILT_LISTING): $(SOURCES)
	cd crates/listing && $(RT) run > /dev/null
	touch $@

list: $(LISTING)
	@$(LISTING) < $(FILE)

install: $(LIBRARY)
	install -d '$(DESTDIR)$(INCLUDEDIR)' '$(DESTDIR)$(LIBDIR)/pkgconfig'
	install -m 644 include/toll_ledger.h '$(DESTDIR)$(INCLUDEDIR)'
	install -m 644 $(LIBRARY) '$(DESTDIR)$(LIBDIR)'
	printf '%s\n' 'prefix=$(PREFIX)' 'includedir=$(INCLUDEDIR)' 'libdir=$(LIBDIR)' '' 'Name: toll_ledger' \
	  'Description: The toll account ledger, proved' 'Version: $(VERSION)' 'Cflags: -I$${includedir}' \
	  'Libs: -L$${libdir} -ltoll_ledger' > '$(DESTDIR)$(LIBDIR)/pkgconfig/toll_ledger.pc'

uninstall:
	rm -f '$(DESTDIR)$(INCLUDEDIR)/toll_ledger.h' '$(DESTDIR)$(LIBDIR)/libtoll_ledger.a' \
	  '$(DESTDIR)$(LIBDIR)/pkgconfig/toll_ledger.pc'

test: $(LIBRARY) $(LISTING)
	tests/run

# How long calls take on this machine.
times: $(LIBRARY)
	$(CC) $(CFLAGS) -Iinclude -o target/times tests/c/times.c tests/c/book.c $(LIBRARY)
	target/times

# The calls beside the same calls in plain C, the model of the tests: how long each takes.
bench: $(LIBRARY)
	$(CC) $(CFLAGS) -O3 -Iinclude -Itests/model -o target/bench bench/*.c tests/model/*.c $(LIBRARY)
	target/bench

clean:
	rm -rf target/tests target/host target/times target/bench $(LIBRARY) $(LISTING)
