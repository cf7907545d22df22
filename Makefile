# `make demo` and `make test` are all that a fresh clone needs; README.md says what must be installed.
# All that is built stands under target/ and compare/target/; the toolchain keeps its own work in crates/*/out/.

archive := target/staticlib/libopl.a
# the same for the machine at hand, to measure and to run under a memory checker
native := target/native/libopl.a
headend := target/examples/headend
listing := target/bin/listing
# what the demonstration is run on, and the frames and the IP packets out of them that it writes; `make demo sheet=FILE`
# takes another, and so on; `make demo stream=` sends no transport stream, `make demo ip=` no IP packets; and how many
# capacity units a frame has; empty: as many as the head-end takes by itself
sheet := examples/sheets/story.sheet
payload := README.md
stream := examples/streams/story.ts
ip := examples/streams/story.ip
frames := target/demo/frames.bin
packets := target/demo/packets.ip
units :=
headers := $(wildcard include/*.h)
# as opl.h has it, in three lines
version = $(shell awk '$$2 ~ /^OPL_VERSION_(MAJOR|MINOR|PATCH)$$/ { print $$3 }' include/opl.h | paste -s -d . -)
# where `make install` puts the library; DESTDIR, where it is set, goes before each of them
PREFIX := /usr/local
includedir := $(PREFIX)/include
libdir := $(PREFIX)/lib
pkgconfigdir := $(libdir)/pkgconfig
# folders too, so that a file that is gone counts as a change
sources := crates.txt $(shell find crates \( -name must-fail -o -name out \) -prune -o \( -type d -o -name '*.rt' -o -name '*.antt' \) -print)

# how many pairs of words `make self-test` adds under each pattern; empty: as many as the head-end does by itself
pairs :=
# how long `make soak` fuzzes
seconds := 60
# whether `make bench` counts instructions instead of measuring times; any word but an empty one is yes
counts :=

# what each target needs installed, besides make and a shell
tools-demo := rt gcc
tools-self-test := $(tools-demo)
tools-test := rt gcc g++ cargo python3
tools-lib := rt
tools-bench := rt gcc cargo $(if $(counts),valgrind)
tools-soak := rt gcc g++ cargo valgrind
# what cargo is run with so that compare/ links $(native); apart from what it builds for the tests
natively := OPL_ARCHIVE=$(native) CARGO_TARGET_DIR=target/native
missing = $(strip $(foreach tool,$1,$(if $(shell command -v $(tool) 2>/dev/null),,$(tool))))

need = $(if $(call missing,$(tools-$1)),$(error make $1 needs what is not installed: $(call missing,$(tools-$1)) (README.md, "What must be installed")))

.PHONY: help demo self-test test bench soak lib install uninstall install-test clean
.PHONY: need-demo need-self-test need-test need-bench need-soak
.DELETE_ON_ERROR:

help:
	@echo 'make demo    build the library and the C head-end of examples/, play some frames of a sheet and take them apart'
	@echo '             (sheet=FILE, payload=FILE, stream=FILE, ip=FILE, frames=FILE, packets=FILE: other files;'
	@echo '             stream=: no transport stream, ip=: no IP packets; units=N: frames of so many capacity units)'
	@echo 'make self-test'
	@echo '             have the head-end encode sums of words under each pattern and hold them to the sums of codewords'
	@echo '             (pairs=N: another number of sums under each)'
	@echo 'make test    prove everything, then test the library that was proved'
	@echo 'make bench   compare the speed of each function with the second implementation (counts=1: count instructions)'
	@echo 'make soak    fuzz the library for a minute (seconds=N for longer), then look for memory faults'
	@echo 'make lib     build the library, $(archive)'
	@echo 'make install, make uninstall'
	@echo '             put the library, its headers and opl.pc under $(PREFIX) (PREFIX=FOLDER for another), and remove them'
	@echo 'make clean   remove all that was built'

# the head-end is run, and says why, even where the listing program refused the sheet
demo: need-demo $(headend) $(listing)
	@mkdir -p target/demo
	@echo 'the sheet, $(sheet)'
	@listed=0; \
	sh tools/x86-64.sh run $(listing) <'$(sheet)' || listed=$$?; \
	sh tools/x86-64.sh run $(headend) $(if $(units),--units '$(units)') $(if $(ip),--ip '$(ip)' '$(packets)') \
	    '$(sheet)' '$(payload)' '$(frames)' $(if $(stream),'$(stream)') && exit $$listed

self-test: need-self-test $(headend)
	@sh tools/x86-64.sh run $(headend) --self-test $(if $(pairs),'$(pairs)')

test: need-test
	@bash tools/test.sh

bench: need-bench $(native)
	@cd compare && $(natively) cargo run --release --offline --locked --quiet --bin bench $(if $(counts),-- counts)

soak: need-soak $(archive) $(native) $(listing)
	@bash tools/soak.sh $(seconds) $(native)

lib: $(archive)

install: $(archive)
	$(if $(filter /%,$(PREFIX)),,$(error PREFIX is to be a full path, and is '$(PREFIX)'))
	install -d '$(DESTDIR)$(includedir)' '$(DESTDIR)$(libdir)' '$(DESTDIR)$(pkgconfigdir)'
	install -m 644 $(headers) '$(DESTDIR)$(includedir)'
	install -m 644 $(archive) '$(DESTDIR)$(libdir)/libopl.a'
	sed -e 's|@version@|$(version)|' -e 's|@prefix@|$(PREFIX)|' \
	    -e 's|@includedir@|$(includedir:$(PREFIX)/%=$${prefix}/%)|' -e 's|@libdir@|$(libdir:$(PREFIX)/%=$${prefix}/%)|' \
	    tools/opl.pc.in >'$(DESTDIR)$(pkgconfigdir)/opl.pc'
	chmod 644 '$(DESTDIR)$(pkgconfigdir)/opl.pc'

uninstall:
	rm -f $(headers:include/%='$(DESTDIR)$(includedir)/%')
	rm -f '$(DESTDIR)$(libdir)/libopl.a' '$(DESTDIR)$(pkgconfigdir)/opl.pc'

install-test: $(archive)
	@sh tools/install-test.sh

clean:
	rm -rf target compare/target crates/*/out

# looked for here, not before: `sudo make install` of a library that is built needs no rt
$(archive): $(sources)
	$(call need,lib)@sh tools/built.sh opl $@

$(native): tools/native.sh $(archive)
	@sh tools/native.sh $@

$(headend): $(wildcard examples/*.c examples/*.h) $(headers) tools/x86-64.sh $(archive)
	@mkdir -p $(@D)
	@sh tools/x86-64.sh build $@ $(filter %.c,$^)

# after the archive, not beside it: both prove the crates that they share
target/bin/listing: $(sources) | need-demo $(archive)
	@sh tools/built.sh listing $@

need-demo need-self-test need-test need-bench need-soak: need-%:
	$(call need,$*)@:
