# `make` proves the library and builds the archive and the shared library; `make install` puts them with the header, rtcp.pc, a CMake config, rtcpdump
# and its manual page under PREFIX, with DESTDIR before it; `make sample` runs the main job over the real datagrams in samples/.
PREFIX ?= /usr/local
DESTDIR ?=
VERSION := $(shell sed -n 's/^version = "\(.*\)"/\1/p' rust/Cargo.toml)
STATICLIB := target/staticlib
ARCHIVE := $(STATICLIB)/librtcp.a
SHARED := $(STATICLIB)/librtcp.so.0
SOURCES := crates.txt $(shell find crates -name out -prune -o -type f \( -name '*.rt' -o -name '*.antt' \) -print)
RTCPDUMP := rust/target/release/rtcpdump
RUST_SOURCES := rust/Cargo.toml rust/build.rs $(shell find rust/src -name '*.rs')
CAPTURES := $(sort $(wildcard samples/captures/*.hex))
ROOT := $(DESTDIR)$(PREFIX)

.PHONY: all install uninstall sample

all: $(SHARED)

# Where no source is newer, nothing is proved again, and the toolchain need not be there.
$(SHARED): $(SOURCES) $(ARCHIVE)
	tools/archive

$(ARCHIVE): ;

$(RTCPDUMP): $(SHARED) $(RUST_SOURCES)
	tools/needs cargo
	cargo build --quiet --release --offline --manifest-path rust/Cargo.toml --bin rtcpdump

install: $(SHARED) $(RTCPDUMP)
	install -d "$(ROOT)/bin" "$(ROOT)/include" "$(ROOT)/lib/pkgconfig" "$(ROOT)/lib/cmake/rtcp" "$(ROOT)/share/man/man1"
	install -m 644 $(ARCHIVE) "$(ROOT)/lib"
	install -m 755 $(SHARED) "$(ROOT)/lib"
	ln -sf librtcp.so.0 "$(ROOT)/lib/librtcp.so"
	install -m 644 include/rtcp.h "$(ROOT)/include"
	sed -e 's|@PREFIX@|$(PREFIX)|' -e 's|@VERSION@|$(VERSION)|' rtcp.pc.in >"$(ROOT)/lib/pkgconfig/rtcp.pc"
	sed -e 's|@VERSION@|$(VERSION)|' rtcp-config-version.cmake.in >"$(ROOT)/lib/cmake/rtcp/rtcp-config-version.cmake"
	install -m 644 rtcp-config.cmake "$(ROOT)/lib/cmake/rtcp"
	install -m 755 $(RTCPDUMP) "$(ROOT)/bin"
	install -m 644 docs/rtcpdump.1 "$(ROOT)/share/man/man1"
	chmod 644 "$(ROOT)/lib/pkgconfig/rtcp.pc" "$(ROOT)/lib/cmake/rtcp/rtcp-config-version.cmake"
	@echo "installed under $(ROOT): version $(VERSION), proved from commit $$(cat $(STATICLIB)/proved_from)"

uninstall:
	rm -f "$(ROOT)/lib/librtcp.a" "$(ROOT)/lib/librtcp.so" "$(ROOT)/lib/librtcp.so.0" "$(ROOT)/lib/pkgconfig/rtcp.pc" "$(ROOT)/include/rtcp.h"
	rm -f "$(ROOT)/lib/cmake/rtcp/rtcp-config.cmake" "$(ROOT)/lib/cmake/rtcp/rtcp-config-version.cmake"
	rm -f "$(ROOT)/bin/rtcpdump" "$(ROOT)/share/man/man1/rtcpdump.1"

sample: $(SHARED) $(RTCPDUMP)
	$(RTCPDUMP) --first 1 $(CAPTURES)
	cargo run --quiet --release --offline --manifest-path rust/Cargo.toml --example sample -- target/sample.hex $(CAPTURES)
	$(RTCPDUMP) target/sample.hex
