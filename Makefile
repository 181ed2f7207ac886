# The most frequent tasks. Only the `dist` targets need `rt`.
#
#   make check                      runs the quick checks of a change, and all tests that are scripts
#   make dist                       proves and builds the contents of dist/; half an hour to an hour
#   make dist-arm64                 builds the contents of dist/aarch64, after make dist
#   make dist-web                   builds the module for web pages, after make dist
#   make hosts                      builds the modules for libtss2 and swtpm, and the simulator, in out/
#   make install PREFIX=/usr/local  installs the contents of dist/; DESTDIR is a folder that precedes PREFIX
#   make deb                        makes the package for Debian in out/; make deb-arm64 makes it for ARM64
#   make crate, make wheel, make go make the packages for Rust, Python and Go in out/
PREFIX = /usr/local
DESTDIR =

.PHONY: check dist dist-arm64 dist-web hosts install deb deb-arm64 crate wheel go

check:
	tools/before_commit.sh
	tools/scripts.sh

dist:
	tools/build.sh
	tools/dist.sh
	tools/library.sh
	hosts/shared.sh

dist-arm64:
	tools/aarch64.sh

dist-web:
	tools/web.sh

hosts:
	hosts/build.sh tcti out
	hosts/build.sh simulator out
	hosts/build.sh libtpms out/swtpm

install:
	DESTDIR='$(DESTDIR)' PREFIX='$(PREFIX)' tools/install.sh

deb:
	tools/deb.sh

deb-arm64:
	tools/deb.sh --machine aarch64

crate:
	tools/crate.sh

wheel:
	tools/wheel.py

go:
	tools/go_module.py
