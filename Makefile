# Builds, checks, installs and packages the program and the library. GNU make.
#
#   make                                  the proved program, and libexifnorm for C and Python
#   make check                            every proof and every test (./test)
#   make install PREFIX=/usr DESTDIR=..   program, man pages, headers, libraries, exifnorm.pc, Python packages, completion, ..
#   make uninstall PREFIX=/usr DESTDIR=.. removes what install wrote there, and nothing else
#   make wheel                            a Python wheel with the library, in out/wheel
#   make wasm                             the library as WebAssembly, in out/wasm
#   make npm                              a JavaScript package with it, in out/npm
#   make page                             a web page with it, in out/page and docs/exifnorm.html
#   make c-source                         the library as C source for other machines, in out/c
#   make sdist                            the Python packages as source, which compile it, in out/sdist
#   make aarch64                          the program and libexifnorm for aarch64 Linux, proved for it, in out/aarch64
#   make wheel MACHINE=aarch64            a Python wheel with that library, in out/aarch64/wheel; so with install, too
#   make windows                          a Python wheel for Windows, with the library in C by mingw, in out/windows/wheel
#   make static                           the program for x86-64 and aarch64, without any library, in out/static
#   make dist                             an archive of all that install writes, its sums and its components, in out/dist
#   make release SIGN=KEY                 all packages, the archives and their sums, in out/release; signed if a key is given
#   make clean                            removes what was built, except the proofs in out/proved
#   make help                             prints these lines
#
# The first build proves every crate and takes minutes. If nothing changed, nothing is built again. See docs/PACKAGING.md.

PREFIX = /usr/local
DESTDIR =
BINDIR = $(PREFIX)/bin
LIBDIR = $(PREFIX)/lib
INCLUDEDIR = $(PREFIX)/include
MANDIR = $(PREFIX)/share/man
DOCDIR = $(PREFIX)/share/doc/exifnorm
BASHDIR = $(PREFIX)/share/bash-completion/completions
ZSHDIR = $(PREFIX)/share/zsh/site-functions
FISHDIR = $(PREFIX)/share/fish/vendor_completions.d
# the prefix as exifnorm.pc has it
PCPREFIX = $(PREFIX)
# the list of installed files, which uninstall follows
MANIFEST = $(PREFIX)/share/exifnorm/installed
# the machine that is built and packaged for: this one, or aarch64
MACHINE := $(shell uname -m)
# strips the installed shared library; if empty, it stays as it was linked
STRIP = $(tools)strip
PYTHON = python3
# the folder with that Python's headers; without Python.h there, the package is installed without its extension module
PYTHONINCLUDE = $(eval PYTHONINCLUDE := $(shell '$(PYTHON)' -c 'import sysconfig; print(sysconfig.get_paths()["include"])'))$(PYTHONINCLUDE)
# what the first line of exifnorm-pictures names, if that isn't the file of PYTHON
INTERPRETER =
# the first folder below PREFIX in which that Python looks for packages, or the usual one
PYTHONDIR = $(eval PYTHONDIR := $(shell '$(PYTHON)' -c 'import site, sys; below = sys.argv[1] + "/lib"; \
    print(next((it for it in site.getsitepackages() if it.startswith(below)), \
    "%s/python%d.%d/site-packages" % (below, *sys.version_info[:2])))' '$(PREFIX)'))$(PYTHONDIR)

# each of these is computed once, when it is first used
VERSION = $(eval VERSION := $(shell sed -n 's/^pub const VERSION: &str = "\(.*\)";$$/\1/p' crates/px_engine/src/version.rt))$(VERSION)
SONAME = libexifnorm.so.1
proved = out/proved/libpx_c.a
program = out/exifnorm
# the crate's archive, what it needs of C, the folder of all that is built, the programs of binutils, and the compiler
ifeq ($(MACHINE),aarch64)
archive = out/aarch64/libpx_c.a
in_c = $(built)/heap.o
built = out/aarch64/lib
tools = aarch64-linux-gnu-
cc = $(tools)gcc
# this Python has the headers of this machine alone
PYTHONINCLUDE =
else
archive = $(proved)
in_c = "$$(dirname "$$(rt doc)")/c/liblibc_c.a"
built = out/lib
tools =
cc = $(CC)
endif
packages = $(eval packages := $(patsubst python/%/__init__.py,%,$(shell find python -name __init__.py)))$(packages)
pages = $(wildcard docs/*.1 docs/*.3)
headers = $(addprefix $(built)/,$(notdir $(wildcard crates/px_c/include/*.h)))
# the licences, and the documents that installed pages, documents and modules refer to, with their pictures
papers = LICENSE-APACHE LICENSE-MIT CHANGELOG.md $(addprefix docs/,BLOCKS.md CATALOGUE.md COMPARED.md DECISIONS.md FORMAT.md JSON.md LARGE-ARCHIVES.md PYTHON.md RECIPES.md REFUSALS.md TUTORIAL.md) $(wildcard docs/*.svg docs/*.png)
# all that is installed, before it is copied to its folder
stage = out/stage

.PHONY: all program library check stage install uninstall wheel wasm npm page c-source sdist aarch64 windows static dist release clean help
.DELETE_ON_ERROR:

all: program library

# Both refuse what was compiled without proofs, before anything is installed or packaged.
program: $(if $(filter aarch64,$(MACHINE)),out/aarch64/bin/exifnorm)
	@python3 build/prove.py px_cli
	@ln -sfn proved/px_cli $(program)
	@python3 build/guard.py $(program) $<

library: $(built)/libexifnorm.a $(built)/libexifnorm.so $(headers)
	@python3 build/guard.py $(built)/libexifnorm.a $(built)/$(SONAME)

.PHONY: FORCE
# build/store.py knows what has to be proved and built again, as for the program. What is up to date keeps its time.
$(proved): FORCE
	@python3 build/prove.py px_c

out/aarch64/libpx_c.a: FORCE
	@python3 build/cross.py px_c aarch64

# The archive and what it needs of C as one object, which shows exifnorm_* alone.
$(built)/exifnorm.o: $(archive) $(filter %.o,$(in_c)) Makefile
	mkdir -p $(built)
	$(tools)ld -r -o $@ --whole-archive $(archive) $(in_c)
	$(tools)objcopy --wildcard --keep-global-symbol='exifnorm_*' $@

$(built)/heap.o: packaging/heap.c Makefile
	mkdir -p $(built)
	$(cc) -std=c99 -O2 -fPIC -c $< -o $@

$(built)/libexifnorm.a: $(built)/exifnorm.o
	rm -f $@
	$(tools)ar rcsD $@ $<

$(built)/$(SONAME): $(built)/exifnorm.o packaging/exifnorm.map
	$(cc) $(LDFLAGS) -shared -o $@ $< -Wl,-soname,$(SONAME) -Wl,--version-script=packaging/exifnorm.map -Wl,-z,defs -Wl,-z,relro \
	    -Wl,-z,now -Wl,-z,noexecstack

$(built)/libexifnorm.so: $(built)/$(SONAME)
	ln -sf $(SONAME) $@

$(built)/%.h: crates/px_c/include/%.h
	mkdir -p $(built)
	cp $< $@

# The extension module by which Python calls the library, for every CPython from 3.9 on. Not every version of Python's headers is C99. The
# names of the sources are relative, so every folder gives the same bytes.
$(built)/_native.abi3.so: python/exifnorm/_native.c python/exifnorm/_packed.h $(headers) Makefile
	$(cc) -std=c99 -O2 -fPIC -Wall -Wextra -pedantic -isystem '$(PYTHONINCLUDE)' -I crates/px_c/include $< -shared -s -Wl,-z,relro \
	    -Wl,-z,now -Wl,-z,noexecstack $(LDFLAGS) -o $@

check:
	./test

# A folder as exifnorm.pc names it, so that it moves with the prefix.
below_prefix = $(patsubst $(PREFIX)/%,$${prefix}/%,$(1))

# without Python.h, ctypes makes the calls
extension = $(if $(wildcard $(PYTHONINCLUDE)/Python.h),$(built)/_native.abi3.so)
left_out = there is no $(PYTHONINCLUDE)/Python.h, so _native.abi3.so is left out: Python calls the library by ctypes

.SECONDEXPANSION:
# Everything as it is installed, below out/stage.
stage: all $$(extension)
	rm -rf $(stage)
	install -d '$(stage)$(BINDIR)' '$(stage)$(LIBDIR)/pkgconfig' '$(stage)$(INCLUDEDIR)' '$(stage)$(DOCDIR)' \
	    '$(stage)$(MANDIR)/man1' '$(stage)$(MANDIR)/man3' '$(stage)$(BASHDIR)' '$(stage)$(ZSHDIR)' '$(stage)$(FISHDIR)'
	install -m 755 $(program) '$(stage)$(BINDIR)/exifnorm'
	install -m 644 $(headers) '$(stage)$(INCLUDEDIR)/'
	install -m 644 $(built)/libexifnorm.a '$(stage)$(LIBDIR)/libexifnorm.a'
	install -m 644 $(built)/$(SONAME) '$(stage)$(LIBDIR)/libexifnorm.so.$(VERSION)'
	$(if $(STRIP),$(STRIP) --strip-unneeded '$(stage)$(LIBDIR)/libexifnorm.so.$(VERSION)')
	ln -s libexifnorm.so.$(VERSION) '$(stage)$(LIBDIR)/$(SONAME)'
	ln -s $(SONAME) '$(stage)$(LIBDIR)/libexifnorm.so'
	printf '%s\n' 'prefix=$(PCPREFIX)' 'libdir=$(call below_prefix,$(LIBDIR))' 'includedir=$(call below_prefix,$(INCLUDEDIR))' '' \
	    'Name: exifnorm' 'Description: The normal form of Exif and IPTC metadata blocks' 'Version: $(VERSION)' \
	    'Libs: -L$${libdir} -lexifnorm' 'Cflags: -I$${includedir}' >'$(stage)$(LIBDIR)/pkgconfig/exifnorm.pc'
	chmod 644 '$(stage)$(LIBDIR)/pkgconfig/exifnorm.pc'
	install -d '$(stage)$(LIBDIR)/cmake/exifnorm'
	for file in packaging/cmake/*.cmake; do \
	    sed "s|@VERSION@|$(VERSION)|; s|@INCLUDE@|$$(realpath -m --relative-to='$(LIBDIR)/cmake/exifnorm' '$(INCLUDEDIR)')|" "$$file" \
	        >"$(stage)$(LIBDIR)/cmake/exifnorm/$${file##*/}" || exit 1; \
	done
	chmod 644 '$(stage)$(LIBDIR)/cmake/exifnorm/'*
	for page in $(pages); do install -m 644 "$$page" "$(stage)$(MANDIR)/man$${page##*.}/" || exit 1; done
	install -m 644 $(papers) '$(stage)$(DOCDIR)/'
	for folder in $(wildcard samples/*/*/); do \
	    install -d "$(stage)$(DOCDIR)/$$folder" && install -m 644 "$$folder"* "$(stage)$(DOCDIR)/$$folder" || exit 1; \
	done
	for package in $(packages); do \
	    install -d "$(stage)$(PYTHONDIR)/$$package" && \
	    install -m 644 python/$$package/*.py "$(stage)$(PYTHONDIR)/$$package/" || exit 1; \
	done
	for file in $(wildcard python/*/py.typed python/*/*.json python/*/*/templates/*); do \
	    install -D -m 644 "$$file" "$(stage)$(PYTHONDIR)/$${file#python/}" || exit 1; \
	done
	ln -s "$$(realpath -m --relative-to='$(PYTHONDIR)/exifnorm' '$(LIBDIR)')/$(SONAME)" '$(stage)$(PYTHONDIR)/exifnorm/$(SONAME)'
	$(if $(extension),install -m 644 $(extension) '$(stage)$(PYTHONDIR)/exifnorm/',@echo 'exifnorm: $(left_out)')
	python3 packaging/dist_info.py python '$(stage)$(PYTHONDIR)'
	'$(PYTHON)' packaging/command.py '$(BINDIR)' '$(PYTHONDIR)' $(if $(INTERPRETER),'$(INTERPRETER)') >'$(stage)$(BINDIR)/exifnorm-pictures'
	chmod 755 '$(stage)$(BINDIR)/exifnorm-pictures'
	for command in exifnorm exifnorm-pictures; do \
	    python3 packaging/completions.py "$(stage)$(BINDIR)/$$command" '$(stage)$(BASHDIR)' '$(stage)$(ZSHDIR)' '$(stage)$(FISHDIR)' || exit 1; \
	done
	$(if $(filter aarch64,$(MACHINE)),install -m 755 out/aarch64/bin/exifnorm '$(stage)$(BINDIR)/')

install: stage
	sh packaging/manifest.sh install $(stage) '$(DESTDIR)' '$(MANIFEST)'
	@[ -n '$(DESTDIR)' ] || printf '%s\n' '' 'exifnorm is installed. Next:' \
	    '  ldconfig   # as root: programs in C then find $(LIBDIR)/$(SONAME); or set LD_LIBRARY_PATH' '  export PATH=$(BINDIR):$$PATH' \
	    '  apt-get install libimage-exiftool-perl   # ExifTool, which exifnorm-pictures needs' \
	    '  exifnorm-pictures changed $(DOCDIR)/samples/before $(DOCDIR)/samples/after   # a first try'

uninstall:
	sh packaging/manifest.sh uninstall '$(DESTDIR)' '$(MANIFEST)'

# The date of the version, so that the same sources make the same bytes at any time.
epoch = $$(date -d "$$(sed -n 's/^ -- .*>  //p' debian/changelog | head -n 1)" +%s)

wheel: library $$(extension)
	rm -f $(built:lib=wheel)/*.whl
	SOURCE_DATE_EPOCH=$(epoch) EXIFNORM_MACHINE=$(MACHINE) '$(PYTHON)' -m pip wheel --no-build-isolation --no-deps \
	    --disable-pip-version-check -w $(built:lib=wheel) ./python

wasm: $(proved)
	@python3 build/wasm.py out/wasm
	@python3 build/guard.py out/wasm/exifnorm.wasm out/wasm/exifnorm64.wasm

npm: wasm
	rm -f out/npm/*.tgz
	python3 packaging/npm.py out/wasm/exifnorm.wasm $(VERSION) $(epoch) out/npm/exifnorm-$(VERSION).tgz

page: wasm
	rm -f out/page/*.html
	python3 packaging/page.py out/wasm/exifnorm.wasm out/page/exifnorm-$(VERSION).html
	@python3 build/guard.py out/page/exifnorm-$(VERSION).html
	cp out/page/exifnorm-$(VERSION).html docs/exifnorm.html

c-source: $(proved)
	@python3 packaging/c_source.py $(VERSION) $(epoch) out/c

sdist: c-source
	@python3 packaging/sdist.py out/c/exifnorm-$(VERSION)-c $(epoch) out/sdist

# IN_C names the folder of the C source, if it was made before.
windows: from_c = $(or $(IN_C),out/c/exifnorm-$(VERSION)-c)
windows: $(if $(IN_C),,c-source)
	mkdir -p out/windows/lib
	x86_64-w64-mingw32-gcc -std=c99 -O2 -w -shared -s -o out/windows/lib/exifnorm.dll '$(from_c)/exifnorm.c'
	rm -f out/windows/wheel/*.whl
	SOURCE_DATE_EPOCH=$(epoch) EXIFNORM_MACHINE=windows '$(PYTHON)' -m pip wheel --no-build-isolation --no-deps \
	    --disable-pip-version-check -w out/windows/wheel ./python

# Programs of px_cli, with os.c and heap.c in place of the toolchain's C code: one for aarch64, and those with glibc in them. musl 1.2.3 has
# not all that the program calls.
aarch64:
	@$(MAKE) MACHINE=aarch64 all

static: library out/static/exifnorm-x86_64 out/static/exifnorm-aarch64
	@python3 build/guard.py $(filter out/static/%,$^)
	@python3 packaging/static.py $(VERSION) $(epoch) out/static

out/x86_64/px_cli.o out/aarch64/px_cli.o: out/%/px_cli.o: FORCE
	@python3 build/cross.py px_cli $*

out/x86_64/program.o: objcopy = objcopy
out/aarch64/program.o: objcopy = aarch64-linux-gnu-objcopy
out/x86_64/program.o out/aarch64/program.o: %/program.o: %/px_cli.o
	$(objcopy) --redefine-sym main=rattle_main $< $@

in_place_of_the_kit = packaging/os.c packaging/heap.c

out/aarch64/bin/exifnorm: out/aarch64/program.o $(in_place_of_the_kit) Makefile
	mkdir -p out/aarch64/bin
	aarch64-linux-gnu-gcc -std=c99 -O2 -fPIE -pie -s -Wl,--gc-sections -Wl,-z,relro -Wl,-z,now -Wl,-z,noexecstack -o $@ $< $(in_place_of_the_kit)

out/static/exifnorm-x86_64: static_cc = $(CC)
out/static/exifnorm-aarch64: static_cc = aarch64-linux-gnu-gcc
out/static/exifnorm-x86_64 out/static/exifnorm-aarch64: out/static/exifnorm-%: out/%/program.o $(in_place_of_the_kit) Makefile
	mkdir -p out/static
	$(static_cc) -std=c99 -O2 -static -s -Wl,--gc-sections -o $@ $< $(in_place_of_the_kit)

# Everything in one folder that can be unpacked anywhere.
dist_name = exifnorm-$(VERSION)-$(shell uname -s | tr A-Z a-z)-$(shell uname -m)
kit = $$(dirname "$$(rt doc)")
dist:
	rm -rf out/dist
	mkdir -p out/dist
	$(MAKE) stage stage=out/dist/$(dist_name) PREFIX= PCPREFIX='$$$${pcfiledir}/../..' PYTHONDIR=/lib/python3/site-packages \
	    INTERPRETER='/usr/bin/env python3'
	python3 packaging/components.py $(VERSION) $(epoch) "$(kit)" out/dist/exifnorm-$(VERSION).spdx.json \
	    out/dist/$(dist_name)/share/doc/exifnorm/crates
	cp out/dist/exifnorm-$(VERSION).spdx.json out/dist/$(dist_name)/share/doc/exifnorm/
	cp packaging/archive/README packaging/archive/INSTALL out/dist/$(dist_name)/
	tar --create --sort=name --mtime=@$(epoch) --owner=0 --group=0 --numeric-owner --mode=u=rwX,go=rX --format=gnu -C out/dist $(dist_name) | \
	    gzip -9 -n >out/dist/$(dist_name).tar.gz
	rm -r out/dist/$(dist_name)
	cd out/dist && sha256sum exifnorm-* >SHA256SUMS

# Everything for one version, made of the sources that git lists. SIGN names the key of the signature.
SIGN =
release: all aarch64 static
	python3 packaging/release.py $(VERSION) $(epoch) '$(SIGN)'

# The proofs take minutes, and stay.
clean:
	rm -rf $(filter-out out/proved,$(wildcard out/*)) debian/tmp debian/files debian/.debhelper debian/debhelper-build-stamp \
	    debian/*.substvars debian/*.debhelper.log debian/*.debhelper $(addprefix debian/,$(shell sed -n 's/^Package: //p' debian/control))
	find . -name __pycache__ -type d -prune -exec rm -r {} +

help:
	@sed -n 's/^#   make/make/p' Makefile
