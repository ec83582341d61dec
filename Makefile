# make demo     shows `ccsuite pairs` on a cue list within a minute, not yet proved; then does as `make`, and shows it again
# make          proves the program, the laws of what it puts, and every crate below them, as the gate does, and builds it: build/ccsuite
# make check    the gate: every proof, the must-fail edits, the tests, the program by two compilers; on a new machine from nothing, later without
#               the proofs and edits that passed there, of crates that are as they were, with all below them
# make edits    tries the edits of edits/ too, of each crate, which takes hours: each must be refused; with CRATE=name those of one crate
# make bench    measures each command, and cue lists, the receiver's frames, pairs and bytes of services by themselves, and puts the rows into bench/README.md
# make lib      proves the library for C and builds it: build/libccsuite.a, in one file with what it needs of the kit, and build/libccsuite.so; if
#               GStreamer's headers are there, also an example of a plugin, which isn't proved: build/libgstccsuite.so
# make install  puts the program, the library with its header, the man pages, completions, documents, examples and viewer under PREFIX
#               (/usr/local), in DESTDIR if it is set; with LIBRARY= all but the library; with PYTHON=/usr/bin/python3 its module for Python too,
#               among the modules of that one, or in pythondir. bindir, libdir, includedir, datadir, mandir and docdir can be set, each by
#               itself, as the GNU standards have them
# make uninstall      takes away what install puts
# make faults   makes memory, reads and writes fail at each place of short runs, and compares how each run ends (needs strace)
# make check-install  tries both in a folder of its own: the files, the man page, each shell's completions
# make deb      builds the Debian packages of what install puts: ccsuite, libccsuite0 and libccsuite-dev, build/NAME_VERSION_ARCHITECTURE.deb
# make check-deb      tries them in a folder of their own: lintian, what is installed, the program, and that nothing is left when they go
# make check-lib      tries the library by C programs: against the program, byte for byte, with sanitizers, refused memory, threads (needs gcc);
#               and its module for Python
# make scale    tries an archive of 50 parts, two of them with damage, by GNU parallel and by a one-node Slurm
# make try      runs the commands of the manual, the cookbook and the man page and compares what they print; tries subtitles.py, video.py, and the
#               viewer in a Chromium
# make help     prints these lines

PREFIX ?= /usr/local
prefix ?= $(PREFIX)
exec_prefix ?= $(prefix)
bindir ?= $(exec_prefix)/bin
libdir ?= $(exec_prefix)/lib
includedir ?= $(prefix)/include
datarootdir ?= $(prefix)/share
datadir ?= $(datarootdir)
mandir ?= $(datarootdir)/man
docdir ?= $(datarootdir)/doc/ccsuite
# the program and the library that install puts
PROGRAM ?= build/ccsuite
LIBRARY ?= build/libccsuite.a build/libccsuite.so
# the Python whose modules have the library's, and where they are; none if it isn't told
PYTHON ?=
pythondir ?= $(if $(PYTHON),$(shell $(PYTHON) -c 'import sysconfig; print(sysconfig.get_path("purelib"))'))
# where Debian's bash, zsh and fish look; a package's completions for zsh stand apart from those of this machine's own programs
bashdir ?= $(datarootdir)/bash-completion/completions
zshdir ?= $(datarootdir)/zsh/$(if $(filter /usr,$(prefix)),vendor-completions,site-functions)
fishdir ?= $(datarootdir)/fish/vendor_completions.d
DOCUMENTS = README.md docs/MANUAL.md docs/COOKBOOK.md docs/PROVED.md docs/GLOSSARY.md docs/SCALE.md
EXAMPLES = $(wildcard examples/*.*)
# the scripts that are programs of their own: video.py is ccsuite-video
SCRIPTS = video cdp subtitles
# what the scripts import
MODULES = passage
# the programs that shells complete
COMPLETED = ccsuite ccsuite-subtitles
# a document as it is installed: it names the files where they are
INSTALLED = sed -e 's!docs/\(MANUAL\|COOKBOOK\|PROVED\|GLOSSARY\|SCALE\)\.md!$(docdir)/\1.md!g' \
    -e 's!\(\.\./\)*viewer/viewer\.\(html\|png\)!$(datadir)/ccsuite/viewer.\2!g' -e 's!library/ccsuite\.h!$(includedir)/ccsuite.h!g' \
    -e 's!`\(docs/[A-Z]*\.md\|bench/[A-Z]*\.md\|make [^`]*\)`!& of the source!g' -e '/^make [a-z]* *\#/s/$$/, in the source/' -e 's/@VERSION@/$(VERSION)/'
# the kit that `rt` is of
KIT = $(dir $(realpath $(shell command -v rt)))..
# the version that the man page and the package tell
VERSION := $(shell sed -n '1s/.*(\(.*\)).*/\1/p' package/changes)
# the library's name as programs ask for it: another number if a program would have to be compiled anew
SONAME := libccsuite.so.0
DEB = build/ccsuite_$(VERSION)_$(shell dpkg --print-architecture).deb
# how many crates are proved side by side
JOBS ?= $(shell nproc)
export RT_JOBS ?= $(JOBS)
LIST := examples/hello.csv
SOURCES := crates.txt HANDLES $(shell find crates \( -name out -o -name must-fail \) -prune -o -type f -print)
# says what to do where the kit isn't found
FIND_RT = command -v rt > /dev/null || { echo "There is no rt on the PATH: put the kit's folder bin there, as in PATH=/opt/rattle/bin:\$$PATH"; exit 1; }

all: build/ccsuite

build/ccsuite: $(SOURCES)
	@$(FIND_RT)
	@mkdir -p build
	@docs/prove.py ccsuite $@ build/prove.log words_laws

# the plugin for GStreamer, if there are the headers for it
GSTREAMER := $(shell pkg-config --exists gstreamer-base-1.0 2> /dev/null && echo build/libgstccsuite.so)

lib: build/libccsuite.a build/libccsuite.so $(GSTREAMER)

# The library's object with the kit's functions on malloc: it needs the C library alone.
build/libccsuite.a: $(SOURCES)
	@$(FIND_RT)
	@mkdir -p build
	@docs/prove.py ccsuite_c build/libccsuite_c.a build/lib.log
	@rm -rf build/library && mkdir build/library
	@mv build/libccsuite_c.a build/library/libccsuite.a
	@cd build/library && ar x $(KIT)/c/liblibc_c.a heap.pic.o && ar q libccsuite.a heap.pic.o && ranlib libccsuite.a
	@mv build/library/libccsuite.a $@ && rm -r build/library

build/libccsuite.so: build/libccsuite.a library/exports
	@gcc -shared -o $@ -Wl,-soname,$(SONAME) -Wl,--version-script,library/exports -Wl,--no-undefined -Wl,--gc-sections \
	    -Wl,--whole-archive $< -Wl,--no-whole-archive
	@ln -sf libccsuite.so build/$(SONAME)

build/libgstccsuite.so: examples/gstreamer/ccsuite.c build/libccsuite.a library/ccsuite.h
	@gcc -std=gnu11 -O2 -Wall -Wextra -shared -fPIC -fvisibility=hidden -o $@ -Ilibrary $$(pkg-config --cflags gstreamer-base-1.0) $< build/libccsuite.a \
	    $$(pkg-config --libs gstreamer-base-1.0) -Wl,--exclude-libs,ALL -Wl,--gc-sections -Wl,--no-undefined

demo:
	@$(FIND_RT)
	@mkdir -p build
	@echo 'ccsuite pairs < $(LIST), not yet proved:'
	@cd crates/ccsuite && rt try -- pairs < ../../$(LIST) 2> ../../build/try.log || { cat ../../build/try.log; exit 1; }
	@$(MAKE) --no-print-directory build/ccsuite
	@echo 'The same by the proved program:'
	@./build/ccsuite pairs < $(LIST)

check:
	@$(FIND_RT)
	.ci/run

edits:
	@$(FIND_RT)
	edits/try.sh $(CRATE)

bench: build/ccsuite $(LIBRARY)
	bench/pairs.sh
	bench/build.sh
	bench/decode.sh
	bench/verify.sh
	bench/cues.sh
	bench/screen.sh
	bench/receiver.sh
	bench/blocks.sh
	bench/dtvcc_codes.sh
	bench/services.sh
	bench/scc.sh
	bench/fit.sh
	bench/dual.sh
	bench/xds.sh
	bench/convert.sh
	bench/mcc.sh
	bench/library.sh
	bench/table.py

# The module asks for the library where it is installed.
define put_module
sed 's|"libccsuite\.so\.0"|"$(libdir)/$(SONAME)"|' examples/python/ccsuite.py | install -D -m 644 /dev/stdin $(DESTDIR)$(pythondir)/ccsuite.py

endef

# $(call put_document,FILE,FOLDER)
define put_document
$(INSTALLED) $(1) | install -m 644 /dev/stdin $(DESTDIR)$(2)/$(notdir $(1))

endef

define put_library
install -d $(DESTDIR)$(libdir)/pkgconfig $(DESTDIR)$(includedir) $(addprefix $(DESTDIR)$(docdir)/examples/,c python gstreamer)
install -m 644 build/libccsuite.a $(DESTDIR)$(libdir)
install -m 644 build/libccsuite.so $(DESTDIR)$(libdir)/$(SONAME).$(VERSION)
ln -sf $(SONAME).$(VERSION) $(DESTDIR)$(libdir)/$(SONAME)
ln -sf $(SONAME) $(DESTDIR)$(libdir)/libccsuite.so
$(call put_document,library/ccsuite.h,$(includedir))
sed 's|@PREFIX@|$(prefix)|; s|@LIBDIR@|$(libdir)|; s|@INCLUDEDIR@|$(includedir)|; s/@VERSION@/$(VERSION)/' library/ccsuite.pc \
    | install -m 644 /dev/stdin $(DESTDIR)$(libdir)/pkgconfig/ccsuite.pc
install -m 644 $(wildcard examples/c/*) $(DESTDIR)$(docdir)/examples/c
install -m 644 $(wildcard examples/python/*.py) $(DESTDIR)$(docdir)/examples/python
install -m 644 examples/gstreamer/ccsuite.c $(DESTDIR)$(docdir)/examples/gstreamer
$(if $(PYTHON),$(put_module))

endef

install: $(PROGRAM) $(LIBRARY)
	install -D -m 755 $(PROGRAM) $(DESTDIR)$(bindir)/ccsuite
	install -d $(DESTDIR)$(mandir)/man1 $(DESTDIR)$(datadir)/ccsuite $(DESTDIR)$(docdir)/examples
	$(foreach page,$(wildcard man/*.1),$(call put_document,$(page),$(mandir)/man1))
	$(foreach name,$(SCRIPTS),install -m 755 examples/$(name).py $(DESTDIR)$(datadir)/ccsuite/$(name).py && \
	    ln -sfr $(DESTDIR)$(datadir)/ccsuite/$(name).py $(DESTDIR)$(bindir)/ccsuite-$(name) &&) :
	install -m 644 $(MODULES:%=examples/%.py) $(DESTDIR)$(datadir)/ccsuite
	$(foreach name,$(COMPLETED),install -D -m 644 completions/$(name).bash $(DESTDIR)$(bashdir)/$(name) && \
	    install -D -m 644 completions/_$(name) $(DESTDIR)$(zshdir)/_$(name) && \
	    install -D -m 644 completions/$(name).fish $(DESTDIR)$(fishdir)/$(name).fish &&) :
	install -m 644 viewer/viewer.html viewer/viewer.png $(DESTDIR)$(datadir)/ccsuite
	$(foreach document,$(DOCUMENTS),$(call put_document,$(document),$(docdir)))
	install -m 644 package/copyright $(DESTDIR)$(docdir)
	install -m 644 $(EXAMPLES) $(DESTDIR)$(docdir)/examples
	$(if $(LIBRARY),$(put_library))

uninstall:
	rm -f $(DESTDIR)$(bindir)/ccsuite $(addprefix $(DESTDIR)$(bindir)/ccsuite-,$(SCRIPTS)) \
	    $(addprefix $(DESTDIR)$(mandir)/man1/,$(notdir $(wildcard man/*.1))) \
	    $(foreach name,$(COMPLETED),$(DESTDIR)$(bashdir)/$(name) $(DESTDIR)$(zshdir)/_$(name) $(DESTDIR)$(fishdir)/$(name).fish) \
	    $(DESTDIR)$(libdir)/libccsuite.a $(addprefix $(DESTDIR)$(libdir)/,libccsuite.so $(SONAME) $(SONAME).$(VERSION)) \
	    $(DESTDIR)$(libdir)/pkgconfig/ccsuite.pc $(DESTDIR)$(includedir)/ccsuite.h $(if $(PYTHON),$(DESTDIR)$(pythondir)/ccsuite.py)
	rm -rf $(DESTDIR)$(docdir) $(DESTDIR)$(datadir)/ccsuite

check-install: $(PROGRAM) $(LIBRARY)
	man/check_install.sh $(PROGRAM)

deb: $(PROGRAM) $(LIBRARY)
	@mkdir -p build
	package/build.sh $(PROGRAM) $(DEB) $(LIBRARY)

check-deb: deb
	package/try.sh $(PROGRAM) $(DEB) $(LIBRARY)

faults: $(PROGRAM)
	faults/try.py $(PROGRAM)

check-lib: $(PROGRAM) $(LIBRARY)
	library/check.sh $(PROGRAM)

try: $(PROGRAM) $(LIBRARY) $(GSTREAMER)
	docs/try.py $(PROGRAM)
	examples/c/try.sh $(PROGRAM)
	examples/gstreamer/try.py $(PROGRAM)
	docs/try_subtitles.py $(PROGRAM)
	docs/try_video.py $(PROGRAM)
	viewer/try.py $(PROGRAM)

scale: $(PROGRAM)
	docs/try_scale.sh $(PROGRAM)

clean:
	rm -rf build crates/*/out

help:
	@sed -n '/^# make/,/^$$/s/^# //p' Makefile

.PHONY: all help lib demo check edits check-lib bench install uninstall check-install deb check-deb faults try scale clean
