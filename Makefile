# The C side: the library, the tool, the tests. `make help` lists what can be asked for. All output is under target/.
VERSION := $(shell sed -n 's/^.define SLP_VERSION "\(.*\)"/\1/p' include/slp.h)
# The first part of the shared library's name changes with every version that old programs cannot use.
SONAME := libslp.so.0
PREFIX ?= /usr/local
LIBDIR ?= $(PREFIX)/lib
DESTDIR ?=
SLP_LIB ?= target/staticlib/libslp.a
CFLAGS ?= -O2 -g
CXXFLAGS ?= -O2 -g
OBJCOPY ?= objcopy
PYTHON ?= python3
# Empty: the tests run without valgrind.
VALGRIND ?= valgrind -q --error-exitcode=1

# -Werror in the gate: another compiler may warn of more.
WERROR ?=
WARNINGS := -Wall -Wextra -pedantic $(WERROR)
C11 = -std=c11 $(WARNINGS) -Wshadow -Wconversion -Wstrict-prototypes -Wmissing-prototypes -D_DEFAULT_SOURCE -Iinclude $(CPPFLAGS)
TEST_PATHS := -Itests/c/shared -Itests/c/model
CXX11 = -std=c++11 $(WARNINGS) -Iinclude $(CPPFLAGS)

SHARED := target/shared/libslp.so.$(VERSION)

TOOL := target/bin/slp
TOOL_SOURCES := $(wildcard tools/*.c tools/*.cpp)
TOOL_OBJECTS := $(addsuffix .o,$(basename $(TOOL_SOURCES:%=target/c/%)))
# One file of the tool is C++. Its library goes into the tool, which then needs no other than C's.
TOOL_LINK = $(CXX) $(CFLAGS) $(LDFLAGS) -pthread -static-libstdc++ -static-libgcc

# Every source of tests/c/programs is a program; they share those of tests/c/shared and tests/c/model.
PROGRAMS := $(basename $(notdir $(wildcard tests/c/programs/*.c tests/c/programs/*.cpp)))
SHARED_OBJECTS := $(patsubst %.c,target/c/%.o,$(wildcard tests/c/shared/*.c tests/c/model/*.c))
EXAMPLES := $(basename $(notdir $(wildcard examples/*.c)))
# Programs that must fail over a library with a fault.
FAULTED := cases refusals fuzz rows row_runs eights runs final live layout names map room apart read read_refusals newer check repair fault index stack
TESTS := $(PROGRAMS:%=target/c/bin/%) target/c/bin/header_examples target/c/bin/foreign target/c/bin/stack target/c/bin/dying.so target/c/bin/live_runs target/c/bin/slp_points target/c/bin/four_players target/c/bin/listed $(EXAMPLES:%=target/c/examples/%) $(FAULTED:%=target/c/faults/%)

.PHONY: all lib tests test test-rust python test-python test-documents man dist package test-package examples install uninstall clean help always
.DELETE_ON_ERROR:
.SECONDARY:

all: $(SLP_LIB) $(SHARED) $(TOOL)

# slp and the crates that it stands on are proved first, side by side: on its own `rt lib` proves one after another. What is proved already is not proved again.
lib target/staticlib/libslp.a:
	jobs=$$(.ci/jobs) && cd crates/slp && rt all check --jobs $$jobs && rt lib
	@mkdir -p target/staticlib
	cp crates/slp/out/libslp.a target/staticlib/libslp.a

# The same objects; only the calls of slp.h are seen from outside (slp.map), and it needs nothing but C's library. Its other names are the same file: rt ci takes
# no symbolic link anywhere in the checkout, so that tests remove theirs, too, once they have passed.
$(SHARED): $(SLP_LIB) slp.map Makefile
	@mkdir -p $(@D)
	$(CC) -shared $(CFLAGS) $(LDFLAGS) -Wl,-z,defs -Wl,-soname,$(SONAME) -Wl,--version-script=slp.map -o $@ \
		-Wl,--whole-archive $(SLP_LIB) -Wl,--no-whole-archive
	@ln -f $@ $(@D)/$(SONAME) && ln -f $@ $(@D)/libslp.so

$(TOOL): $(TOOL_OBJECTS) $(SLP_LIB)
	@mkdir -p $(@D)
	$(TOOL_LINK) -o $@ $(TOOL_OBJECTS) $(SLP_LIB)

target/c/tools/%.o: tools/%.cpp Makefile
	@mkdir -p $(@D)
	$(CXX) -std=c++17 $(WARNINGS) $(CPPFLAGS) $(CXXFLAGS) -MMD -MP -c -o $@ $<

target/c/tests/%.o: tests/%.c Makefile
	@mkdir -p $(@D)
	$(CC) $(C11) $(TEST_PATHS) $(CFLAGS) -MMD -MP -c -o $@ $<

target/c/bench/live_runs.o target/c/bench/files.o: target/c/%.o: %.c Makefile
	@mkdir -p $(@D)
	$(CC) $(C11) $(TEST_PATHS) $(CFLAGS) -MMD -MP -c -o $@ $<

target/c/%.o: %.c Makefile
	@mkdir -p $(@D)
	$(CC) $(C11) $(CFLAGS) -MMD -MP -c -o $@ $<

target/c/%.o: %.cpp Makefile
	@mkdir -p $(@D)
	$(CXX) $(CXX11) $(CXXFLAGS) -MMD -MP -c -o $@ $<

# The examples of the header are for every reader's flags: without the strictest ones.
target/c/tests/c/header_examples.o: tests/c/header_examples.c Makefile
	@mkdir -p $(@D)
	$(CC) -std=c11 $(WARNINGS) -Iinclude $(CPPFLAGS) $(CFLAGS) -MMD -MP -c -o $@ $<

target/c/bin/header_examples: target/c/tests/c/header_examples.o $(SLP_LIB)
	@mkdir -p $(@D)
	$(CC) $(CFLAGS) $(LDFLAGS) -o $@ $^

target/c/bin/header_cpp: target/c/tests/c/programs/header_cpp.o $(SLP_LIB)
	@mkdir -p $(@D)
	$(CXX) $(CXXFLAGS) $(LDFLAGS) -o $@ $^

# A foreign reader of UBJSON, from Debian's nlohmann-json3-dev.
target/c/bin/foreign: target/c/tests/c/foreign.o
	@mkdir -p $(@D)
	$(CXX) $(CXXFLAGS) $(LDFLAGS) -o $@ $^

target/c/bin/threads: LDLIBS += -pthread

# A part of the tool, with its checks.
target/c/bin/floats: target/c/tests/c/programs/floats.o target/c/tests/c/shared/check.o target/c/tools/shortest.o
	@mkdir -p $(@D)
	$(TOOL_LINK) -o $@ $^

# The tool, with tests/c/points.c between it and the calls by which it reads and saves.
target/c/bin/slp_points: $(TOOL_OBJECTS) target/c/tests/c/points.o $(SLP_LIB)
	@mkdir -p $(@D)
	$(TOOL_LINK) $(foreach call,openat read write fsync close fchown fchmod renameat renameat2 linkat unlinkat,-Wl,--wrap=$(call)) -o $@ $^

# An older game for the tool's tests; and the library's columns, for tests/agree.sh.
target/c/bin/four_players target/c/bin/listed: target/c/bin/%: target/c/tests/c/%.o $(SLP_LIB)
	@mkdir -p $(@D)
	$(CC) $(CFLAGS) $(LDFLAGS) -o $@ $^

target/c/bin/%: target/c/tests/c/programs/%.o $(SHARED_OBJECTS) $(SLP_LIB)
	@mkdir -p $(@D)
	$(CC) $(CFLAGS) $(LDFLAGS) -o $@ $^ $(LDLIBS)

# How deep the stack gets: a benchmark, whose check is a test. Names are bound at the start, so that the loader takes none of the painted stack.
target/c/bin/stack: target/c/bench/stack.o $(SLP_LIB)
	@mkdir -p $(@D)
	$(CC) $(CFLAGS) $(LDFLAGS) -Wl,-z,now -o $@ $^

# Recordings in runs, to be counted under valgrind.
target/c/bin/live_runs: target/c/bench/live_runs.o $(SHARED_OBJECTS) $(SLP_LIB)
	@mkdir -p $(@D)
	$(CC) $(CFLAGS) $(LDFLAGS) -o $@ $^

# What kills a recorder.
target/c/bin/dying.so: tests/c/dying.c Makefile
	@mkdir -p $(@D)
	$(CC) $(C11) $(CFLAGS) -fPIC -shared -o $@ $<

# The metadata that costs most.
target/c/bin/keys: target/c/bench/keys.o $(SLP_LIB)
	@mkdir -p $(@D)
	$(CC) $(CFLAGS) $(LDFLAGS) -o $@ $^

# Replays on the disk, walked and read by C: what bench/python.py compares with.
target/c/bin/files: target/c/bench/files.o $(SHARED_OBJECTS) $(SLP_LIB)
	@mkdir -p $(@D)
	$(CC) $(CFLAGS) $(LDFLAGS) -o $@ $^

target/c/faults/stack: target/c/bench/stack.o target/c/tests/c/faults.o target/c/faults/slp.o
	$(CC) $(CFLAGS) $(LDFLAGS) -Wl,-z,now -o $@ $^

# The library with its calls under other names, and the faults in front of it.
target/c/faults/slp.o: $(SLP_LIB) Makefile
	@mkdir -p $(@D)
	$(LD) -r --whole-archive $< -o $@.tmp
	$(OBJCOPY) $(foreach call,columns column refusal_words first_place walk step_at rollbacks measure read check measure_repair repair fault fault_words write write_final write_frames write_frame write_head write_end length_field write_map read_map frame_row post_row rows pre_of room write_index accepts_index find_frame,--redefine-sym slp_$(call)=real_slp_$(call)) $@.tmp $@
	@rm -f $@.tmp

target/c/faults/%: target/c/tests/c/programs/%.o $(SHARED_OBJECTS) target/c/tests/c/faults.o target/c/faults/slp.o
	$(CC) $(CFLAGS) $(LDFLAGS) -o $@ $^

target/c/examples/%: target/c/examples/%.o $(SLP_LIB)
	@mkdir -p $(@D)
	$(CC) $(CFLAGS) $(LDFLAGS) -o $@ $^

examples: $(EXAMPLES:%=target/c/examples/%)

tests: $(TESTS) $(TOOL)

test: tests
	@tests/agree.sh target/c/bin/listed
	@VALGRIND='$(VALGRIND)' PROGRAMS='$(PROGRAMS)' FAULTED='$(FAULTED)' tests/c/run $(TOOL) $(SLP_LIB)
	@find target/c -type l -delete

# The examples of the documents, the man pages and the completions.
test-documents: $(TOOL) man
	@tests/documents.py target/documents README.md docs/API.md
	@tests/man.sh target/man $(TOOL)
	@find target/documents -type l -delete

test-rust: $(SLP_LIB) target/c/bin/dying.so
	@tests/rust.sh $(SLP_LIB)

# The Python package as a wheel; it needs setuptools and wheel, and no network.
python: $(SHARED)
	@rm -rf target/python && mkdir -p target/python
	$(PYTHON) -m pip --quiet wheel --no-build-isolation --no-deps --no-index --wheel-dir target/python ./python

test-python: python $(TOOL)
	@PYTHON='$(PYTHON)' tests/python/run $(TOOL)
	@find target/python target/documents -type l -delete

# Made anew each time: another PREFIX may be asked for.
target/slp.pc: slp.pc.in always
	@mkdir -p $(@D)
	sed -e 's|@PREFIX@|$(PREFIX)|' -e 's|@LIBDIR@|$(LIBDIR)|' -e 's|@VERSION@|$(VERSION)|' slp.pc.in > $@

# Man pages and completions, from the help, the header and the tool's tables. They need python3, and nothing beside it.
man: $(TOOL)
	docs/man.py $(TOOL) target/man

SHARE = $(DESTDIR)$(PREFIX)/share
PAGES := man/man1/slp.1 man/man3/slp.3 bash-completion/completions/slp zsh/site-functions/_slp fish/vendor_completions.d/slp.fish

install: all man target/slp.pc
	install -d $(DESTDIR)$(PREFIX)/bin $(DESTDIR)$(PREFIX)/include $(DESTDIR)$(LIBDIR)/pkgconfig $(addprefix $(SHARE)/,$(dir $(PAGES)))
	install -m 755 $(TOOL) $(DESTDIR)$(PREFIX)/bin/slp
	install -m 644 include/slp.h $(DESTDIR)$(PREFIX)/include/slp.h
	install -m 644 $(SLP_LIB) $(DESTDIR)$(LIBDIR)/libslp.a
	install -m 644 $(SHARED) $(DESTDIR)$(LIBDIR)/libslp.so.$(VERSION)
	ln -sf libslp.so.$(VERSION) $(DESTDIR)$(LIBDIR)/$(SONAME)
	ln -sf $(SONAME) $(DESTDIR)$(LIBDIR)/libslp.so
	install -m 644 target/slp.pc $(DESTDIR)$(LIBDIR)/pkgconfig/slp.pc
	install -m 644 target/man/slp.1 $(SHARE)/man/man1/slp.1
	install -m 644 target/man/slp.3 $(SHARE)/man/man3/slp.3
	install -m 644 target/man/slp.bash $(SHARE)/bash-completion/completions/slp
	install -m 644 target/man/_slp $(SHARE)/zsh/site-functions/_slp
	install -m 644 target/man/slp.fish $(SHARE)/fish/vendor_completions.d/slp.fish

uninstall:
	rm -f $(DESTDIR)$(PREFIX)/bin/slp $(DESTDIR)$(PREFIX)/include/slp.h $(DESTDIR)$(LIBDIR)/pkgconfig/slp.pc
	rm -f $(addprefix $(DESTDIR)$(LIBDIR)/,libslp.a libslp.so $(SONAME) libslp.so.$(VERSION)) $(addprefix $(SHARE)/,$(PAGES))

# The sources, and beside them the library as rt made it, so that who has no rt can build all the rest. The same files give the same archive. Copies of the
# crates do not stay, here and in `package`: `rt ci` takes no second crates.txt.
DIST := slp-$(VERSION)
dist: $(SLP_LIB)
	rm -rf target/dist && mkdir -p target/dist/$(DIST)/target/staticlib
	{ git ls-files -z --cached --others --exclude-standard || find . -path ./target -prune -o -type f -print0; } 2>/dev/null | xargs -0 cp --parents -t target/dist/$(DIST)
	cp $(SLP_LIB) target/dist/$(DIST)/target/staticlib/libslp.a
	tar -C target/dist --sort=name --owner=0 --group=0 --numeric-owner --mode=go=u-w --mtime="$$(git log -1 --format=%cI 2>/dev/null || date -Iseconds)" -c $(DIST) | gzip -9n > target/$(DIST).tar.gz
	rm -rf target/dist

# Debian packages of that archive; debian/rules takes the library from it.
package: dist
	rm -rf target/package && mkdir -p target/package
	tar -C target/package -xzf target/$(DIST).tar.gz
	cd target/package/$(DIST) && env -u MAKEFLAGS -u MFLAGS -u MAKELEVEL dpkg-buildpackage -b -us -uc > ../log 2>&1 || { cat ../log; rm -rf ../$(DIST); exit 1; }
	rm -rf target/package/$(DIST)

test-package: package
	@tests/package.sh target/package
	@find target/package -type l -delete

clean:
	rm -rf target/c target/shared target/python target/man target/dist target/package target/documents target/slp.pc $(TOOL)

help:
	@echo 'make            the library (by rt, where it is not there yet), libslp.so and the tool $(TOOL)'
	@echo 'make lib        the library again, from its proved sources'
	@echo 'make test       the tests of the library, the header, the examples and the tool'
	@echo 'make test-rust  the tests of the Rust crate over the library; they need cargo'
	@echo 'make python     the Python package as a wheel, under target/python; it needs pip, setuptools and wheel'
	@echo 'make test-python  its tests; they need numpy'
	@echo 'make test-documents  the examples of the documents, the man pages, the completions'
	@echo 'make examples   the programs of examples/, under target/c/examples'
	@echo 'make install    the tool, both libraries, slp.h, slp.pc, man pages and completions, under PREFIX ($(PREFIX))'
	@echo 'make man        man pages and completions, under target/man'
	@echo 'make dist       an archive of the sources and the library, under target'
	@echo 'make package    Debian packages of it, under target/package; they need debhelper'
	@echo 'make test-package  builds them and tries them in an empty folder'
	@echo 'make uninstall  removes them again'
	@echo 'make clean      removes what make built, but not the library'
	@echo
	@echo 'Variables: PREFIX, LIBDIR, DESTDIR, CC, CXX, CPPFLAGS, CFLAGS, CXXFLAGS, LDFLAGS,'
	@echo '           SLP_LIB   another library than target/staticlib/libslp.a'
	@echo '           WERROR    -Werror: a warning is an error, as in the gate'
	@echo '           VALGRIND  how to run it; empty: tests run without it'

-include $(wildcard target/c/*/*.d target/c/*/*/*.d target/c/*/*/*/*.d)
