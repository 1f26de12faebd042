# `make help` lists the targets, with the texts after ##. Building needs Rattle's toolchain (the
# command rt) and Python 3; make demo and make test also need a C compiler.
#
# Everything that is built, but for Rattle's crates, is below OUT. Nothing there is a link, since rt
# refuses links. `make build` puts copies of the proved programs there, so that they stay whatever
# rt does in crates/lrupd/out and crates/lrup_model_check/out.

RT ?= rt
PREFIX ?= /usr/local
VERSION := $(shell cat VERSION)
# The kit that proves the program, as named in README.
KIT := $(shell sed -n 's/.*`\(rattle-kit-[^`]*\)`.*/\1/p' README.md 2> /dev/null)
OUT ?= out
BIN := $(OUT)/bin
OBJECTS := $(OUT)/objects
PROGRAM := $(BIN)/lrupd
MODEL := $(dir $(PROGRAM))lrup-model
EXACT := $(BIN)/lrup-exact
TRIM := $(BIN)/lrup-trim
EXPLAIN := $(BIN)/lrup-explain
SOLVE := $(BIN)/lrup-solve
CHECK := $(BIN)/lrup-check
ENGINES := $(BIN)/lrup-engines
SOLVER := $(BIN)/example-solver
HAS_RT := $(shell command -v $(RT))
HAS_LIBMD := $(shell $(CC) $(CPPFLAGS) -E -x c -include sha256.h /dev/null \
	> /dev/null 2>&1 && echo yes)
# CADICAL names a folder that has CaDiCaL's library: its sources, an installation, or what
# gate/cadicals.sh has fetched. Without it, the library is the installed one.
CADICAL ?=
in_cadical = $(firstword $(wildcard $(addprefix $(CADICAL)/,$(1))))
CADICAL_HEADER := $(if $(CADICAL),$(call in_cadical,$(addsuffix /cadical.hpp,src include usr/include)))
CADICAL_LIBRARY := $(or $(if $(CADICAL),$(call in_cadical,$(addsuffix /libcadical.a,build lib usr/lib usr/lib/*))),\
	$(wildcard $(shell $(CXX) -print-file-name=libcadical.a 2> /dev/null)))
$(if $(CADICAL),$(if $(CADICAL_HEADER),,$(error CADICAL=$(CADICAL) has no cadical.hpp)))
USE_CADICAL := $(addprefix -isystem ,$(patsubst %/cadical.hpp,%,$(CADICAL_HEADER)))
HAS_CADICAL := $(shell $(CXX) $(USE_CADICAL) -E -x c++ -include cadical.hpp /dev/null > /dev/null 2>&1 \
	&& echo yes)
# Debian's packages that are missing to build all tools.
MISSING := $(strip $(if $(HAS_LIBMD),,libmd-dev) $(if $(HAS_CADICAL),,libcadical-dev \
	$(if $(shell command -v $(firstword $(CXX))),,g++)))
# What can be built with the libraries that are there.
RECORD_TOOLS := $(if $(HAS_LIBMD),trim explain)
SOLVE_IF_POSSIBLE := $(if $(MISSING),,solve)
# For users to set, like CPPFLAGS, LDFLAGS and LDLIBS; flags that the sources need are in the rules.
CFLAGS ?= -O2
CXXFLAGS ?= -O2
WARNINGS := -Wall -Wextra -Wshadow -Wconversion
# What the tools share, but for what reads records, which needs libmd; what makes hints, too; and
# what is also in the example solver.
RECORDS := tools/lib/lines.c
LIBRARY := $(filter-out $(RECORDS),$(wildcard tools/lib/*.c))
FILTER := $(LIBRARY) $(wildcard tools/filter/*.c)
SHARED_WITH_SOLVER := $(addprefix tools/lib/,errors.c formula.c lists.c literals.c packed.c)
# Tests of programs build this first; 'make examples BUILT= PROGRAM=path' tests another program.
BUILT ?= build
PYTEST ?= pytest-3
FORMULA ?= examples/bmc.cnf
STREAMS ?= $(addprefix examples/bmc-four.,1 2 3 4)
OPTIONS ?= --tries 1000000

.PHONY: run build install put left-out built uninstall examples live checkpoints \
	rounds demo solver exact trim explain solve solve-mpi scripts tools solver-test filter-test \
	trim-test building peers hol explain-test solve-test days attack neighbours sweep leaks \
	instructions quotes promises pages test gate toolchain c-and-python libcadical libmd mpicxx \
	help try deb dist quick edits night packages types warnings builds shown quotes-test pytest rows \
	unmarked

help:
	@awk -f gate/help.awk $(firstword $(MAKEFILE_LIST))

# Leaves out rt's own lines.
try: toolchain ## try: run the program on an example in about a minute, before anything is proved
	@echo "compiling, about a minute .." >&2; \
	log=$$(mktemp); trap 'rm -f "$$log"' EXIT; status=0; cd crates/lrupd && $(RT) try -- \
	$(foreach word,$(OPTIONS) $(FORMULA) $(STREAMS),$(or $(realpath $(word)),$(word))) \
	< /dev/null 2> "$$log" || status=$$?; \
	grep -q '^run=ended ' "$$log" || { cat "$$log"; exit 1; }; \
	grep -v '^checked: \|^races: \|^run=' "$$log" >&2; \
	echo "status $$status, not proved: make run proves it"; \
	case $$status in 0|3|8) ;; *) exit $$status ;; esac

# With your own files, as with make try:
#     make run FORMULA=path/to/formula.cnf STREAMS="path/to/stream1 path/to/stream2"
run: build ## try: the same, proved first; try and run take FORMULA=path STREAMS="path path" OPTIONS=--serial
	@status=0; $(PROGRAM) $(OPTIONS) $(FORMULA) $(STREAMS) || status=$$?; \
	echo "status $$status"; \
	case $$status in 0|3|8) ;; *) exit $$status ;; esac

# Prints a line for each crate once it is proved, and how much is left.
build: toolchain ## build: prove lrupd and lrup-model, 13 to 26 minutes the first time, and leave them at out/bin
	@python3 gate/build.py $(RT) $(PROGRAM)

# Packages that are missing are installed first, if that may be done; then make reads this file again,
# since it looks for libraries when it begins. make runs a line with $(MAKE) even with -n, so such a
# line does nothing else. With DESTDIR a packager decides what is installed.
install: c-and-python $(if $(HAS_RT),,built) ## use: install all, with manual pages, pages and examples, below PREFIX=/usr/local
	$(if $(and $(MISSING),$(if $(DESTDIR),,yes)),@sh gate/packages.sh $(MISSING))
	@$(MAKE) --no-print-directory put
	@$(MAKE) --no-print-directory left-out

# The filter is installed as lrup-exact. Tools whose libraries aren't there are left out. The manual
# pages get the version in their last line. Without the toolchain, as under sudo, the programs that
# were built before are installed. Whatever the umask, all may read what is installed; a folder that
# was there keeps its mode.
PLACE = $(DESTDIR)$(PREFIX)
COMPLETIONS = $(PLACE)/share/bash-completion/completions
FOLDER = umask 022 && mkdir -p
INSTALL_SOLVE = $(FOLDER) "$(PLACE)/libexec/lrupd" && \
	install -m 755 $(SOLVE) $(CHECK) "$(PLACE)/bin" && \
	install -m 755 $(ENGINES) "$(PLACE)/libexec/lrupd" && \
	install -m 644 man/lrup-solve.1 man/lrup-check.1 "$(PLACE)/share/man/man1"
PAGES = $(PLACE)/share/doc/lrupd
put: exact $(RECORD_TOOLS) $(SOLVE_IF_POSSIBLE) $(if $(HAS_RT),build,built)
	$(FOLDER) "$(PLACE)/bin" "$(PLACE)/share/man/man1" "$(COMPLETIONS)"
	install -m 755 $(PROGRAM) "$(PLACE)/bin/lrupd"
	install -m 755 $(MODEL) "$(PLACE)/bin/lrup-model"
	install -m 755 tools/lrup-recheck "$(PLACE)/bin"
	sed -i "s/^version=.*/version=$(VERSION)/" "$(PLACE)/bin/lrup-recheck"
	install -m 755 $(EXACT) "$(PLACE)/bin/lrup-exact"
	install -m 644 $(patsubst %,man/%.1,lrupd lrup-model lrup-recheck lrup-exact) "$(PLACE)/share/man/man1"
	$(if $(HAS_LIBMD),install -m 755 $(TRIM) $(EXPLAIN) "$(PLACE)/bin")
	$(if $(HAS_LIBMD),install -m 644 man/lrup-trim.1 man/lrup-explain.1 "$(PLACE)/share/man/man1")
	$(if $(SOLVE_IF_POSSIBLE),$(INSTALL_SOLVE))
	sed -i 's/^\.Os$$/.Os lrupd $(VERSION)/' "$(PLACE)"/share/man/man1/lrup*.1
	sh tools/build/completions.sh "$(PLACE)/bin" "$(COMPLETIONS)"
	sh tools/build/pages.sh "$(PAGES)"

built:
	@for program in $(PROGRAM) $(MODEL); do test -x $$program || \
	{ echo "$$program isn't built: 'make build' builds it with the command '$(RT)'"; exit 1; }; done

# What isn't built, and the command that completes what was ASKED.
ASKED = install$(if $(DESTDIR), DESTDIR=$(DESTDIR)) PREFIX=$(PREFIX)
LEFT_OUT = lrup-check $(if $(HAS_LIBMD),,lrup-explain) lrup-solve $(if $(HAS_LIBMD),,lrup-trim)
ADD = apt-get install $(MISSING)
AS_ROOT = $(if $(filter 0,$(shell id -u)),$(ADD),$(if $(shell command -v sudo),sudo $(ADD),su -c '$(ADD)'))
left-out:
	@$(if $(MISSING),echo "left out: $(strip $(LEFT_OUT)). This adds them:"; \
	echo "    $(AS_ROOT) && make $(ASKED)",:)

uninstall: ## use: remove what make install installs below PREFIX
	rm -f $(foreach name,lrupd lrup-model lrup-recheck lrup-exact lrup-trim lrup-explain lrup-solve lrup-check,\
	"$(PLACE)/bin/$(name)" "$(PLACE)/share/man/man1/$(name).1" "$(COMPLETIONS)/$(name)") \
	"$(PLACE)/libexec/lrupd/lrup-engines"
	rm -rf "$(PAGES)"
	@rmdir "$(PLACE)/libexec/lrupd" 2> /dev/null || :

demo: build solver ## try: four solvers that share clauses, checked while they run
	@python3 examples/solver/demo.py $(PROGRAM) $(SOLVER)

# An unverified example.
solver: $(SOLVER) ## build: the demo's solver, at out/bin/example-solver
	@:

# Unverified and untrusted.
exact: $(EXACT) ## build: lrup-exact, which turns other solvers' proofs into streams, at out/bin
	@:

# Unverified and untrusted.
trim: $(TRIM) ## build: lrup-trim, which makes cores and smaller proofs of streams, at out/bin
	@:

# Unverified and untrusted.
explain: $(EXPLAIN) ## build: lrup-explain, which says why a line is bad, at out/bin
	@:

# Unverified. The front, which starts lrupd and lrup-model and prints the answer, is trusted;
# lrup-engines isn't.
# The front looks for the other programs in its own folder.
solve: $(SOLVE) $(CHECK) $(ENGINES) $(EXACT) $(TRIM) $(EXPLAIN) scripts ## build: lrup-solve and lrup-check, at out/bin; needs CaDiCaL's library
	@:

# lrup-engines-mpi isn't installed, since it depends on the MPI of the host that built it.
solve-mpi: $(ENGINES)-mpi solve ## build: lrup-engines-mpi, for lrup-solve --mpi on several hosts; needs MPI, too
	@:

# What the tests of programs run.
tools: ASKED = tools
tools: exact $(RECORD_TOOLS) solver scripts $(SOLVE_IF_POSSIBLE) left-out

scripts: $(BIN)/lrup-recheck
$(BIN)/lrup-recheck: tools/lrup-recheck
	@mkdir -p $(BIN) && install -m 755 $< $@

# A source is compiled after a change of the source, of a header that it includes, or of the command
# that compiles it. Programs are replaced, not overwritten, since they may be running.
in_order = $(patsubst %,$(OBJECTS)/%.o,$(basename $(1)))
VERSIONED = -DVERSION='"$(VERSION)"'
INCLUDES = $(addprefix -I ,tools/lib tools/filter tools/lrup-engines $(OBJECTS))
C_COMPILER = $(CC) -std=c11 $(WARNINGS) $(VERSIONED)
COMPILE_C = $(C_COMPILER) $(INCLUDES) $(CPPFLAGS) $(CFLAGS)
# The front is trusted, so a fault in its memory should end it. Flags of the user come later, and so
# win; what can't be combined with them is left out.
USERS_FLAGS = $(CPPFLAGS) $(CFLAGS) $(LDFLAGS)
OPTIMIZES = $(filter-out -O0,$(lastword $(filter -O%,$(CFLAGS))))
FORTIFIED = $(if $(OPTIMIZES),$(if $(findstring _FORTIFY_SOURCE,$(USERS_FLAGS)),, \
	-U_FORTIFY_SOURCE -D_FORTIFY_SOURCE=2))
FIXED = $(filter -static% -no-pie -fno-pie -fno-PIE -fno-pic -fno-PIC,$(USERS_FLAGS))
PROTECTED = -fstack-protector-strong $(FORTIFIED) $(if $(FIXED),,-fPIE)
PROTECTED_LINK = -Wl,-z,relro,-z,now $(if $(FIXED),,-pie)
COMPILE_FRONT = $(C_COMPILER) -I $(OBJECTS) $(PROTECTED) $(CPPFLAGS) $(CFLAGS)
COMPILE_CXX = -std=c++17 $(WARNINGS) $(VERSIONED) -DKIT='"$(KIT)"' $(INCLUDES) $(USE_CADICAL) \
	$(CPPFLAGS) $(CXXFLAGS)
LINK_CADICAL = $(or $(CADICAL_LIBRARY),-lcadical)
LINK = mkdir -p $(dir $@) && \
	$(1) $(2) $(LDFLAGS) -o $@.new $(filter %.o,$^) $(3) $(LDLIBS) && mv $@.new $@

$(SOLVER): $(call in_order,$(wildcard examples/solver/*.c) $(SHARED_WITH_SOLVER))
	@$(call LINK,$(CC),$(CFLAGS) -pthread)
$(EXACT): $(call in_order,$(wildcard tools/lrup-exact/*.c) $(FILTER))
	@$(call LINK,$(CC),$(CFLAGS))
$(TRIM): $(call in_order,$(wildcard tools/lrup-trim/*.c) $(RECORDS) $(FILTER))
	@$(call LINK,$(CC),$(CFLAGS),-lmd)
$(EXPLAIN): $(call in_order,$(wildcard tools/lrup-explain/*.c) $(RECORDS) $(LIBRARY))
	@$(call LINK,$(CC),$(CFLAGS),-lmd)
$(SOLVE): $(call in_order,$(wildcard tools/lrup-solve/*.c))
	@$(call LINK,$(CC) $(PROTECTED_LINK),$(CFLAGS))
$(CHECK): $(call in_order,tools/lrup-check/main.c)
	@$(call LINK,$(CC) $(PROTECTED_LINK),$(CFLAGS))
$(ENGINES): $(call in_order,$(wildcard $(addprefix tools/lrup-engines/,*.cpp *.c)) $(FILTER)) \
	$(CADICAL_LIBRARY)
	@$(call LINK,$(CXX),$(CXXFLAGS) -pthread,$(LINK_CADICAL) -lmd)
WITH_MPI := $(wildcard $(addprefix tools/lrup-engines/,*.cpp *.c mpi/*.cpp))
$(ENGINES)-mpi: $(call in_order,$(WITH_MPI) $(FILTER)) $(CADICAL_LIBRARY)
	@$(call LINK,OMPI_CXX="$(CXX)" mpicxx,$(CXXFLAGS) -pthread,$(LINK_CADICAL) -lmd)

$(call in_order,$(RECORDS)): | libmd
$(OBJECTS)/%.o: %.c $(OBJECTS)/flags
	@mkdir -p $(dir $@) && $(COMPILE_C) -MMD -MP -c -o $@ $<
$(OBJECTS)/tools/lrup-solve/%.o: tools/lrup-solve/%.c $(OBJECTS)/flags
	@mkdir -p $(dir $@) && $(COMPILE_FRONT) -MMD -MP -c -o $@ $<
$(OBJECTS)/tools/lrup-check/%.o: tools/lrup-check/%.c $(OBJECTS)/flags
	@mkdir -p $(dir $@) && $(COMPILE_FRONT) -MMD -MP -c -o $@ $<
$(OBJECTS)/tools/lrup-engines/mpi/%.o: tools/lrup-engines/mpi/%.cpp $(OBJECTS)/flags \
	| mpicxx libcadical libmd
	@mkdir -p $(dir $@) && OMPI_CXX="$(CXX)" mpicxx $(COMPILE_CXX) -MMD -MP -c -o $@ $<
$(OBJECTS)/%.o: %.cpp $(OBJECTS)/flags | libcadical libmd
	@mkdir -p $(dir $@) && $(CXX) $(COMPILE_CXX) -MMD -MP -c -o $@ $<

# What --help prints, from the manual pages.
HELPS = $(patsubst %,$(OBJECTS)/lrup-%.help.h,exact trim explain solve check)
$(HELPS): $(wildcard man/lrup-*.1) tools/build/help.awk
	@mkdir -p $(dir $@) && \
	awk -v program=$(patsubst %.help.h,%,$(notdir $@)) -f tools/build/help.awk $(filter %.1,$^) > $@
$(patsubst %,$(OBJECTS)/tools/lrup-%/main.o,exact trim explain): $(HELPS)
FAULTS = $(OBJECTS)/lrup-explain.faults.h
$(FAULTS): crates/stream_check/specs/Faults.antt tools/build/faults.awk
	@mkdir -p $(dir $@) && awk -f $(filter %.awk,$^) $< > $@
$(OBJECTS)/tools/lrup-explain/tell.o: $(FAULTS)
# The version of CaDiCaL's library, for --version.
CADICAL_VERSION := $(OBJECTS)/cadical_version
WITH_CADICAL := $(OBJECTS)/with_cadical.h
$(CADICAL_VERSION): $(call in_order,tools/build/cadical_version.cpp) $(CADICAL_LIBRARY)
	@$(call LINK,$(CXX),$(CXXFLAGS) -pthread,$(LINK_CADICAL))
$(WITH_CADICAL): $(CADICAL_VERSION)
	@$< > $@.new && sed -i -e 's/^[^0-9].*/& by its own name/' \
	-e 's/.*/#define WITH_CADICAL ", with CaDiCaL &"/' $@.new && mv $@.new $@
$(OBJECTS)/tools/lrup-solve/front.o: $(HELPS) $(WITH_CADICAL)
$(OBJECTS)/tools/lrup-engines/options.o: $(WITH_CADICAL)

# Files with the compilers' commands, rewritten only when these change.
$(OBJECTS)/flags: FORCE | c-and-python
	@mkdir -p $(dir $@) && \
	echo '$(subst ','\'',$(COMPILE_FRONT) $(PROTECTED_LINK) $(CXX) $(COMPILE_CXX) $(LDFLAGS) \
	$(LDLIBS) $(LINK_CADICAL))' > $@.new && \
	{ cmp -s $@.new $@ && rm $@.new || mv $@.new $@; }
FORCE:
-include $(wildcard $(OBJECTS)/*/*/*.d $(OBJECTS)/*/*/*/*.d)

# `make warnings` also compiles with clang if that is installed. C++ is compiled if CaDiCaL's library
# is there, and what needs MPI with it.
C_FOLDERS := $(addprefix tools/,lib filter lrup-exact lrup-trim lrup-explain lrup-solve \
	lrup-check) examples/solver
C_SOURCES := $(wildcard $(addsuffix /*.c,$(C_FOLDERS) tools/lrup-engines tests/support))
C_HEADERS := $(wildcard $(addsuffix /*.h,$(C_FOLDERS))) \
	$(addprefix tools/lrup-engines/,shared.h test_hooks.h)
CXX_SOURCES := $(wildcard tools/lrup-engines/*.cpp) tools/build/cadical_version.cpp
MPI_SOURCES := $(wildcard tools/lrup-engines/mpi/*.cpp)
FORMATTED = $(shell git ls-files | grep -E '\.(c|cpp|h)$$')
STRICT = $(WARNINGS) -Werror -O2 -fsyntax-only $(VERSIONED) $(INCLUDES)
STRICT_C = -std=c11 $(STRICT) -x c
STRICT_CXX = -std=c++17 $(STRICT) -DKIT='"$(KIT)"' $(USE_CADICAL)
warnings: c-and-python libmd $(HELPS) $(FAULTS) $(if $(HAS_CADICAL),$(WITH_CADICAL)) ## check: C and C++ compile without a warning, each header by itself, and clang-format has nothing to do
	@for compiler in $(firstword $(CC)) clang; do command -v $$compiler > /dev/null || continue; \
	$$compiler $(STRICT_C) $(C_SOURCES) || exit 1; \
	for file in $(C_HEADERS); do \
	$$compiler $(STRICT_C) -D_POSIX_C_SOURCE=200809L -include $$file /dev/null || exit 1; done; done
	@[ -n '$(HAS_CADICAL)' ] || exit 0; \
	for compiler in $(firstword $(CXX)) clang++; do command -v $$compiler > /dev/null || continue; \
	$$compiler $(STRICT_CXX) $(CXX_SOURCES) || exit 1; done; \
	! command -v mpicxx > /dev/null || OMPI_CXX="$(CXX)" mpicxx $(STRICT_CXX) $(MPI_SOURCES)
	@if command -v clang-format > /dev/null; then clang-format --dry-run -Werror $(FORMATTED); \
	elif [ -n "$$CI" ]; then echo "clang-format isn't installed: run make packages"; exit 1; fi

# Tests of programs, by what they test. Tests of lrup-solve are skipped without CaDiCaL's library,
# those of --mpi also without MPI, and those of leaks and instructions without valgrind.
examples: TESTS = program_answers program_groups program_reports ## check: compare the program's answers on the examples, and on a few hundred small runs, with the right ones
live: TESTS = program_live ## check: four recorded solvers, line by line through pipes, checked while they run
checkpoints: TESTS = program_checkpoints lrup_recheck example_chain ## check: what --checkpoint saves, lrup-recheck, and streams that are cut into rounds
rounds: TESTS = program_rounds program_rounds_faults program_rounds_alone ## check: runs in rounds: each end and fault, sizes, pipes, and what is saved
neighbours: TESTS = program_neighbours ## check: hostile streams never change the report on a good proof
sweep: TESTS = program_refusals ## check: runs with each allocation, read, write and thread refused in turn
leaks: TESTS = program_leaks ## measure: memory leaks, by valgrind
instructions: TESTS = program_instructions ## measure: how many instructions lines take, by valgrind, against the recorded figures
instructions: MORE = -rP
solver-test: TESTS = example_solver ## check: streams of one to eight example solvers, and of some that are killed
filter-test: TESTS = filter_rounds filter_mutants filter_chains filter_streams filter_lines filter_solvers ## check: the filter, also in rounds, with solvers on the PATH, and on 10,000 mutated proofs
trim-test: TESTS = trim ## check: lrup-trim, on 300 random runs in rounds, and on garbled streams
explain-test: TESTS = explain ## check: lrup-explain against lrupd, on 2,000 faulty streams and 1,000 mutated proofs
solve-test: TESTS = $(patsubst tests/solve/test_%.py,%,$(wildcard tests/solve/test_*.py)) ## check: lrup-solve, on 300 random formulas, and with everything that may fail
shown: TESTS = shown ## check: run the commands that the pages show, and compare their output
quotes-test: TESTS = quotes ## check: see that wrong quotes on the pages are refused
builds: TESTS = builds ## check: C and C++ are compiled with the given flags, and again after a change
rows: ## check: all tests of programs, without proofs but for the program's own; or those of TESTS="trim explain"
examples live checkpoints rounds neighbours sweep leaks instructions solver-test filter-test \
trim-test explain-test solve-test shown quotes-test builds rows: $(BUILT) tools pytest
	@python3 gate/tests.py --program $(PROGRAM) --pytest '$(PYTEST)' --rt '$(RT)' $(TESTS) -- $(MORE)

unmarked: $(BUILT) pytest ## check: lrup-solve's front without each statement that isn't marked as trusted, in some minutes
	@python3 gate/tests.py --program $(PROGRAM) --pytest '$(PYTEST)' lrup_solve_trusted -- -m nightly

# `days` uses larger formulas than the gate does. SEED, which is printed, determines what is tried.
MINUTES ?= 60
SEED ?= $(shell date +%s)
days: $(BUILT) exact pytest ## check: kill processes of lrup-solve for MINUTES=60, and resume from what they saved
	@echo "seed $(SEED)" && $(PYTEST) tests/solve/test_lrup_solve_days.py -vv --program $(PROGRAM) \
	--seed $(SEED) --minutes $(MINUTES)

attack: $(BUILT) exact pytest ## check: random words, names, hostile programs and failing calls for lrup-solve and lrup-check, for MINUTES=60
	@echo "seed $(SEED)" && $(PYTEST) tests/solve/test_lrup_solve_attack.py --program $(PROGRAM) \
	-m nightly --seed $(SEED) --minutes $(MINUTES)

building: toolchain ## measure: the first build, crate by crate, in a clone of HEAD; on a quiet machine without kept proofs
	@python3 bench/first_build.py $(RT)

# These need packages that the gate doesn't need: acl2, acl2-books and acl2-books-certs for peers,
# hol-light and libnum-ocaml-dev for hol.
peers: $(BUILT) solve ## measure: ACL2's verified checkers beside lrupd, in about ten minutes; needs ACL2, which is large
	@python3 bench/peers/peers.py $(PROGRAM) $(TRIM) $(SOLVE)

hol: $(BUILT) solve ## check: HOL Light proves 61 tautologies by lrup-solve, in a few minutes; needs HOL Light
	@PATH="$(abspath $(dir $(SOLVE))):$$PATH" examples/hol/taut.sh

# Changes AUDIT and lrupd.1; `make pages` finds other faults.
quotes: ## check: put changed definitions onto AUDIT, which quotes them, and USING's faults into lrupd.1
	@python3 gate/quotes.py --write
	@python3 gate/interface.py --write

promises: ## check: list what each function of CRATE=name, or of all crates, promises, and its edits
	@python3 gate/promises.py $(CRATE)

# mypy.ini has the folders.
types: ## check: Python's types, by mypy
	@if command -v mypy > /dev/null && command -v $(firstword $(PYTEST)) > /dev/null && \
	mypy --config-file= --cache-dir=/dev/null -c 'import hypothesis' > /dev/null; then mypy; \
	elif [ -n "$$CI" ]; then echo "mypy, pytest or Hypothesis isn't installed: run make packages"; exit 1; fi

# Each script says at its top what it checks.
pages: c-and-python ## check: the documents, against the sources and each other; needs no prover
	@python3 gate/quotes.py
	@python3 gate/interface.py
	@python3 gate/style.py
	@python3 gate/promises.py > /dev/null

# Needs dpkg-deb and dpkg-dev. No package is installed, since who makes one decides what it has.
deb: ## use: a Debian package of what make install installs, in out/
	@rm -rf out/deb
	@$(MAKE) --no-print-directory put DESTDIR="$(abspath out/deb)" PREFIX=/usr
	@sh tools/build/deb.sh out/deb $(VERSION)
	@$(MAKE) --no-print-directory left-out ASKED=deb

# The archive has committed files only.
dist: ## use: an archive of the sources, in out/
	@mkdir -p out && echo out/lrupd-$(VERSION).tar.gz
	@git archive --prefix=lrupd-$(VERSION)/ -o out/lrupd-$(VERSION).tar.gz HEAD

# Runs as many tests as fit into LIMIT seconds. gate/pre-push runs this target before a push.
LIMIT ?= 90
quick: toolchain c-and-python ## check: after a change of CRATE=name: layout, proofs, its tests before they are proved, the pages
	@sh gate/quick.sh $(RT) $(CRATE) $(LIMIT)

# Each edit costs a check of its crate; the gate tries the most important ones.
edits: toolchain ## check: try the edits that the gate leaves out, of CRATE=name or of all crates: each must be refused
	@sh gate/edits.sh $(RT) $(CRATE)

# gate/night.py has the steps.
night: ## check: what the gate leaves out, in some hours: all steps, or those of STEPS="edits hol"
	@python3 gate/night.py $(STEPS)

# Tests whose packages are missing are skipped, and say so; if CI is set, they fail.
packages: ## check: install the Debian packages that tests need, as root or by sudo
	@sh gate/packages.sh

# Each says what it does while it runs. The last line is 'N passed, M failed'.
test: toolchain c-and-python ## check: prove the program, and run all tests of programs; installs the packages that they lack
	@sh gate/packages.sh
	@python3 gate/tests.py --program $(PROGRAM) --pytest '$(PYTEST)' --rt '$(RT)' --after build $(TESTS)

# What has to pass before a push: `rt ci` proves everything from nothing, tries the edits, runs the
# crates' tests, and builds the program with two compilers.
gate: toolchain c-and-python ## check: what make test does, and all other proofs, edits and tests of crates
	@sh gate/packages.sh
	@python3 gate/tests.py --program $(PROGRAM) --pytest '$(PYTEST)' --rt '$(RT)' --after ci $(TESTS)

toolchain:
	@command -v $(RT) > /dev/null || \
	{ echo "lrupd needs Rattle's toolchain: no command '$(RT)' is on the PATH"; exit 1; }

c-and-python:
	@for command in $(firstword $(CC)) python3; do command -v $$command > /dev/null || \
	{ echo "lrupd's tools and tests need a C compiler and Python 3: no command '$$command' is on the PATH"; exit 1; }; done

pytest: c-and-python
	@command -v $(firstword $(PYTEST)) > /dev/null || \
	{ echo "tests of programs need pytest: no command '$(firstword $(PYTEST))' is on the PATH; make packages installs it"; exit 1; }

mpicxx:
	@command -v mpicxx > /dev/null || \
	{ echo "make solve-mpi needs MPI: no command 'mpicxx' is on the PATH; in Debian the package libopenmpi-dev"; exit 1; }

libcadical:
	@command -v $(firstword $(CXX)) > /dev/null || \
	{ echo "make solve needs a C++ compiler: no command '$(firstword $(CXX))' is on the PATH"; exit 1; }
	@[ -n '$(HAS_CADICAL)' ] || \
	{ echo "make solve needs CaDiCaL as a library: in Debian the package libcadical-dev"; exit 1; }

libmd:
	@$(CC) $(CPPFLAGS) -E -x c -include sha256.h /dev/null > /dev/null 2>&1 || \
	{ echo "make trim, explain and solve need libmd: in Debian the package libmd-dev"; exit 1; }
