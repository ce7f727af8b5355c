# The C side: the reference, the comparison with the proved library, the stored tapes, the sample server.
#
#   make lib              prove the library and write its two archives: the machine's, and that of the lists of slots
#   make bin              prove the two programs and write them
#   make tape-words       the program that turns a text into a tape and back
#   make tests            the stored tapes against the reference, and tape-words
#   make programs         the stored tapes against the proved tape and tree programs (TAPE, TREE)
#   make random-programs  the same on RANDOM_TAPES=N random tapes from SEED=S on, against the reference
#   make compare          the library against the reference; CALLS=N SEED=S for longer runs, THIN=K for shorter ones
#   make slots-test       restrict and drop on lists of slots, against their rules written in the test itself
#   make faults           the comparison must find each fault of tests/faults in a copy of the reference
#   make valgrind         a short comparison under valgrind
#   make bench            a step, a record and the two programs against the reference, compiled at -O2 and at -O3: times, and
#                         instructions by callgrind
#   make instructions     of a step and a record, library against reference, counted by the emulator where one is used
#   make server           the sample lesson server; server-test tries it
#   make install          header, archive and pkg-config file below PREFIX
#   make expected         write the stored outputs again, from the reference (look at the difference before you keep it)
#
# SELF=1 puts a copy of the reference in the place of the archive, only to try the comparison and the server.
# SLOTS=0 leaves out the functions on a list of slots, for an archive without them.
#
# The archive is for x86-64. On another machine what links it is compiled for x86-64 and emulated (native/x86-64). Times and
# valgrind can do nothing with an emulator: there bench and valgrind have the library's code compiled for the machine
# (OWN=1, native/own-code), which compare, slots-test and server-test can have too.

LIB ?= skawennel
ARCHIVE ?= target/staticlib/lib$(LIB).a
SLOTS_ARCHIVE ?= target/staticlib/libslots.a
RT ?= rt
TAPE ?= target/bin/tape
TREE ?= target/bin/tree
PREFIX ?= /usr/local
VERSION ?= 1.0
CALLS ?= 700000
SEED ?= 1
RANDOM_TAPES ?= 30
THIN ?= 1
SLOTS ?= 1
SELF ?= 0
OWN ?= 0
CFLAGS ?= -O3 -g
WARNINGS = -std=c11 -Wall -Wextra -Werror
CPPFLAGS = -Iinclude -Inative -DSLOTS=$(SLOTS)

# BUILD has what runs on this machine, OVER what stands over the library, CODE the library's code compiled for this machine.
BUILD ?= target/native
CODE = target/native/code
CC = gcc
X86_64 = $(CURDIR)/native/x86-64
ifeq ($(SELF),1)
OVER = $(BUILD)/self
OVER_CC = $(CC)
RUN =
MACHINE = $(OVER)/self.o
else ifeq ($(OWN)-$(filter x86_64,$(shell uname -m)),1-)
OVER = $(BUILD)/own
OVER_CC = $(CC)
RUN =
MACHINE = $(CODE)/$(LIB).o $(if $(filter 1,$(SLOTS)),$(CODE)/slots.o)
TAPE = $(CODE)/tape
TREE = $(CODE)/tree
else
OVER = $(BUILD)/over
OVER_CC = $(X86_64) cc
RUN = $(X86_64) run
MACHINE = $(ARCHIVE) $(if $(filter 1,$(SLOTS)),$(SLOTS_ARCHIVE))
endif

HEADERS = $(wildcard include/*.h native/*.h)
TAPES = $(sort $(wildcard tests/tapes/*.words tests/tapes/*.tape))
WORDS = $(filter %.words,$(TAPES))

all: tests compare slots-test programs random-programs server-test

lib:
	@mkdir -p target/staticlib
	cd crates/skawennel_c && $(RT) lib
	cp crates/skawennel_c/out/libskawennel_c.a target/staticlib/libskawennel.a
	cd crates/slots_c && $(RT) lib
	cp crates/slots_c/out/libslots_c.a target/staticlib/libslots.a

# Each program is run once, on its own input, since that is what makes it.
bin:
	@mkdir -p target/bin
	cd crates/tape && $(RT) run <stdin >../../target/bin/stdout && cmp ../../target/bin/stdout stdout
	cp crates/tape/out/tape target/bin/tape
	cd crates/tree && $(RT) run <stdin >../../target/bin/stdout && cmp ../../target/bin/stdout stdout
	cp crates/tree/out/tree target/bin/tree

# Whoever links an archive is told how to make it.
$(ARCHIVE) $(SLOTS_ARCHIVE):
	@echo "$@ is not there: make lib, or name another one, ARCHIVE=.." >&2; exit 1

target/bin/tape target/bin/tree:
	@echo "$@ is not there: make bin" >&2; exit 1

$(CODE)/$(LIB).o: $(ARCHIVE)
	native/own-code $(LIB) $@

$(CODE)/slots.o: $(SLOTS_ARCHIVE)
	native/own-code slots $@

$(CODE)/tape $(CODE)/tree: $(CODE)/%: target/bin/%
	native/own-code $* $@

$(BUILD)/%.o: native/%.c $(HEADERS) Makefile
	@mkdir -p $(@D)
	$(CC) $(WARNINGS) $(CFLAGS) $(CPPFLAGS) -c $< -o $@

$(OVER)/%.o: native/%.c $(HEADERS) Makefile
	@mkdir -p $(@D)
	$(OVER_CC) $(WARNINGS) $(CFLAGS) $(CPPFLAGS) -c $< -o $@

$(OVER)/self.o: native/reference.c

$(BUILD)/tape-words: $(BUILD)/tape_words.o $(BUILD)/words.o
	$(CC) $^ -o $@

$(BUILD)/make-expected: $(BUILD)/make_expected.o $(BUILD)/words.o $(BUILD)/reference.o
	$(CC) $^ -o $@

$(BUILD)/reference-program: $(BUILD)/reference_program.o $(BUILD)/words.o $(BUILD)/reference.o
	$(CC) $^ -o $@

$(BUILD)/random-tape: $(BUILD)/random_tape.o $(BUILD)/sample.o $(BUILD)/words.o $(BUILD)/reference.o
	$(CC) $^ -o $@

$(OVER)/reference-program: $(OVER)/reference_program.o $(OVER)/words.o $(OVER)/reference.o
	$(OVER_CC) $^ -o $@

$(OVER)/compare: $(OVER)/compare.o $(OVER)/sample.o $(OVER)/words.o $(OVER)/reference.o $(MACHINE)
	$(OVER_CC) $^ -o $@

$(OVER)/slots-test: $(OVER)/slots_test.o $(MACHINE)
	$(OVER_CC) $^ -o $@

$(OVER)/bench: $(OVER)/bench.o $(OVER)/reference.o $(MACHINE)
	$(OVER_CC) $^ -o $@

$(OVER)/server: $(OVER)/server.o $(OVER)/words.o $(MACHINE)
	$(OVER_CC) $^ -o $@

tape-words: $(BUILD)/tape-words

tests: $(BUILD)/make-expected $(BUILD)/tape-words
	$(BUILD)/make-expected check $(TAPES)
	@tests/tape-words $(BUILD)/tape-words $(WORDS)

expected: $(BUILD)/make-expected
	$(BUILD)/make-expected write $(TAPES)

random-programs: $(BUILD)/random-tape $(BUILD)/reference-program
	@RUN="$(X86_64) run" tests/random-programs $(BUILD)/random-tape $(BUILD)/reference-program $(TAPE) $(TREE) $(SEED) $(RANDOM_TAPES)

programs: $(BUILD)/tape-words
	@RUN="$(X86_64) run" tests/programs $(BUILD)/tape-words $(TAPE) $(TREE) $(TAPES)

compare: $(OVER)/compare
	$(RUN) $< --calls $(CALLS) --seed $(SEED) --thin $(THIN)

slots-test: $(OVER)/slots-test
	@$(RUN) $<

faults: $(BUILD)/compare.o $(BUILD)/sample.o $(BUILD)/words.o $(BUILD)/reference.o
	@tests/faults/run "$(CC) $(WARNINGS) $(CFLAGS) $(CPPFLAGS)" $(BUILD)

# OWN=1 stands for the archive itself on x86-64, and for its code compiled for this machine elsewhere.
valgrind:
	@$(MAKE) --no-print-directory compare-valgrind SELF=$(SELF) OWN=1

compare-valgrind: $(OVER)/compare
	valgrind -q --error-exitcode=1 $< --calls 2000 --thin 400 --seed $(SEED)

# The library is as it is; the reference is compiled both ways.
bench:
	@for level in -O2 -O3; do echo "== the reference at $$level"; \
	  $(MAKE) --no-print-directory -s bench-level SELF=$(SELF) OWN=1 BUILD=$(BUILD)$$level CFLAGS=$$level || exit 1; done

BENCH_PROGRAMS = $(if $(filter 1,$(SELF)),,$(TAPE) $(TREE) $(OVER)/reference-program)

bench-level: $(OVER)/bench $(BENCH_PROGRAMS)
	$<
	$(if $(BENCH_PROGRAMS),$< --programs $(BENCH_PROGRAMS) tests/tapes/full.tape)
	RUN= native/instructions $< $(BENCH_PROGRAMS)

instructions: $(OVER)/bench $(BENCH_PROGRAMS)
	RUN="$(if $(filter x86_64,$(shell uname -m)),,$(RUN))" native/instructions $< $(BENCH_PROGRAMS)

server: $(OVER)/server

server-test: $(OVER)/server
	@RUN="$(RUN)" tests/server/run $<

install: $(ARCHIVE) $(SLOTS_ARCHIVE)
	install -d $(DESTDIR)$(PREFIX)/include $(DESTDIR)$(PREFIX)/lib/pkgconfig
	install -m 644 include/skawennel.h $(DESTDIR)$(PREFIX)/include/skawennel.h
	install -m 644 $(ARCHIVE) $(DESTDIR)$(PREFIX)/lib/lib$(LIB).a
	install -m 644 $(SLOTS_ARCHIVE) $(DESTDIR)$(PREFIX)/lib/lib$(LIB)_slots.a
	sed -e 's|@PREFIX@|$(PREFIX)|' -e 's|@LIB@|$(LIB)|g' -e 's|@VERSION@|$(VERSION)|' native/skawennel.pc.in \
	  > $(DESTDIR)$(PREFIX)/lib/pkgconfig/skawennel.pc

clean:
	rm -rf $(BUILD) $(BUILD)-O2 $(BUILD)-O3

.PHONY: all lib bin tape-words tests expected programs random-programs compare slots-test faults valgrind compare-valgrind \
  bench bench-level instructions server server-test install clean
