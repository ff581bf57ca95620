# The EDON-R load kit, for those who use it from C.
#
#   make                the archive target/staticlib/libedonr.a, and target/probe/edonr-probe
#   make run            a probe run of a few seconds
#   make test           all tests: rt ci proves and runs everything, and the comparisons with C follow; the gate calls it
#   make target/bin/flips
#                       the program flips; target/bin/lister is the lister
#   make mutants        shows that the comparisons with C see wrong archives
#   make bench          the benchmark's table; CC=clang sets the compiler of the C side
#   make bench BEFORE=libedonr.a
#                       the same, with the digests of an earlier archive measured in turn
#   make install        archive, header and probe under $(DESTDIR)$(PREFIX)
#   make uninstall      removes those three
#   make clean          removes all that was built, proofs included (crates/*/out, which rt makes)

CC = gcc
CFLAGS = -O2
PREFIX = /usr/local
DESTDIR =

warnings = -Wall -Wextra -pedantic -Werror
archive = target/staticlib/libedonr.a
programs = target/bin/lister target/bin/flips
probe = target/probe/edonr-probe
bench = target/bench/edonr-bench-$(notdir $(CC))$(if $(BEFORE),-before)
before = target/bench/before.o
header = include/edonr.h
bench_sources = $(wildcard bench/*.[ch] tests/harness/*.[ch] tests/reference/*.[ch])
prefix = $(DESTDIR)$(PREFIX)
# What the archive and the programs are made from: all of crates/ but what rt makes of it.
sources := crates.txt $(shell find crates -regex 'crates/[^/]*/out' -prune -o -type f -print)

.PHONY: all run test mutants bench install uninstall clean $(before)

all: $(archive) $(probe)

# rt lib proves what has changed, of edonr and the crates below it, and builds the archive in the crate's out/.
$(archive): $(sources)
	cd crates/edonr && rt lib
	mkdir -p $(@D)
	cp crates/edonr/out/libedonr.a $@

$(programs):
	mkdir -p $(@D)
	cp $< $@

target/bin/lister: crates/lister/out/lister
target/bin/flips: crates/flips/out/flips

# rt builds a program to run it. Both are there once rt ci has passed, and are then not built again. rt run proves only what
# has changed and may leave the program as it is; its time must follow.
crates/lister/out/lister crates/flips/out/flips: $(sources)
	cd crates/$(@F) && rt run </dev/null >/dev/null
	touch $@

$(probe): $(wildcard probe/*.c probe/*.h) $(header) $(archive)
	mkdir -p $(@D)
	$(CC) -std=c11 $(CFLAGS) $(warnings) -pthread -Iinclude $(filter %.c,$^) $(archive) -o $@

$(bench): $(bench_sources) $(header) $(archive) $(if $(BEFORE),$(before))
	@mkdir -p $(@D)
	@$(CC) -std=c11 -O3 $(warnings) -Iinclude $(filter %.c %.o,$^) $(archive) -o $@

# The earlier archive as one object, of which nothing but the digest is seen, under another
# name. It is made each time, since BEFORE may name another archive than the last time.
$(before): $(BEFORE)
	@mkdir -p $(@D)
	@ld -r --whole-archive $< -o $@
	@objcopy --keep-global-symbol=edonr_digest $@
	@objcopy --redefine-sym edonr_digest=before_edonr_digest $@

run: $(probe)
	$(probe) --seconds 3

test:
	@bash tests/gate

mutants: $(archive)
	@tests/mutants

bench: $(bench)
	@$(bench)

install: all
	install -d $(prefix)/lib $(prefix)/include $(prefix)/bin
	install -m 644 $(archive) $(prefix)/lib
	install -m 644 $(header) $(prefix)/include
	install -m 755 $(probe) $(prefix)/bin

uninstall:
	rm -f $(prefix)/lib/libedonr.a $(prefix)/include/edonr.h $(prefix)/bin/edonr-probe

clean:
	rm -rf target crates/*/out
