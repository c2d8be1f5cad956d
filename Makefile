# make test    the gate: rt ci (every crate proved, every must-fail edit refused), then the host tests
# make run     ledger on the worked example, or on the records in FILE
# make bench   the speed of ledger beside that of the second program, on a year of 32 units
# make ledger  proves and builds target/bin/ledger
# make week    the peak hours of the seven days from WEEK, a date of 2007 to 2100
# make archive the peak question for C: target/staticlib/libcalendar.a

export FILE =
export WEEK = 2011-07-04

LEDGER = target/bin/ledger
ARCHIVE = target/staticlib/libcalendar.a
parts = $(shell find $(wildcard $(foreach crate,$(1),crates/$(crate)/src crates/$(crate)/specs crates/$(crate)/proofs)) -type f)
RUST = rustc --edition 2021 -O

# tests/host/edits reads what rt ci said
HOST = edits contracts wrong_answers reckoning promises figures format quantities peak_hour peak_week third_monday tally kit ledger tools streams run

.PHONY: test run bench ledger week archive

test:
	@tests/kit
	@tests/tally tests/ci $(HOST:%=tests/host/%)

run: $(LEDGER)
	@tools/run "$$FILE"

bench: $(LEDGER) target/second target/streams
	@tests/bench

ledger: $(LEDGER)

week: target/peak_week
	@target/peak_week "$$WEEK"

archive: $(ARCHIVE)

# rt run proves the program, builds it and runs it once, here on no records
$(LEDGER): $(call parts,numbers calendar capacity money records rules book report ledger)
	@echo 'proving and building ledger (some minutes from nothing)' >&2
	@mkdir -p $(@D)
	@cd crates/ledger && rt run </dev/null >../../target/ledger.log 2>&1 || { cat ../../target/ledger.log >&2; exit 1; }
	@cp -f crates/ledger/out/ledger $@

$(ARCHIVE): $(call parts,numbers calendar calendar_c)
	@echo 'proving calendar and writing $@ (some ten seconds)' >&2
	@mkdir -p $(@D)
	@cd crates/calendar_c && rt lib >../../target/staticlib.log 2>&1 || { cat ../../target/staticlib.log >&2; exit 1; }
	@cp -f crates/calendar_c/out/libcalendar_c.a $@

target/peak_week: $(ARCHIVE) examples/peak_week.c include/peak_hour.h
	@gcc -std=c11 -O2 -Wall -Wextra -Iinclude examples/peak_week.c $(ARCHIVE) -o $@

target/second: tests/second/main.rs tests/second/reckoning.rs
	@mkdir -p target
	@$(RUST) $< -o $@

target/streams: $(wildcard tests/streams/*.rs) tests/second/reckoning.rs
	@mkdir -p target
	@$(RUST) tests/streams/main.rs -o $@
