# `make example` builds the program `replay` and runs it on the example script; `make test` runs all tests.

BUILD := target/made
REPLAY := target/bin/replay
ARCHIVE := target/staticlib/libcapi.a

.PHONY: example test gate replay archive c-example scripts

example: replay
	$(REPLAY) < examples/trail.script

# The toolchain's gate comes first, on the tree as it was checked out. Its last line is the verdict, which is shown again
# at the end, once everything else has passed too.
test: gate
	$(MAKE) --no-print-directory c-example scripts
	@tail -n 1 $(BUILD)/gate.log

gate:
	tools/gate $(BUILD)

# The program, proved and built; it runs once on an empty script.
replay:
	mkdir -p $(BUILD) $(dir $(REPLAY))
	cd crates/replay && rt run < /dev/null > ../../$(BUILD)/replay.log 2>&1 || { tail -n 40 ../../$(BUILD)/replay.log; exit 1; }
	cp crates/replay/out/replay $(REPLAY)

# The C functions, proved and built.
archive:
	mkdir -p $(BUILD) $(dir $(ARCHIVE))
	cd crates/capi_c && rt lib > ../../$(BUILD)/archive.log 2>&1 || { tail -n 40 ../../$(BUILD)/archive.log; exit 1; }
	cp crates/capi_c/out/libcapi_c.a $(ARCHIVE)

c-example: archive
	gcc -std=c99 -Wall -Wextra -Werror -O2 -Iinclude examples/judge.c $(ARCHIVE) -o $(BUILD)/judge
	$(BUILD)/judge > $(BUILD)/judge.out
	diff -u examples/judge.out $(BUILD)/judge.out

# The shipped scripts, with what they must print and the status they must end with.
scripts: replay
	$(REPLAY) < examples/trail.script > $(BUILD)/trail.out
	diff -u examples/trail.out $(BUILD)/trail.out
	if $(REPLAY) < examples/wrong.script > $(BUILD)/wrong.out; then echo "wrong.script: status 0" >&2; exit 1; fi
	diff -u examples/wrong.out $(BUILD)/wrong.out
