# `make` lists the targets. rt proves and builds in crates/*/out/, and clears those folders now and then; so the library and the
# program are copied to target/ once they are built. All else that is made goes to target/ too.
LIB = target/staticlib/librivetgnome.a

.PHONY: help run test lib hexline report counts fmt
help:
	@echo 'make run      prove and build what is needed, then answer the tour (docs/tour.txt)'
	@echo 'make test     the whole gate: proofs, must-fail edits, programs, and the tests from outside'
	@echo 'make differ   compare the library with the Rust original (N=.. random requests an entry, SEED=..)'
	@echo 'make abuse    wrong numbers and buffers to the library, damaged lines to hexline (N=.. calls, SEED=..)'
	@echo 'make bench    time the library beside the Rust original, and the workbook'
	@echo 'make sample   make the stored requests and answers of hexline again, from the Rust'
	@echo 'make lib      prove and build $(LIB)'
	@echo 'make install  install the header, the library, its pkg-config file and hexline (PREFIX=/usr/local, DESTDIR=)'
	@echo 'make uninstall'
	@echo 'make report   print which C functions of the kit the library and hexline rest on, as docs/STATEMENTS.md has it'
	@echo 'make counts   write the counts at the end of docs/STATEMENTS.md again'
	@echo 'make fmt      lay out every .rt and .antt file'

run: hexline
	@tests/tour.sh

test:
	@tests/gate.sh

lib: $(LIB)

# With BUILT=1 the archive is taken as it stands in target/.
ifndef BUILT
.PHONY: $(LIB)
$(LIB):
	@mkdir -p $(@D) && rm -f $@
	@(cd crates/rivetgnome && rt lib --list-axioms) >target/lib.log 2>&1 || { cat target/lib.log; exit 1; }
	@cp crates/rivetgnome/out/librivetgnome.a $@
endif

# (rt run builds the program and runs it, here on no input)
hexline:
	@mkdir -p target/bin && rm -f target/bin/hexline
	@(cd crates/hexline && rt run </dev/null) >target/run.log 2>&1 || { cat target/run.log; exit 1; }
	@cp crates/hexline/out/hexline target/bin/hexline

report: $(LIB)
	@(cd crates/hexline && rt check --list-axioms) >target/hexline.log 2>&1 || { cat target/hexline.log; exit 1; }
	@tests/rests.sh

counts:
	@mkdir -p target && tests/counts.sh >target/counts
	@sed -i -e '/^    crate /,$$d' docs/STATEMENTS.md && cat target/counts >>docs/STATEMENTS.md

fmt:
	@for c in crates/*/; do (cd $$c && rt fmt) || exit 1; done

include tests/tests.mk
include install.mk
