# Tests of the archive from outside, for the Makefile at the root to include; it has the rules for
# $(LIB) and hexline. A part that this machine cannot run says 'skipped: ..' in one line and is no failure, but
# for `make differ`, `make bench` and `make sample`, which were asked for by name.
C_WARN = -Wall -Wextra -Werror -pedantic
C_HAS = printf '%s\n' '\#include <stdint.h>' | $(1) -fsyntax-only - 2>/dev/null

.PHONY: test-c test-python test-rust test-differ differ bench sample abuse

# Every tests/c/*.c, from C11 and again from C++17.
test-c: $(LIB)
	@mkdir -p target/c
	@if $(call C_HAS,gcc -x c); then \
		for t in $(basename $(notdir $(wildcard tests/c/*.c))); do \
			gcc -std=c11 $(C_WARN) -O -Iinclude -o target/c/$$t tests/c/$$t.c $(LIB) && target/c/$$t || exit 1; \
		done; \
	else echo 'skipped: C test (Debian package gcc, with libc6-dev)'; fi
	@if $(call C_HAS,g++ -x c++); then \
		for t in $(basename $(notdir $(wildcard tests/c/*.c))); do \
			g++ -std=c++17 $(C_WARN) -O -Iinclude -o target/c/$$t++ -x c++ tests/c/$$t.c -x none $(LIB) && target/c/$$t++ || exit 1; \
		done; \
	else echo 'skipped: C++ test (Debian package g++)'; fi

# bindings/python and the examples of docs/USING.md, over this archive whatever is installed.
test-python: $(LIB)
	@if ! python3 -c 'import ctypes, sys, unittest; sys.exit(sys.version_info < (3, 9))' 2>/dev/null; then \
		echo 'skipped: Python test (Debian package python3, 3.9 or later)'; \
	elif ! $(call C_HAS,gcc -x c); then \
		echo 'skipped: Python test, whose shared object gcc links (Debian package gcc, with libc6-dev)'; \
	else cd bindings/python && RIVETGNOME_LIB="$(CURDIR)/$(LIB)" python3 -B -m unittest; fi

# The short comparison with the Rust.
test-differ: $(LIB)
	@tests/oracle/build.sh $(LIB) && target/oracle/differ --count 300000 || test $$? = 77

# The whole one.
differ: $(LIB)
	@tests/oracle/build.sh $(LIB)
	@target/oracle/differ $(if $(N),--count $(N)) $(if $(SEED),--seed $(SEED))

# The library's time beside the Rust's.
bench: $(LIB)
	@tests/bench/run.sh $(LIB)

# crates/hexline/stdin and stdout again, from the Rust's answers.
sample: $(LIB)
	@tests/sample.sh

# bindings/rust: its tests, its examples and its layout.
test-rust: $(LIB)
	@if ! command -v cargo >/dev/null; then echo 'skipped: the Rust binding (Debian package cargo)'; \
	elif ! command -v cc >/dev/null; then echo 'skipped: the Rust binding (Debian package gcc)'; \
	else cd bindings/rust && RIVETGNOME_LIB="$(CURDIR)/target/staticlib" CARGO_TARGET_DIR="$(CURDIR)/target/rust" cargo test --offline --locked -q; fi

# The archive and hexline under abuse; the gate has shorter runs.
abuse: $(LIB) hexline
	@tests/abuse/run.sh calls $(or $(N),20000000) 1000000 $(SEED)
	@tests/abuse/run.sh lines 2000000 $(SEED)
