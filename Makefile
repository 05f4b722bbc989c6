.PHONY: bench demo lib test

# Proves and builds the two programs that read a job, and runs them on the shipped one.
demo:
	@said=$$(mktemp) && for program in enclose lowline; do \
		(cd crates/$$program && rt run < stdin 2>$$said) || { cat $$said; exit 1; }; \
	done

# The static library for hosts and its header, in dist/. The toolchain's C support is merged in, so a host links one archive.
lib:
	@said=$$(mktemp) && { (cd crates/hostcall && rt lib >$$said 2>&1) || { cat $$said; exit 1; }; }
	@mkdir -p dist && rm -f dist/liblowline.a
	@printf 'create dist/liblowline.a\naddlib crates/hostcall/out/libhostcall.a\naddlib %s\nsave\nend\n' "$$(dirname "$$(rt doc)")/c/liblibc_c.a" | ar -M
	@cp clients/c/lowline.h dist/

# How long a split takes, in the library and in the twin.
bench: lib
	@cd clients/host && cargo run --release --offline --quiet --features bench --bin bench

# The whole gate.
test:
	@bash .ci/run
