# make test: the gate (tools/gate).
# make demo: proves and runs the demo, and prints what it writes. make rehearsal: the same for a rehearsal's takes and bad input (docs/REHEARSAL.md).
# make expected: writes the lines that the rehearsal must print, as the second program gives them.
# A program is proved and run by rt run, and must write its file stdout to the byte.
.PHONY: test demo rehearsal expected

test:
	@tools/gate

demo rehearsal:
	@cd crates/$@ && mkdir -p out && rt run >out/printed && cat out/printed && cmp out/printed stdout

expected:
	@CARGO_TARGET_DIR=rust/target cargo run --offline --release --quiet --manifest-path rust/second/Cargo.toml --bin rehearsal > crates/rehearsal/stdout
