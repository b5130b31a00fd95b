# make run: the tool's demonstration: the edges of document 01, run through the proved library.
# make test: everything that is tested; the gate.
# make library: proves the code, and writes target/staticlib/libvma.a for C programs.
# make bench: the library's time for a call beside that of plain Rust.
# make instructions: the instructions of a call, by the library and by plain Rust, counted by callgrind.
# make fuzz SEED=n CALLS=n: random calls through the library, compared with the second program.
# make edges: the edges once more, but those in 16 MiB, by a program that is proved itself.
# make trail: eight calls and their trail, with room for five records, by a program that is proved itself.
# make vectors SEED=n CALLS=n: random calls through a proved program, compared; what they reached.
# make expected: writes the stored expected outputs anew, with the second program.

.PHONY: run test library bench instructions fuzz edges trail vectors expected

SEED ?= 1
CALLS ?= 10000

run: library
	tools/vma demo

test:
	tools/shape
	tools/documents
	cd second && cargo test --quiet
	tools/compare-stored
	tools/gate

library:
	tools/library

bench: library
	tools/vma bench

instructions: library
	tools/instructions

fuzz: library
	tools/vma fuzz $(SEED) $(CALLS)

edges:
	tools/build-program edges
	tools/proved edges

trail:
	tools/build-program eight_calls
	tools/proved eight_calls

vectors:
	tools/build-program vectors
	tools/compare-vectors --seed $(SEED) --calls $(CALLS)
	tools/compare-vectors --seed $(SEED) --large

expected:
	tools/expected crates
