# make run plays case A of document 01, make tree grows the tree of LINE; make test is the whole gate; make bench and make soak go on
# from what it proved.
.PHONY: run tree test bench soak

LINE ?= 3 2 3 1 20

run:
	@tests/play.sh replay <crates/replay/stdin

tree:
	@echo "$(LINE)" | tests/play.sh tree

test:
	@tests/gate.sh

bench:
	@. tests/machine.sh && tests/build.sh libfinish.a && bench/run.sh target/staticlib/libfinish.a

soak:
	@. tests/machine.sh && tests/build.sh libfinish.a && tests/soak.sh target/staticlib/libfinish.a
