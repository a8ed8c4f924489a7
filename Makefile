# make run      builds zseq and answers the example's question; QUESTION=FILE asks another
# make test     the gate: proofs, must-fail edits, the libraries from C, the comparison with the independent program
# make build    the static libraries, the C programs and the independent program
# make picture  draws the example's graph with its dead ends marked; IMAGE=FILE draws another
# make bench    our libraries beside two versions in Rust; bench/stack measures the stack
#
# Each makes again what is older than its sources.

QUESTION = examples/can-fire.bin
IMAGE = examples/sequence.image

.PHONY: run test build picture bench

run:
	@host/build zseq
	@host/run target/bin/zseq < $(QUESTION)

test:
	@.ci/run

build:
	@host/build

picture:
	@host/build deadends
	@host/run build/picture $(IMAGE) > build/picture.dot
	@if command -v dot > /dev/null; then dot -Tpng build/picture.dot -o build/picture.png && echo build/picture.png; \
	else echo "build/picture.dot is written; to draw it, install Debian's graphviz: apt-get install graphviz"; fi

bench:
	@bench/run
