# make run          build the proved programs, and show a sale of three pages on two disk files
# make test         the gate: everything proved, programs and tests run
# make system-test  the built program on real files, killed and failed at every write
# make planted      plants each bug of tests/planted in a copy, and tells what catches it; takes hours
# make planted-plays  builds six bugs without their proof, and has each found by playing at every moment
# make bench        measures the built program beside SQLite, LMDB and plain C, and writes docs/BENCHMARK.md
# make bench-peers  installs what the benchmark can use (Debian packages)

.PHONY: run build test system-test planted planted-plays bench bench-peers

run: build
	@tests/show.sh

build:
	@tests/build.sh

test:
	@tests/gate.sh rt ci

system-test: build
	@tests/system/run.sh

planted: build
	@tests/planted/plant.py --all

planted-plays:
	@tests/planted-plays/find.sh

bench:
	@$(MAKE) -s -C bench
	@python3 -B bench/bench.py

bench-peers:
	apt-get update
	apt-get install -y libsqlite3-dev liblmdb-dev strace valgrind
