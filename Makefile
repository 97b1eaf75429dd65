# The commands of this repository. Each calls rt or a script; `make` lists them. `make try` and `make test` take cargo.
PREFIX ?= /usr/local
DESTDIR ?=
FILE ?=
export DESTDIR PREFIX

.PHONY: help try test check programs lib install dist wheel clean

help: ## lists the targets
	@sed -n 's/^\([a-z]*\):.*## /\1\t/p' Makefile

try: ## shows perffold's table of a recording of a Rust program, by cargo: make try FILE=perf.data for another recording
	scripts/try $(FILE)

test: ## runs the cases and the other tests of rust/tests by cargo, before any proof: two minutes of processor time
	scripts/test

check: ## the gate: every proof, must-fail edit and test, the programs and the C library
	.ci/run

programs: ## proves and builds perflist, perfinfo, perfjson and perffold, those whose sources changed
	scripts/build_programs

lib: ## proves and builds libdewikura.a and libdewikura.so in crates/dewikura/out/install, if their sources changed
	scripts/build_library

install: lib programs ## installs the library, header, dewikura.pc, programs, man pages and completions below PREFIX (and DESTDIR)
	scripts/install

dist: lib programs ## a tarball of what install installs, for machines without the kit
	scripts/dist

wheel: lib programs ## the Python package with the library, for machines without the kit
	cd bindings/python && python3 -B -c 'import build_backend; print(build_backend.build_wheel(".."))'

clean: ## removes what rt and cargo built
	rm -rf crates/*/out target
