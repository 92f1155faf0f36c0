# `make run` carries out a job, `make test` is the gate, `make bench` times the cut.
JOB ?= examples/foam.job

.PHONY: run test bench

run:
	@cd crates/jellyalloy && rt run </dev/null >../../target-check.log 2>&1 || { tail -n 20 ../../target-check.log; exit 1; }
	@rm -f target-check.log
	@crates/jellyalloy/out/jellyalloy <$(JOB)

test:
	@.ci/run

bench:
	@cd crates/exports && rt lib >../../target-bench.log 2>&1 || { tail -n 20 ../../target-bench.log; exit 1; }
	@rm -f target-bench.log
	@cargo run --release --offline --quiet --manifest-path bench/Cargo.toml
