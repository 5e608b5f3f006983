# The two commands: `make run` does the main job, `make test` passes all tests.
.PHONY: run test benchmark clean

# proves and builds the bench master and the log program, and runs the story of the mirror: the script with its answers beside it
run:
	@mkdir -p build
	@echo 'Proving and building the programs; the first time takes some five minutes.' >&2
	@{ tests/build bench linlog 2>&1; echo $$? >build/run.status; } | tests/progress build/run.log 14 0 >&2
	@[ "$$(cat build/run.status)" = 0 ] || { echo 'make run: not proved; build/run.log has what was said' >&2; exit 1; }
	@demo/run

test:
	@tests/run

benchmark:
	@benchmarks/run

clean:
	rm -rf build target
