# make run: builds and runs the main program. make test: the gate.
.PHONY: run test

run:
	@cd crates/piston && rt run

# The last line is that of rt ci.
test:
	@tools/listed
	@compare/run
	@tools/proved
