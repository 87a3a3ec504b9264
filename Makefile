# All the set-up there is: `make demo` builds and runs, `make test` runs the gate. `make PROGRAM` builds crates/PROGRAM/out/PROGRAM.
PROGRAMS := findings inspect probe readings pace trials

.PHONY: demo test $(PROGRAMS)

demo: findings
	crates/findings/out/findings < examples/knock.findings

# `rt run` proves and builds the program, which stays in out/, and runs it once, here on no input
$(PROGRAMS):
	cd crates/$@ && rt run < /dev/null > /dev/null

test:
	.ci/run
