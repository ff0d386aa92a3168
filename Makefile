# The example's sheet, made from words and inspected, and a script rehearsed on it; then a sheet whose entries clash.
demo: crates/inspect/out/inspect crates/rehearse/out/rehearse
	mkdir -p target/demo
	sh examples/make-sheet.sh < examples/example.plan > target/demo/plan.bin
	cd target/demo && ../../crates/inspect/out/inspect
	cd target/demo && ../../crates/rehearse/out/rehearse < ../../examples/example.script
	sh examples/make-sheet.sh < examples/clash.plan > target/demo/plan.bin
	cd target/demo && ../../crates/inspect/out/inspect

# rt run proves and builds a program, and then runs it: here it finds no sheet beside it, and says so, which is no matter.
crates/%: FORCE
	rm -f $@
	cd crates/$(notdir $@) && mkdir -p out && rt run < /dev/null > out/run.log 2>&1 || true
	test -x $@ || { cat crates/$(notdir $@)/out/run.log; exit 1; }

FORCE:

# The gate: everything proved, every must-fail edit refused, every program and test run, and the second program
# compared with the proved one.
test:
	sh .ci/run

.PHONY: demo test FORCE
