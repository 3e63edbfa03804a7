# Runs two models and judges their dumps: make -k -f ci.mk. docs/in-ci.md explains it.
CLOCKS = 200

judged: right.ok early.ok

right: verilog/counter.v
	iverilog -g2012 -o $@ $<
early: verilog/counter.v
	iverilog -g2012 -DEARLY_TRDY -o $@ $<

%.vcd: %
	./$* +dump=$@ > $*.log

# accepted, of as many clocks as were meant, and the data clean
%.ok: %.vcd
	p6bench check $< > $@
	grep -qx 'accepted clocks=$(CLOCKS)' $@
	p6bench audit $< >> $@

.DELETE_ON_ERROR:
.PRECIOUS: %.vcd
