"""The design of tool_dumps.py in each language: two agents that make two loads and a write-back on a bus of 40 clocks.

The values are those of the worked runs two_agents_overlap and dirty_victim_written_back, clock by clock. A source drives those of a clock behind
the edge before it, so each edge has what its clock means.
"""

import sys

sys.dont_write_bytecode = True
from dump_of_trace import SEVERAL
from second_dump import Marks, Sample
from second_judge import verdict

WIDTHS = {"BREQ0": 1, "BREQ1": 1, "ADS": 1, "REQ": 5, "A": 33, "HIT": 1, "HITM": 1, "RS": 3, "TRDY": 1, "DBSY": 1, "DRDY": 1, "D": 64}
LOWEST = {"A": 3}

TRACE = """
0 BREQ0 BREQ1
1 BREQ0 BREQ1
2 BREQ0 BREQ1 ADS REQ=6 A=8
3 BREQ1 REQ=2 A=2
4 BREQ1
5 BREQ1 ADS REQ=6 A=10
6 - REQ=2 A=20002
7 -
8 RS0 RS1 RS2 DBSY DRDY D=1001
9 DBSY DRDY D=1002
10 DBSY DRDY D=8000000000001003
11 DRDY D=1004
12 RS0 RS1 RS2 DBSY DRDY D=2001
13 DBSY DRDY D=2002
14 DBSY DRDY D=2003
15 DRDY D=2004
16 -
17 -
18 BREQ0
19 BREQ0
20 BREQ0 ADS REQ=5 A=8
21 - REQ=2
22 -
23 -
24 -
25 -
26 TRDY
27 -
28 RS0 RS2 DBSY DRDY D=3001
29 DBSY DRDY D=3002
30 DBSY DRDY D=3003
31 DRDY D=3004
"""


# The trace.

def read_trace(text):
    """The clocks of a trace: what is asserted on each line, as a number."""
    clocks = []
    for row in text.split("\n"):
        parts = row.split()[1:]
        words = dict(part.split("=") for part in parts if "=" in part)
        if parts:
            clocks.append({name: int(words[name], 16) if name in words else sum((bit in parts) << place for place, bit in
                           enumerate(SEVERAL.get(name + "_n", [name]))) for name in WIDTHS})
    return clocks


def idle(count):
    return [dict.fromkeys(WIDTHS, 0)] * count


def early(trace):
    """The second response one clock too early: in the last data clock of the first load."""
    return [dict(clock, RS=7) if number == 11 else clock for number, clock in enumerate(trace)]


def one_late(trace, names):
    """These lines one clock later."""
    return [{name: ((idle(1) + trace)[number] if name in names else clock)[name] for name in WIDTHS} for number, clock in enumerate(trace)]


def turned(trace):
    """The two loads by agents 1 and 0, as the turns go behind a request of agent 0."""
    return [dict(clock, BREQ0=clock["BREQ1"], BREQ1=clock["BREQ0"], A=clock["A"] ^ (0x20000 if number in (3, 6) else 0)) if number < 7 else clock
            for number, clock in enumerate(trace)]


def judged(trace):
    """The verdict of the second judge, which was written from the pages of the rules."""
    return verdict(Marks(False, False), [sample_of(clock) for clock in trace])


def sample_of(clock):
    asserted = {bit for name, value in clock.items() if name not in ("REQ", "A", "D")
                for place, bit in enumerate(SEVERAL.get(name + "_n", [name])) if value >> place & 1}
    return Sample(frozenset(), frozenset(asserted), clock["RS"], clock["REQ"], clock["A"], clock["D"])


GOOD = read_trace(TRACE) + idle(8)
EARLY = early(GOOD)
LONG = GOOD + idle(40) + turned(GOOD)
assert judged(GOOD) == "accepted clocks=40" and judged(LONG) == "accepted clocks=120", judged(GOOD)
assert judged(EARLY) == "rejected clock=11 rule=13", judged(EARLY)


# How the lines are named, and at which level they are asserted.

class Names:
    """What the lines are called in a source."""

    def __init__(self, end="_n", lower=True, high=False, wide=False, clock="bclk"):
        self.end, self.lower, self.high, self.wide, self.clock = end, lower, high, wide, clock

    def plain(self, name):
        return (name.lower() if self.lower else name) + self.end

    def word(self, name):
        """As Verilog has it."""
        return "\\%s " % self.plain(name) if "#" in self.end else self.plain(name)

    def width(self, name):
        return 36 if self.wide and name == "A" else WIDTHS[name]

    def span(self, name):
        low = 0 if self.wide and name == "A" else LOWEST.get(name, 0)
        return low + self.width(name) - 1, low

    def digits(self, name, asserted):
        width = self.width(name)
        value = asserted << 3 if width == 36 else asserted
        return format(value if self.high else ~value & (1 << width) - 1, "0%db" % width)


LOW = Names()
TABLE = Names(lower=False, clock="BCLK")


# Verilog.

def declared(names, name, kind):
    return "%s %s%s" % (kind, "" if WIDTHS[name] == 1 else "[%d:%d] " % names.span(name), names.word(name))


def driven(names, clock, before, arrow="<="):
    """The assignments of the lines that differ from the clock before."""
    return " ".join("%s %s %d'b%s;" % (names.word(name), arrow, names.width(name), names.digits(name, clock[name]))
                    for name in WIDTHS if before is None or clock[name] != before[name])


def agent(trace, names=LOW, module="agent", edge="posedge", reset=0, more=""):
    """A module that drives the trace, each clock behind the edge before it; below the reset it drives nothing."""
    first = "" if reset else "  initial begin %s end\n" % driven(names, trace[0], None, "=")
    rows = ["      %d: begin %s end\n" % (number - 1, driven(names, clock, trace[number - 1] if number > reset else None))
            for number, clock in enumerate(trace) if number > 0 and number >= reset and (number == reset or clock != trace[number - 1])]
    ports = ", ".join(["input wire " + names.clock] + [declared(names, name, "output reg") for name in WIDTHS])
    return ("module %s(%s);\n  integer step = 0;\n%s%s  always @(%s %s) begin\n    step <= step + 1;\n    case (step)\n%s      default: ;\n"
            "    endcase\n  end\nendmodule\n" % (module, ports, more, first, edge, names.clock, "".join(rows)))


def monitor(names=LOW):
    """A module that reads the lines under their own names."""
    ports = ", ".join(["input wire " + names.clock] + [declared(names, name, "input wire") for name in WIDTHS])
    return "module monitor(%s);\n  integer count = 0;\n  always @(posedge %s) if (!%s) count = count + 1;\nendmodule\n" % (
        ports, names.clock, names.word("ADS"))


def joined(module, instance, names):
    return "  %s %s(%s);\n" % (module, instance, ", ".join(".%s(%s)" % (word, word) for word in [names.clock] + [names.word(n) for n in WIDTHS]))


def wires(names):
    return "".join("  %s;\n" % declared(names, name, "wire") for name in WIDTHS)


def clocked(names, half=5, start=0, length=40, first=None):
    """The clock, which rises so often from 0, and the end of the simulation half a clock behind its last rise."""
    end = (first if first is not None else half) + 2 * half * (length - 1) + half - 1
    return ("  reg %s = %d;\n  initial begin %sforever #%d %s = !%s; end\n  initial #%d $finish;\n"
            % (names.clock, start, "" if first is None or first == half else "#%d " % (first - half), half, names.clock, names.clock, end))


def bench(trace, names=LOW, scale="1ns/1ns", half=5, start=0, edge="posedge", reset=0, dump="$dumpvars(0, tb);", inner="", more="", mon=False,
          length=None, driver=""):
    """A testbench: the clock, the nets, the agent, perhaps a monitor, and what is dumped."""
    text = "`timescale %s\n%s%s" % (scale, agent(trace, names, "agent", edge, reset, driver), monitor(names) if mon else "")
    body = clocked(names, half, start, length or len(trace)) + wires(names) + more + joined("agent", "dut", names)
    body += joined("monitor", "mon", names) if mon else ""
    return text + 'module tb;\n%s%s  initial begin $dumpfile("dump.vcd"); %s end\nendmodule\n' % (body, inner, dump)


def two_buses(first, second):
    text = "`timescale 1ns/1ns\n" + agent(first, LOW, "one_agent") + agent(second, LOW, "two_agent")
    for name in ("one", "two"):
        text += "module %s(input wire bclk);\n%s%sendmodule\n" % (name, wires(LOW), joined(name + "_agent", "dut", LOW))
    return text + ('module tb;\n%s  one one(bclk);\n  two two(bclk);\n'
                   '  initial begin $dumpfile("dump.vcd"); $dumpvars(0, tb); end\nendmodule\n' % clocked(LOW, length=len(first)))


BESIDE = """
  real volts = 1.5; event granted; string state = "idle"; parameter WIDTH = 3; localparam [4:0] MODE = 2; parameter real SCALE = 0.5;
  integer total = 0; time last = 0; reg [7:0] memory [0:3];
  always @(posedge bclk) begin volts = volts * 0.5; total = total + 1; state = total % 2 ? "a b" : "c"; last = $time; -> granted; end
"""


# VHDL.

def vhdl(trace, digits="01", reset=0, odd=None):
    """The lines with small letters. `digits` are those for 0 and 1; `odd` has strange digits: a clock, a line and a digit each."""
    def value(name, number, asserted):
        text = LOW.digits(name, asserted).translate({48: digits[0], 49: digits[1]})
        for clock, line, digit in odd or ():
            text = digit * len(text) if (clock, line) == (number, name) else text
        return "'%s'" % text if len(text) == 1 else '"%s"' % text

    def kind(name):
        return "std_logic" if WIDTHS[name] == 1 else "std_logic_vector(%d downto %d)" % LOW.span(name)

    def rows(number, names):
        return " ".join("%s <= %s;" % (LOW.plain(name), value(name, number, trace[number][name])) for name in names)

    nets = "".join("  signal %s : %s%s;\n" % (LOW.plain(n), kind(n), "" if reset else " := " + value(n, 0, trace[0][n])) for n in WIDTHS)
    steps = "".join("      when %d => %s\n" % (number - 1, rows(number, WIDTHS)) for number in range(max(reset, 1), len(trace)))
    return ("library ieee; use ieee.std_logic_1164.all;\nentity tb is end;\narchitecture a of tb is\n  signal bclk : std_logic := '0';\n"
            "  signal step : integer := 0;\n" + nets + "begin\n  bclk <= not bclk after 5 ns;\n  process (bclk) begin\n"
            "    if rising_edge(bclk) then step <= step + 1;\n      case step is\n" + steps + "      when others => null;\n      end case;\n"
            "    end if;\n  end process;\nend;\n")


# C++.

LATE = ["BREQ0", "BREQ1", "ADS", "REQ", "A"]
OTHERS = [name for name in WIDTHS if name not in LATE]


def passed(names):
    """A design whose agent's lines are inputs, which go to the nets as they are; the others are driven by flip-flops."""
    ports = ", ".join(["input wire bclk"] + [declared(LOW, n, "input wire").replace(LOW.plain(n), "in_" + LOW.plain(n)) for n in WIDTHS]
                      + [declared(LOW, n, "output wire" if n in names else "output reg") for n in WIDTHS])
    first = "".join("%s = %d'b%s; " % (LOW.plain(n), WIDTHS[n], LOW.digits(n, 0)) for n in OTHERS)
    return ("module tb(%s);\n  initial begin %send\n  always @(posedge bclk) begin %s end\n%sendmodule\n" % (
        ports, first, " ".join("%s <= in_%s;" % (LOW.plain(n), LOW.plain(n)) for n in WIDTHS if n not in names),
        "".join("  assign %s = in_%s;\n" % (LOW.plain(n), LOW.plain(n)) for n in names)))


def cpp(trace):
    """A main that sets the inputs and the clock at one time: the agent's lines for this very edge, those of the flip-flops for the next."""
    rows = []
    for number, clock in enumerate(trace):
        following = trace[min(number + 1, len(trace) - 1)]
        sets = "".join("t.in_%s = 0x%xull; " % (LOW.plain(n), int(LOW.digits(n, (clock if n in LATE else following)[n]), 2)) for n in WIDTHS)
        rows.append("  { %st.bclk = 1; t.eval(); f.dump(%d); t.bclk = 0; t.eval(); f.dump(%d); }\n" % (sets, 10 * number + 5, 10 * number + 10))
    first = "".join("t.in_%s = 0x%xull; " % (LOW.plain(n), int(LOW.digits(n, 0), 2)) for n in WIDTHS)
    return ('#include "Vtb.h"\n#include "verilated.h"\n#include "verilated_vcd_c.h"\nint main(int c, char **v) {\n  VerilatedContext x; '
            'x.commandArgs(c, v); x.traceEverOn(true);\n  Vtb t{&x}; VerilatedVcdC f; t.trace(&f, 99); f.open("dump.vcd");\n'
            "  %st.bclk = 0; t.eval(); f.dump(0);\n%s  f.close();\n}\n" % (first, "".join(rows)))


def systemc(trace, edge="pos", start=5, scope="bus."):
    """The lines change behind this edge of the clock, whose first rise is at the time `start`."""
    kinds = {n: "bool" if w == 1 else "sc_lv<%d>" % w for n, w in WIDTHS.items()}
    nets = "".join('  sc_signal<%s> %s{"%s"};\n' % (kinds[n], LOW.plain(n), LOW.plain(n)) for n in WIDTHS)
    set_of = lambda clock: " ".join("%s.write(%s);" % (LOW.plain(n), LOW.digits(n, clock[n]) if w == 1 else '"%s"' % LOW.digits(n, clock[n]))
                                    for n, w in WIDTHS.items())
    steps = "".join("      case %d: %s break;\n" % (number, set_of(clock)) for number, clock in enumerate(trace))
    traced = "".join('  sc_trace(f, bus.%s, "%s%s");\n' % (LOW.plain(n), scope, LOW.plain(n)) for n in WIDTHS)
    return ("#include <systemc.h>\nSC_MODULE(Bus) {\n  sc_in<bool> bclk;\n" + nets + "  int step = 0;\n  void drive() {\n    step++;\n    switch (step) {\n"
            + steps + "    }\n  }\n  SC_CTOR(Bus) { SC_METHOD(drive); sensitive << bclk.%s(); dont_initialize(); %s }\n};\n" % (edge, set_of(trace[0]))
            + 'int sc_main(int, char **) {\n  sc_clock bclk("bclk", 10, SC_NS, 0.5, %d, SC_NS, true);\n  Bus bus("bus"); bus.bclk(bclk);\n' % start
            + '  sc_trace_file *f = sc_create_vcd_trace_file("dump"); f->set_time_unit(1, SC_PS);\n  sc_trace(f, bclk, "%sbclk");\n' % scope + traced
            + "  sc_start(%d, SC_NS); sc_close_vcd_trace_file(f); return 0;\n}\n" % (10 * len(trace) - 1))


# A circuit of ngspice, whose digital sources play the lines bit by bit.

def spice(trace):
    """The circuit and the table that its sources play; the data are left out, since a command of ngspice has not so many words."""
    bits = ["bclk"] + ["%s_n%s" % (n.lower(), "" if w == 1 else "[%d]" % (LOWEST.get(n, 0) + place))
                       for n, w in WIDTHS.items() if n != "D" for place in range(w)]
    nodes = [bit.replace("[", "_").replace("]", "") for bit in bits]
    rows = []
    for number, clock in enumerate(trace):
        values = "".join(LOW.digits(n, clock[n])[::-1] for n in WIDTHS if n != "D")
        for time, level in ((10 * number, "0"), (10 * number + 5, "1")):
            rows.append("%dn %s" % (time, " ".join(digit + "s" for digit in level + values)))
    circuit = ["a bus", "asrc [%s] source" % " ".join(nodes), '.model source d_source (input_file="bus.txt")', "vdummy one 0 1", "rdummy one 0 1k",
               ".control", "tran 1n %dn" % (10 * len(trace)), "eprvcd %s > dump.vcd" % " ".join(nodes), "quit", ".endc", ".end"]
    return "\n".join(circuit) + "\n", "\n".join(rows) + "\n"
