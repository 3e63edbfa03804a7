#!/usr/bin/env python3
"""Dumps of one small design by real tools, and what `p6scope` says of each.

Usage: lab/tool_dumps.py FOLDER [PROGRAM [WORD ..]]      (PROGRAM: crates/p6scope/out/p6scope; WORD: only dumps whose name has one of these)

Two agents make two loads and a write-back on a bus of 40 clocks, as the worked runs two_agents_overlap and dirty_victim_written_back.
Icarus Verilog, Verilator, GHDL, yosys, SystemC, ngspice, GTKWave's converters and sigrok dump it in the situations that docs/scope.md
speaks of: names, levels, widths, scopes, resets, edges, stops, cut files, parts. FOLDER then has the sources and the dumps.

Of each row stand here the command line, the status and the second line of the report (of a refusal, its first line). They come from the
trace and from docs/scope.md: clock, time and line of the file are counted by the small reader below. `lines` must end with 0 where a
`check` without an option finds the bus, and else with 3. Prints a table; ends with 0 where all is as expected. A row whose tool is not
installed, or writes no dump, is told as skipped.
"""

import concurrent.futures
import os
import re
import shutil
import subprocess
import sys

sys.dont_write_bytecode = True
from common import TOP
from tool_sources import (BESIDE, EARLY, GOOD, LATE, LONG, LOW, LOWEST, TABLE, WIDTHS, Names, agent, bench, cpp, early, idle, joined, judged, monitor,
                          one_late, passed, spice, systemc, two_buses, vhdl, wires)

SECONDS = 300
WORKERS = 3
ABSENT = "BREQ2_n BREQ3_n BPRI_n LOCK_n BNR_n AERR_n DEFER_n AP_n RP_n"


# What a dump shows: the edges of a clock, with the time and the text line of each.

def edges(path, clock, falling=False, first=False):
    """The time and the line of the time stamp of each edge of this variable, which is named by its whole path."""
    scopes, code, place, time, line, before, now, found = [], None, 0, None, 0, None, None, []
    with open(path, "rb") as file:
        rows = file.read().decode("latin-1").split("\n")
    words = [(number, word) for number, row in enumerate(rows, 1) for word in row.split()]

    def end_block():
        if (before, now) == (("1", "0") if falling else ("0", "1")) or first and before is None and now == ("0" if falling else "1"):
            found.append((time, line))
    while place < len(words):
        number, word = words[place]
        place += 1
        if word in ("$scope", "$var", "$upscope", "$enddefinitions", "$comment", "$date", "$version", "$timescale"):
            section = []
            while place < len(words) and words[place][1] != "$end":
                section.append(words[place][1])
                place += 1
            place += 1
            if word == "$scope":
                scopes.append(section[1])
            elif word == "$upscope":
                scopes.pop()
            elif word == "$var" and ".".join(scopes + [section[3]]) == clock:
                code = section[2]
        elif word[0] == "#":
            if time is None or int(word[1:]) != time:
                end_block()
                before, time, line = now, int(word[1:]), number
        elif word[0] in "bBrRsS":
            if word[0] in "bB" and words[place][1] == code:
                now = word[-1]
            place += 1
        elif word[1:] == code:
            now = word[0]
    end_block()
    assert code is not None, "no clock %s in %s" % (clock, path)
    return found


def scale_of(path):
    with open(path, "rb") as file:
        found = re.search(rb"\$timescale\s+(\d+)\s*([munpf]?s)\s+\$end", file.read())
    return (int(found[1]), found[2].decode()) if found else (None, None)


def shown_time(path, steps):
    """A time in the largest unit in which it is whole, or its number alone: the page shows `170 ns` and says no more."""
    units = ["s", "ms", "us", "ns", "ps", "fs"]
    factor, unit = scale_of(path)
    if unit is None:
        return "time %d" % steps
    count, place = steps * factor, units.index(unit)
    while count and place and count % 1000 == 0:
        count, place = count // 1000, place - 1
    return "%d %s" % (count, units[place])


def titles():
    with open(os.path.join(TOP, "docs/phase-rules.md")) as file:
        return dict(re.findall(r"^### (\d+) (.*)$", file.read(), re.M))


# What is expected of a command.

class Wanted:
    """Status and second line, and what stands in the answer besides."""

    def __init__(self, status, line, begins=False, has=()):
        self.status, self.line, self.begins, self.has = status, line, begins, (has,) if isinstance(has, str) else has

    def text(self, path):
        return self.line(path) if callable(self.line) else self.line


def accepted(count, of, *has):
    return Wanted(0, "accepted: %d of %d clocks judged" % (count, of), has=has)


def rejected(clock, rule, *has, at="tb.bclk", falling=False, first=False, of=None):
    """Rejected at this clock of the variable `at`, which has so many in all."""
    def line(path):
        found = edges(path, at, falling, first)
        assert of is None or len(found) == of, "%s has %d clocks, and not %d" % (path, len(found), of)
        time, number = found[clock]
        return "rejected at clock %d, %s (line %d of the file): rule %d, %s" % (clock, shown_time(path, time), number, rule, titles()[str(rule)])
    return Wanted(1, line, has=has)


def nothing(*has):
    return Wanted(3, "nothing could be judged", begins=True, has=has)


def as_judged(trace, of, **found):
    """What the second judge says of these clocks, of which the dump has so many."""
    words = re.findall("[0-9]+", judged(trace))
    return rejected(int(words[0]), int(words[1]), of=of, **found) if len(words) == 2 else accepted(len(trace), of)


def refused(cause, *has, status=3):
    """Refused, and the first line has these words."""
    return Wanted(status, cause, has=has)


# The dumps: of each its tool, the source or sources, and the command that makes it.

def cut_before(text, mark, behind=0):
    """The text up to the last place of a mark, and so many bytes of it."""
    place = text.rindex(mark)
    return text[:place + behind]


def without_date(text):
    return re.sub(rb"\$date.*?\$end\n", b"", text, flags=re.S)


ICARUS = "iverilog -g2012 -o bench bench.v && vvp -n bench"
VERILATE = "verilator --binary -Wno-fatal -Wno-lint -CFLAGS -O0 --trace --top-module tb -j 2 bench.v && ./obj_dir/Vtb"
GHDL = "ghdl -a --std=08 bench.vhd && ghdl -e --std=08 tb && ghdl -r --std=08 tb --vcd=dump.vcd --stop-time=%dns"
CPP = "verilator -Wno-fatal -Wno-lint -CFLAGS -O0 --cc --exe --build --trace --top-module tb -j 2 bench.v main.cpp && ./obj_dir/Vtb"
SYSTEMC = "g++ -std=c++17 -O0 -o bench bench.cpp -lsystemc && ./bench"
YOSYS = "yosys -q -p 'read_verilog bench.v; hierarchy -top tb; proc; %s sim -clock bclk -n 40 -vcd dump.vcd'"
DUMPS = {}


def icarus(name, text, run=ICARUS):
    DUMPS[name] = ("iverilog", {"bench.v": text}, run)


def derived(name, source, tool, run):
    """A dump that a command makes of another one, which it finds as `source.vcd`."""
    DUMPS[name] = (tool, source, run)


def edited(name, source, edit):
    """A dump that is another one with its bytes changed."""
    DUMPS[name] = ("python3", source, edit)


HIGH = Names(end="", high=True)
OTHER = Names(end="_x", clock="clk")
HIGH_WIDE = Names(end="", high=True, wide=True)
icarus("icarus_table", bench(GOOD, TABLE))
icarus("icarus_lower", bench(GOOD))
icarus("icarus_early", bench(EARLY))
icarus("icarus_l", bench(GOOD, Names(end="_l")))
icarus("icarus_b", bench(GOOD, Names(end="_b", lower=False, clock="BCLK")))
icarus("icarus_hash", bench(EARLY, Names(end="#")))
icarus("icarus_high", bench(GOOD, HIGH))
icarus("icarus_high_early", bench(EARLY, HIGH_WIDE))
icarus("icarus_other", bench(GOOD, OTHER))
icarus("icarus_pll", bench(GOOD, OTHER, more="  pll pll();\n") + "module pll;\n  reg lock_n = 0;\nendmodule\n")
icarus("icarus_wide", bench(GOOD, Names(wide=True)))
icarus("icarus_reset", bench(idle(3) + GOOD, reset=3))
icarus("icarus_reset_early", bench(idle(3) + EARLY, reset=3))
icarus("icarus_two", two_buses(GOOD, EARLY))
icarus("icarus_two_more", two_buses(GOOD, EARLY).replace("module one(input wire bclk);", "module one(input wire bclk);\n  wire bnr_n = 0;"))
icarus("icarus_monitor", bench(EARLY, mon=True))
icarus("icarus_clock_high", bench(EARLY, start=1))
icarus("icarus_one_edge", bench(idle(1), start=1, length=1))
icarus("icarus_falling", bench(EARLY, start=1, edge="negedge"))
icarus("icarus_off", bench(GOOD, dump="$dumpvars(0, tb); #347 $dumpoff; #20 $dumpon;"))
icarus("icarus_off_first", bench(GOOD, dump="$dumpvars(0, tb); $dumpoff; #167 $dumpon;"))
icarus("icarus_off_in_traffic", bench(EARLY, dump="$dumpvars(0, tb); #97 $dumpoff; #20 $dumpon;"))
icarus("icarus_off_to_end", bench(GOOD, dump="$dumpvars(0, tb); #347 $dumpoff;"))
icarus("icarus_all", bench(EARLY, dump="$dumpvars(0, tb); #52 $dumpall; #20 $dumpall;"))
icarus("icarus_limit", bench(GOOD, dump="$dumplimit(3600); $dumpvars(0, tb);"))
icarus("icarus_ps", bench(EARLY, scale="1ps/1ps"))
icarus("icarus_10ns", bench(EARLY, scale="10ns/10ns"))
icarus("icarus_10ns_slow", bench(EARLY, scale="10ns/10ns", half=500))
icarus("icarus_100us", bench(EARLY, scale="100us/100us"))
icarus("icarus_s", bench(EARLY, scale="1s/1s"))
icarus("icarus_fs", bench(EARLY, scale="1ns/1fs"))
icarus("icarus_long", bench(LONG))
icarus("icarus_long_early", bench(early(LONG)))
icarus("icarus_beside", bench(EARLY, more=BESIDE))
icarus("icarus_rivals", bench(GOOD, more="  wire hit_l = hit_n, hit_b = !hit_n;\n").replace("wire hit_n", "wire hit_x").replace(".hit_n(hit_n)", ".hit_n(hit_x)")
       .replace("hit_l = hit_n, hit_b = !hit_n", "hit_l = hit_x, hit_b = !hit_x"))
icarus("icarus_both_names", bench(EARLY, more="  wire ADS_n = ads_n;\n"))
icarus("icarus_vector", bench(EARLY, HIGH, more="  wire [35:0] control = {drdy, dbsy, trdy, rs, hitm, hit, ads, breq1, breq0, 25'b0};\n"
                              "  wire [3:0] breq_n = {2'b11, !breq1, !breq0};\n"))
icarus("icarus_undriven", bench(GOOD, more="  reg bnr_n = 1'bx; reg lock_n = 1;\n"))
icarus("icarus_narrow", bench(GOOD, more="  wire [1:0] rs_l = 3;\n").replace("wire [2:0] rs_n", "wire [2:0] rs_x").replace(".rs_n(rs_n)", ".rs_n(rs_x)"))
icarus("icarus_no_data", bench(GOOD, dump="$dumpvars(1, tb);").replace("wire [63:0] d_n", "wire [63:0] d_x").replace(".d_n(d_n)", ".d_n(d_x)"))
icarus("icarus_levels", bench(GOOD, HIGH))
icarus("icarus_fst", bench(EARLY), "iverilog -g2012 -o bench bench.v && vvp -n bench -fst && mv dump.vcd dump.fst && fst2vcd -f dump.fst -o dump.vcd")
icarus("icarus_lxt2", bench(EARLY), "iverilog -g2012 -o bench bench.v && vvp -n bench -lxt2 && mv dump.vcd dump.lxt && lxt2vcd dump.lxt > dump.vcd")
icarus("icarus_late_dumpvars", bench(EARLY, dump="#52 $dumpvars(0, tb);"))
icarus("icarus_some", bench(EARLY, dump="$dumpvars(0, tb.bclk, %s);" % ", ".join("tb." + LOW.plain(n) for n in WIDTHS)))

BITS = ["%s[%d]" % (LOW.plain(n), LOWEST.get(n, 0) + place) for n in WIDTHS for place in range(WIDTHS[n]) if WIDTHS[n] > 1]
icarus("icarus_bits", bench(EARLY, more="".join("  wire \\%s = %s;\n" % (bit, bit) for bit in BITS), dump="$dumpvars(0, tb.bclk, %s);" % ", ".join(
    ["tb." + LOW.plain(n) for n in WIDTHS if WIDTHS[n] == 1] + ["tb.\\%s " % bit for bit in BITS])))
icarus("icarus_few_bits", DUMPS["icarus_bits"][1]["bench.v"].replace(", ".join("tb.\\%s " % bit for bit in BITS),
                                                                     ", ".join("tb.\\%s " % bit for bit in BITS if bit[0] != "d")))
icarus("icarus_bits_low", bench(EARLY, more="".join("  wire %s_%s = %s;\n" % (*bit[:-1].split("["), bit) for bit in BITS), dump="$dumpvars(1, tb);"))

DUMPS["verilator_lower"] = ("verilator", {"bench.v": bench(EARLY)}, VERILATE)
DUMPS["verilator_monitor"] = ("verilator", {"bench.v": bench(EARLY, more=BESIDE, mon=True)}, VERILATE)
DUMPS["verilator_two"] = ("verilator", {"bench.v": two_buses(GOOD, EARLY)}, VERILATE)
DUMPS["verilator_main"] = ("verilator", {"bench.v": passed(LATE), "main.cpp": cpp(EARLY)}, CPP)
DUMPS["verilator_fst"] = ("verilator", {"bench.v": bench(EARLY)}, VERILATE.replace("--trace ", "--trace-fst ")
                          + " && mv dump.vcd dump.fst && fst2vcd -f dump.fst -o dump.vcd")
DUMPS["ghdl"] = ("ghdl", {"bench.vhd": vhdl(EARLY)}, GHDL % 400)
DUMPS["ghdl_weak"] = ("ghdl", {"bench.vhd": vhdl(EARLY, "LH")}, GHDL % 400)
DUMPS["ghdl_reset"] = ("ghdl", {"bench.vhd": vhdl(idle(3) + GOOD, "LH", reset=3)}, GHDL % 430)
DUMPS["ghdl_odd_words"] = ("ghdl", {"bench.vhd": vhdl(GOOD, odd=[(17, "D", "-"), (24, "A", "W"), (24, "REQ", "U"), (33, "D", "Z")])}, GHDL % 400)
DUMPS["ghdl_weak_unknown"] = ("ghdl", {"bench.vhd": vhdl(GOOD, odd=[(17, "TRDY", "W")])}, GHDL % 400)
DUMPS["ghdl_do_not_care"] = ("ghdl", {"bench.vhd": vhdl(GOOD, odd=[(14, "D", "-")])}, GHDL % 400)
DUMPS["ghdl_undriven"] = ("ghdl", {"bench.vhd": vhdl(GOOD, odd=[(17, "HIT", "Z")])}, GHDL % 400)
DUMPS["ghdl_fst"] = ("ghdl", {"bench.vhd": vhdl(EARLY, "LH")}, (GHDL % 400).replace("--vcd=dump.vcd", "--fst=dump.fst")
                     + " && fst2vcd -f dump.fst -o dump.vcd")
PORTS = "module tb(input wire bclk);\n" + wires(LOW) + joined("agent", "dut", LOW) + "endmodule\n"
DUMPS["yosys"] = ("yosys", {"bench.v": agent(EARLY) + PORTS}, YOSYS % "")
DUMPS["yosys_flat"] = ("yosys", {"bench.v": agent(EARLY) + PORTS}, YOSYS % "flatten;")
DUMPS["yosys_split"] = ("yosys", {"bench.v": agent(EARLY) + PORTS}, YOSYS % "flatten; splitnets -format [];")
DUMPS["yosys_split_round"] = ("yosys", {"bench.v": agent(EARLY) + PORTS}, YOSYS % "flatten; splitnets -format ();")
DUMPS["yosys_split_ports"] = ("yosys", {"bench.v": agent(EARLY, module="tb")}, YOSYS % "splitnets -ports -format [];")
DUMPS["yosys_monitor"] = ("yosys", {"bench.v": agent(EARLY) + monitor() + PORTS.replace("endmodule", joined("monitor", "mon", LOW) + "endmodule")},
                          YOSYS % "")
DUMPS["systemc"] = ("/usr/include/systemc.h", {"bench.cpp": systemc(EARLY)}, SYSTEMC)
DUMPS["systemc_good"] = ("/usr/include/systemc.h", {"bench.cpp": systemc(GOOD)}, SYSTEMC)
DUMPS["systemc_long"] = ("/usr/include/systemc.h", {"bench.cpp": systemc(LONG)}, SYSTEMC)
DUMPS["systemc_flat"] = ("/usr/include/systemc.h", {"bench.cpp": systemc(EARLY, scope="")}, SYSTEMC)
DUMPS["systemc_high"] = ("/usr/include/systemc.h", {"bench.cpp": systemc(EARLY, "neg", 0)}, SYSTEMC)
DUMPS["ngspice"] = ("ngspice", dict(zip(("bus.cir", "bus.txt"), spice(EARLY))), "ngspice -b bus.cir")
DUMPS["ngspice_good"] = ("ngspice", dict(zip(("bus.cir", "bus.txt"), spice(GOOD))), "ngspice -b bus.cir")

derived("gtkwave_fst", "icarus_early", "fst2vcd", "vcd2fst source.vcd dump.fst && fst2vcd -f dump.fst -o dump.vcd")
derived("gtkwave_ghdl", "ghdl_weak", "fst2vcd", "vcd2fst source.vcd dump.fst && fst2vcd -f dump.fst -o dump.vcd")
derived("gtkwave_ghdl_plain", "ghdl", "fst2vcd", "vcd2fst source.vcd dump.fst && fst2vcd -f dump.fst -o dump.vcd")
derived("gtkwave_two", "icarus_two", "fst2vcd", "vcd2fst source.vcd dump.fst && fst2vcd -f dump.fst -o dump.vcd")
derived("gtkwave_off", "icarus_off", "fst2vcd", "vcd2fst source.vcd dump.fst && fst2vcd -f dump.fst -o dump.vcd")
derived("gtkwave_lxt2", "icarus_early", "vcd2lxt2", "vcd2lxt2 source.vcd dump.lxt && lxt2vcd dump.lxt > dump.vcd")
derived("gtkwave_vzt", "icarus_early", "vcd2vzt", "vcd2vzt source.vcd dump.vzt && vzt2vcd dump.vzt > dump.vcd")
derived("sigrok", "icarus_few_bits", "sigrok-cli", "sigrok-cli -I vcd -i source.vcd -O vcd > dump.vcd")
edited("preface", "icarus_early", lambda text: b"VCD info: dumpfile dump.vcd opened for output.\n" + text)
edited("crlf", "icarus_early", lambda text: text.replace(b"\n", b"\r\n"))
edited("one_line", "icarus_early", lambda text: text.replace(b"\n", b" "))
edited("no_scale", "icarus_early", lambda text: re.sub(rb"\$timescale.*?\$end\n", b"", text, flags=re.S))
edited("cut_stamp", "icarus_lower", lambda text: cut_before(text, b"#385", 3))
edited("cut_value", "icarus_lower", lambda text: cut_before(text, b"#155\n", 5) + b"b11")
edited("cut_code", "icarus_lower", lambda text: cut_before(text, b"#155\n", 5) + b"b111 ")
edited("cut_digit", "icarus_lower", lambda text: cut_before(text, b"#155\n", 5) + b"1")
edited("cut_comment", "icarus_lower", lambda text: cut_before(text, b"#155\n", 5) + b"$comment the simulator was st")
edited("cut_comment_with_stamp", "icarus_lower", lambda text: cut_before(text, b"#155\n", 5) + b"$comment at\n#160\n0!\n")
edited("cut_dumpoff", "icarus_off_to_end", lambda text: cut_before(text, b"$dumpoff", 8) + b"\nx")
edited("cut_header", "icarus_lower", lambda text: cut_before(text, b"$enddefinitions", 9))
edited("cut_in_fault", "icarus_early", lambda text: cut_before(text, b"#115\n", 4))
edited("limit_inside", "icarus_lower", lambda text: cut_before(text, b"#155\n", 5) + b"$comment Dump limit (900 bytes) exceeded. $end\n")
edited("hello", "icarus_lower", lambda text: text.replace(b"#155\n", b"hello\n#155\n"))
edited("time_back", "icarus_lower", lambda text: text.replace(b"#155\n", b"#55\n"))
edited("empty", "icarus_lower", lambda text: b"")
edited("header_alone", "icarus_lower", lambda text: text[:text.index(b"#0\n")])


# The rows: the dump, the words behind `check` (DUMP stands at the end), and what is expected.

def named(names, scope="tb", mark="", of=WIDTHS):
    """The option for each line."""
    words = ["--line", "BCLK=%s.%s" % (scope, names.clock)]
    for name in of:
        words += ["--line", "%s_n=%s%s.%s" % (name, mark, scope, names.plain(name))]
    return words


HEAD = "tb of %s.vcd: 13 lines; not there: " + ABSENT
ROWS = []


def row(dump, words, wanted):
    ROWS.append((dump, words.split() if isinstance(words, str) else words, wanted))


# names, levels, widths
row("icarus_table", "", accepted(40, 40, HEAD % "icarus_table"))
row("icarus_lower", "", accepted(40, 40, HEAD % "icarus_lower"))
row("icarus_early", "", rejected(11, 13, of=40))
row("icarus_l", "", accepted(40, 40))
row("icarus_b", "", accepted(40, 40))
row("icarus_hash", "", rejected(11, 13, of=40))
row("icarus_high", named(HIGH, mark="!"), accepted(40, 40))
row("icarus_high", "", refused("no scope has every needed line", "perhaps: --line BREQ0_n=!tb.breq0"))
row("icarus_other", "", refused("no variable is named like a line of the bus", "perhaps: --line BCLK=tb.clk"))
row("icarus_other", named(OTHER), accepted(40, 40, "the named wires of icarus_other.vcd: 13 lines"))
row("icarus_pll", named(OTHER), accepted(40, 40, "the named wires of icarus_pll.vcd: 13 lines"))
row("icarus_high", named(HIGH, mark="!") + ["--scope", "tb"], accepted(40, 40))
row("icarus_high", named(HIGH, scope="tb.dut", mark="!"), accepted(40, 40, "the named wires of icarus_high.vcd: 13 lines"))
row("icarus_high_early", named(HIGH_WIDE, mark="!"), rejected(11, 13, of=40))
row("icarus_high", named(HIGH), rejected(0, 2, of=40))
row("icarus_wide", "", accepted(40, 40))
row("icarus_wide", "--line A_n=tb.a_n[35:3]", accepted(40, 40))
row("icarus_wide", "--line A_n=tb.a_n[32:0]", rejected(3, 3, of=40))
row("icarus_vector", named(HIGH, mark="!", of=[n for n in WIDTHS if n not in ("ADS", "RS", "BREQ0", "BREQ1")])
    + ["--line", "ADS_n=!tb.control[27]", "--line", "RS_n=!tb.control[32:30]", "--line", "BREQ0_n=tb.breq_n[0]", "--line", "BREQ1_n=tb.breq_n[1]"],
    rejected(11, 13, of=40))
row("icarus_vector", named(HIGH, mark="!", of=[n for n in WIDTHS if n != "ADS"]) + ["--line", "ADS_n=tb.control"],
    refused("cannot be the line, which has 1 bit"))
row("icarus_vector", named(HIGH, mark="!", of=[n for n in WIDTHS if n != "ADS"]) + ["--line", "ADS_n=tb.control[36]"], refused("cannot be the line"))
row("icarus_lower", "--line ADS_n=tb.ads", refused("--line ADS_n=tb.ads names no variable"))
row("icarus_lower", "--line ADS=tb.ads_n", Wanted(2, None))
row("icarus_lower", "--line ADS_n=ads_n --scope tb", accepted(40, 40))
row("icarus_lower", "--line ads#=tb.ads_n --scope tb", accepted(40, 40))
row("icarus_lower", "--line ADS_n=ads_n --line ADS_n=tb.ads_n", refused("ADS_n is named or left out twice"))
row("icarus_lower", "--without ADS_n", refused("ADS_n is left out"))
row("icarus_lower", "--without D_n", accepted(40, 40, "rule 17 is not judged"))
row("icarus_lower", "--without BREQ1_n", as_judged([dict(clock, BREQ1=0) for clock in GOOD], 40))
row("icarus_no_data", "", refused("no scope has every needed line"))
row("icarus_no_data", "--without D_n --scope tb", accepted(40, 40, "rule 17 is not judged"))
row("icarus_undriven", "", nothing("--without LINE"))
row("icarus_undriven", "--without BNR_n", accepted(40, 40, "tb of icarus_undriven.vcd: 14 lines", "left out: BNR_n"))
row("icarus_rivals", "--scope tb", refused("tb is no whole bus", "ambiguous: HIT_n may be"))
row("icarus_rivals", "--scope tb --line HIT_n=hit_l", accepted(40, 40))
row("icarus_both_names", "", refused("2 scopes are a whole bus"))
row("icarus_both_names", "--scope tb", rejected(11, 13, "ADS_n is ADS_n (wire, 1 bit), and not ads_n (wire, 1 bit)", of=40))
row("icarus_narrow", "--scope tb", refused("tb is no whole bus", "is named like RS_n, and cannot be it"))
row("icarus_narrow", "--scope tb --line RS_n=rs_x", accepted(40, 40))
row("icarus_beside", "", rejected(11, 13, of=40))

# scopes
row("icarus_two", "", refused("2 scopes are a whole bus", "name one of these by --scope"))
row("icarus_two", "--scope tb.one", accepted(40, 40, "tb.one of icarus_two.vcd: 13 lines"))
row("icarus_two", "--scope tb.two", rejected(11, 13, "tb.two of icarus_two.vcd: 13 lines", of=40))
row("icarus_two", "--scope tb.three", refused("no variable stands in the scope tb.three"))
row("icarus_two", "--scope tb", refused("tb is no whole bus"))
row("icarus_two", named(LOW, "tb.two"), rejected(11, 13, "the named wires of icarus_two.vcd: 13 lines", of=40))
row("icarus_two_more", "--scope tb.two", rejected(11, 13, of=40))
row("icarus_two_more", "--scope tb.one", rejected(2, 5, of=40))
row("icarus_two_more", named(LOW, "tb.two"), rejected(11, 13, "the named wires of icarus_two_more.vcd: 13 lines", of=40))
row("icarus_monitor", "", rejected(11, 13, HEAD % "icarus_monitor", of=40))
row("icarus_monitor", "--scope tb.mon", rejected(11, 13, "tb.mon of icarus_monitor.vcd: 13 lines", of=40))
row("icarus_some", "", rejected(11, 13, of=40))
row("verilator_monitor", "", rejected(11, 13, "TOP.tb of verilator_monitor.vcd: 13 lines", at="TOP.tb.bclk", of=40))
row("verilator_two", "", refused("2 scopes are a whole bus"))
row("verilator_two", "--scope TOP.tb.one", accepted(40, 40))
row("verilator_two", "--scope TOP.tb.two", rejected(11, 13, at="TOP.tb.two.bclk", of=40))
row("yosys", "", refused("2 scopes are a whole bus"))
row("yosys", "--scope tb", rejected(11, 13, of=40))
row("yosys_monitor", "", refused("3 scopes are a whole bus"))
row("yosys_monitor", "--scope tb.mon", rejected(11, 13, of=40))
row("gtkwave_two", "", refused("2 scopes are a whole bus"))
row("gtkwave_two", "--scope tb.two", rejected(11, 13, at="tb.two.bclk", of=40))

# split vectors
row("yosys_flat", "--scope tb", rejected(11, 13, of=40))
row("yosys_split", "--scope tb", rejected(11, 13, of=40))
row("yosys_split_round", "--scope tb", rejected(11, 13, of=40))
row("yosys_split_ports", "", rejected(11, 13, of=40))
row("icarus_bits", "", rejected(11, 13, of=40))
row("icarus_few_bits", "--without D_n", rejected(11, 13, of=40))
row("icarus_bits_low", "", refused("no scope has every needed line", "ambiguous: REQ_n may be"))
row("sigrok", "--without D_n", rejected(11, 13, "libsigrok of sigrok.vcd: 12 lines", at="libsigrok.bclk", of=40))
row("ngspice", "--without D_n", rejected(11, 13, ". of ngspice.vcd: 12 lines", at="bclk", of=40))

row("ngspice_good", "--without D_n", accepted(40, 40, "rule 17 is not judged"))
row("ngspice_good", "", refused("no scope has every needed line", "missing: D_n"))

# resets and digits of VHDL
row("icarus_reset", "", accepted(40, 43, "clock 3 is the first that is judged: there every control line has a level"))
row("icarus_reset_early", "", rejected(14, 13, "clock 3 is the first that is judged", of=43))
row("ghdl", "", rejected(11, 13, of=40))
row("ghdl_weak", "", rejected(11, 13, of=40))
row("ghdl_reset", "", accepted(40, 43, "clock 3 is the first that is judged"))
row("ghdl_odd_words", "", accepted(40, 40))
row("ghdl_weak_unknown", "", rejected(17, 1, of=40))
row("ghdl_do_not_care", "", rejected(14, 17, of=40))
row("ghdl_undriven", "", accepted(40, 40))
row("gtkwave_ghdl", "", nothing("at no clock has every control line"))       # vcd2fst drops the digits L and H of single lines
row("gtkwave_ghdl_plain", "", rejected(11, 13, of=40))

# edges
row("icarus_clock_high", "", rejected(11, 13, of=39))
row("icarus_clock_high", "--first", rejected(12, 13, first=True, of=40))
row("systemc_high", "", as_judged(EARLY[1:], 39, at="SystemC.bus.bclk"))
row("systemc_high", "--first", rejected(11, 13, at="SystemC.bus.bclk", first=True, of=40))       # its values stand before the first time stamp
row("icarus_one_edge", "", nothing("BCLK has no edge that samples"))
row("icarus_one_edge", "--first", accepted(1, 1))
row("icarus_falling", "--edge fall", rejected(11, 13, falling=True, of=40))
row("icarus_falling", "--edge rise", as_judged(EARLY[1:], 39))
row("icarus_falling", "--edge up", Wanted(2, None))
row("verilator_main", "--after %s" % ",".join(n + "_n" for n in LATE), rejected(11, 13, at="TOP.bclk", of=40))
row("verilator_main", "--after BREQ0_n --after BREQ1_n,ADS_n --after req_n,a_n", rejected(11, 13, at="TOP.bclk", of=40))
row("verilator_main", "", as_judged(one_late(EARLY, LATE), 40, at="TOP.bclk"))
row("verilator_main", "--after ADS", Wanted(2, None))

# stops
STOPPED = ("the dump stops 1 time, first at 347 ns", "clock 35 and those after it are not judged: the dump stopped before it")
row("icarus_off", "", accepted(35, 38, *STOPPED))
row("icarus_off", "--at 35", accepted(3, 38))
row("icarus_off", "--from 35 --quiet 2", accepted(2, 38))
row("icarus_off_first", "", accepted(23, 23))
row("icarus_off_in_traffic", "", accepted(10, 38, "the dump stops 1 time, first at 97 ns"))
row("icarus_off_to_end", "", accepted(35, 35, "the dump stops 1 time, first at 347 ns"))
row("icarus_all", "", rejected(11, 13, of=40))
row("icarus_limit", "", Wanted(0, lambda path: "accepted: %d of %d clocks judged" % ((len(edges(path, "tb.bclk")),) * 2), has="exceeded"))
row("limit_inside", "", accepted(15, 15, "exceeded"))
row("icarus_late_dumpvars", "", as_judged(EARLY[5:], 35))
row("icarus_late_dumpvars", "--at 11", accepted(24, 35, "clock 11 is the first that is judged"))
row("gtkwave_off", "", accepted(35, 38, *STOPPED))

# cut files
EARLY_END = "the file ends early: what begins at byte "
row("cut_stamp", "", accepted(38, 38, EARLY_END))
row("cut_value", "", accepted(15, 15, EARLY_END))
row("cut_code", "", accepted(15, 15, EARLY_END))
row("cut_digit", "", accepted(15, 15, EARLY_END))
row("cut_comment", "", accepted(15, 15, EARLY_END))
row("cut_comment_with_stamp", "", refused("cut_comment_with_stamp.vcd, byte "))
row("cut_dumpoff", "", accepted(35, 35, EARLY_END))
row("cut_header", "", refused("cut_header.vcd, byte "))
row("cut_in_fault", "", accepted(11, 11))
row("hello", "", refused("hello.vcd, byte "))
row("time_back", "", refused("time_back.vcd, byte "))
row("empty", "", refused("empty.vcd, byte 0: "))
row("header_alone", "", nothing("BCLK has no edge that samples"))
row("preface", "", rejected(11, 13, "VCD info", of=40))
row("crlf", "", rejected(11, 13, of=40))
row("one_line", "", rejected(11, 13, of=40))
row("no_scale", "", rejected(11, 13, of=40))

# times
for dump in ("icarus_ps", "icarus_10ns", "icarus_10ns_slow", "icarus_100us", "icarus_s", "icarus_fs"):
    row(dump, "", rejected(11, 13, of=40))

# parts
row("icarus_long", "", accepted(120, 120))
row("icarus_long", "--from 10", accepted(57, 120, "clock 63 is the first that is judged"))
row("icarus_long", "--from 10 --quiet 8", accepted(81, 120, "clock 39 is the first that is judged"))
row("icarus_long", "--from 10 --quiet 4", rejected(26, 15, of=120))
row("icarus_long", "--from 70", accepted(50, 120, "clock 70 is the first that is judged"))
row("icarus_long", "--from 100", nothing("no clock from there on"))
row("icarus_long", "--at 16", accepted(104, 120, "clock 16 is the first that is judged"))
row("icarus_long", "--at 16 --to 40", accepted(25, 120, "clock 41 and those after it are not judged: --to names the clock before it"))
row("icarus_long", "--to 10", accepted(11, 120))
row("icarus_long", "--to 119", accepted(120, 120))
row("icarus_long", "--to 500", accepted(120, 120))
row("icarus_long", "--at 22", rejected(26, 15, of=120))
row("icarus_long", "--at 120", nothing("the dump has no such clock"))
row("icarus_long", "--at 119", accepted(1, 120))
row("icarus_long", "--at 0", accepted(120, 120))
row("icarus_long_early", "", rejected(11, 13, of=120))
row("icarus_long_early", "--to 10", accepted(11, 120))
row("icarus_long_early", "--to 11", rejected(11, 13, of=120))
row("icarus_long_early", "--at 16", accepted(104, 120))
row("icarus_long_early", "--from 0", accepted(57, 120))
row("icarus_long", "--at 16 --from 20", Wanted(2, None))
row("icarus_long", "--at 16 --to 15", Wanted(2, None))
row("icarus_long", "--from 20 --quiet 0", Wanted(2, None))
# (clock 16 has its edge at 165 ns)
row("icarus_long", "--at 165ns", accepted(104, 120, "clock 16 is the first that is judged"))
row("icarus_long", "--to 165ns", accepted(17, 120))
row("icarus_long", "--quiet 4", accepted(120, 120))

# a planted fault, by each other tool
row("verilator_lower", "", rejected(11, 13, at="TOP.tb.bclk", of=40))
row("verilator_fst", "", rejected(11, 13, at="TOP.tb.bclk", of=40))
row("ghdl_fst", "", rejected(11, 13, ". of ghdl_fst.vcd: 13 lines", at="bclk", of=40))
row("systemc", "", rejected(11, 13, at="SystemC.bus.bclk", of=40))
row("systemc_good", "", accepted(40, 40))
row("systemc_long", "--from 10 --quiet 8", accepted(81, 120, "clock 39 is the first that is judged"))
row("systemc_flat", "", rejected(11, 13, "SystemC of systemc_flat.vcd: 13 lines", at="SystemC.bclk", of=40))
row("icarus_fst", "", rejected(11, 13, of=40))
row("icarus_lxt2", "", rejected(11, 13, of=40))
row("gtkwave_fst", "", rejected(11, 13, of=40))
row("gtkwave_lxt2", "", rejected(11, 13, of=40))
row("gtkwave_vzt", "", rejected(11, 13, of=40))


# Making and judging.

def made(folder, name, done):
    """Makes a dump, and what it is made of; answers its path, or why there is none."""
    if name not in done:
        tool, source, run = DUMPS[name]
        done[name] = made_anew(folder, name, tool, source, run, done)
    return done[name]


def made_anew(folder, name, tool, source, run, done):
    path, work = os.path.join(folder, name + ".vcd"), os.path.join(folder, "work_" + name)
    if not (os.path.exists(tool) if tool.startswith("/") else shutil.which(tool)):
        return None, "%s is not installed" % tool
    texts = source
    if isinstance(source, str):
        given, why = made(folder, source, done)
        if given is None:
            return None, why
        with open(given, "rb") as file:
            texts = {"source.vcd": file.read()}
    if callable(run):
        return written(path, run(texts["source.vcd"])), ""
    os.makedirs(work, exist_ok=True)
    for other, text in texts.items():
        written(os.path.join(work, other), text if isinstance(text, bytes) else text.encode())
    try:
        ended = subprocess.run(run, shell=True, cwd=work, stdin=subprocess.DEVNULL, capture_output=True, timeout=SECONDS)
    except subprocess.TimeoutExpired:
        return None, "%s took more than %d seconds" % (tool, SECONDS)
    dump = os.path.join(work, "dump.vcd")
    if not os.path.exists(dump) or not os.path.getsize(dump):
        said = (ended.stderr + ended.stdout).decode(errors="replace").strip().split("\n")
        return None, "%s wrote no dump: %s" % (tool, said[-1][:120])
    shutil.move(dump, path)
    keep(folder, name, work, texts)
    return path, ""


def make_all(folder, names, done):
    """Makes the dumps that no other dump is needed for, some at a time."""
    with concurrent.futures.ThreadPoolExecutor(WORKERS) as pool:
        list(pool.map(lambda name: made(folder, name, done), sorted(name for name in names if not isinstance(DUMPS[name][1], str))))


def keep(folder, name, work, texts):
    """Keeps the sources beside the dump, and nothing else."""
    for other in texts:
        if other != "source.vcd":
            shutil.move(os.path.join(work, other), os.path.join(folder, name + os.path.splitext(other)[1]))
    shutil.rmtree(work)


def written(path, text):
    with open(path, "wb") as file:
        file.write(text)
    return path


def answer(program, words, folder):
    done = subprocess.run([program, *words], cwd=folder, stdin=subprocess.DEVNULL, capture_output=True, timeout=SECONDS)
    return done.returncode, done.stdout.decode(errors="replace"), done.stderr.decode(errors="replace")


def second_line(status, out, error):
    """The second line of a report, or the first one of a refusal."""
    lines = out.split("\n") if out else ["", error.split("\n")[0]]
    return lines[1] if len(lines) > 1 else ""


def odd(path, wanted, status, out, error):
    """What is not as expected."""
    if status != wanted.status:
        return "status %d" % status
    if (status in (0, 1)) != bool(out) and status != 3 or out and error:
        return "both outputs, or none"
    line, text = second_line(status, out, error), wanted.text(path)
    if text is not None and not (line == text or (wanted.begins and line.startswith(text)) or (not out and text in line)):
        return "the line"
    missing = [words for words in wanted.has if words not in out + error]
    return "it lacks %r" % missing[0] if missing else ""


def shown_words(words):
    """The words of a command, where a long row of --line is cut."""
    text = " ".join(words)
    return text if len(text) < 60 else text[:57] + "..."


def main():
    folder, *rest = sys.argv[1:] or sys.exit(__doc__)
    program = os.path.abspath(rest[0] if rest else os.path.join(TOP, "crates/p6scope/out/p6scope"))
    asked = rest[1:]
    os.makedirs(folder, exist_ok=True)
    folder, done, counts, table, listed = os.path.abspath(folder), {}, {"as expected": 0, "odd": 0, "skipped": 0}, [], set()
    is_there = os.access(program, os.X_OK)
    make_all(folder, {name for name, _, _ in ROWS if not asked or any(word in name for word in asked)}, done)
    for name, words, wanted in ROWS:
        if asked and not any(word in name for word in asked):
            continue
        path, why = made(folder, name, done)
        if path is None or not is_there:
            counts["skipped"] += 1
            table.append((name, shown_words(words), "skipped", why or "no program"))
            continue
        status, out, error = answer(program, ["check", *words, name + ".vcd"], folder)
        fault = odd(path, wanted, status, out, error)
        counts["odd" if fault else "as expected"] += 1
        table.append((name, shown_words(words), "ODD: " + fault if fault else str(status), second_line(status, out, error)))
        if fault:
            print("odd: p6scope check %s %s.vcd\n  wanted %d, %r, and %r\n  said %d, %r\n  %s" % (
                " ".join(words), name, wanted.status, wanted.text(path), wanted.has, status, second_line(status, out, error),
                (out + error).replace("\n", "\n  ")), flush=True)
        if name not in listed:
            listed.add(name)
            plain, lines = answer(program, ["check", name + ".vcd"], folder), answer(program, ["lines", name + ".vcd"], folder)
            is_found = plain[1] != "" or (", byte " in plain[2] and ", byte " not in lines[2])       # a fault behind the header
            if lines[0] != (0 if is_found else 3):
                counts["odd"] += 1
                table.append((name, "(lines)", "ODD: status %d" % lines[0], lines[2].split("\n")[0]))
    for line in table:
        print("%-22s %-60s %-14s %s" % line)
    print(", ".join("%d %s" % (count, what) for what, count in counts.items()))
    return 1 if counts["odd"] else 0


if __name__ == "__main__":
    sys.exit(main())
