#!/usr/bin/env python3
"""Dumps of one testbench by several tools: in which scopes a net has one code.

Usage: lab/scope_dumps.py FOLDER [TOOL ..]

Writes a testbench into FOLDER: nets, an agent that drives them and a monitor that reads them, all with the names of the
signal table. Makes a dump of it with each tool that is installed (icarus, icarus_bus, verilator, ghdl, yosys, yosys_flat,
yosys_split). Prints for each dump, and for each two of its scopes, how many lines of one bit and how many words have one
code in both. docs/proof/decisions-scope.md rests on it.
"""

import itertools
import os
import shutil
import subprocess
import sys

sys.dont_write_bytecode = True

LINES = [("BREQ0_n", 1), ("ADS_n", 1), ("REQ_n", 5), ("A_n", 33), ("HIT_n", 1), ("HITM_n", 1), ("RS_n", 3),
         ("TRDY_n", 1), ("DBSY_n", 1), ("DRDY_n", 1), ("D_n", 64)]
PORTS = ["BCLK"] + [name for name, _ in LINES]
LOWEST = {"A_n": 3}


def ends(name, width):
    low = LOWEST.get(name, 0)
    return low + width - 1, low


def span(name, width):
    return "" if width == 1 else "[%d:%d] " % ends(name, width)


def module(name, direction, body):
    ports = ", ".join(["input wire BCLK"] + [f"{direction} wire {span(n, w)}{n}" for n, w in LINES])
    return f"module {name}({ports});\n{body}endmodule\n"


def verilog(top, bus, dump):
    """The agent, the monitor and the testbench; `bus` is where the nets stand."""
    drives = "".join(f"  reg {span(n, w)}r_{n} = ~0; assign {n} = r_{n};\n" for n, w in LINES)
    drives += ("  always @(posedge BCLK) begin r_ADS_n <= ~r_ADS_n; r_A_n <= r_A_n - 8; r_D_n <= r_D_n * 3 + 1;"
               " r_REQ_n <= r_REQ_n + 1; r_RS_n <= r_RS_n - 1; r_HIT_n <= r_REQ_n[0]; end\n")
    counts = "  integer n = 0; always @(posedge BCLK) if (!ADS_n) n = n + 1;\n"
    nets = "".join(f"  wire {span(n, w)}{n};\n" for n, w in LINES)
    clock = "  reg BCLK = 0; always #5 BCLK = ~BCLK;\n"
    joins = ", ".join(f".{p}({bus}{p})" for p in PORTS)
    text = "`timescale 1ns/1ps\n" + module("agent", "output", drives) + module("monitor", "input", counts)
    if bus:
        text += f"module nets;\n{clock}{nets}endmodule\n"
    text += top + ("  nets bus();\n" if bus else nets if "input" in top else clock + nets)
    ends_at = f'  initial begin $dumpfile("{dump}"); $dumpvars(0, tb); #100 $finish; end\n' if dump else ""
    return text + f"  agent dut({joins});\n  monitor mon({joins});\n{ends_at}endmodule\n"


def vhdl():
    def kind(name, width):
        return "std_logic" if width == 1 else "std_logic_vector(%d downto %d)" % ends(name, width)

    def entity(name, direction, body, signals=""):
        ports = "; ".join(["BCLK : in std_logic"] + [f"{n} : {direction} {kind(n, w)}" for n, w in LINES])
        return (f"library ieee; use ieee.std_logic_1164.all;\nentity {name} is port ({ports}); end;\n"
                f"architecture a of {name} is\n{signals}begin\n{body}end;\n")

    drives = "".join(f"  {n} <= BCLK;\n" if w == 1 else f"  {n} <= (others => BCLK);\n" for n, w in LINES)
    joins = ", ".join(f"{p} => {p}" for p in PORTS)
    nets = "".join(f"  signal {n} : {kind(n, w)};\n" for n, w in LINES)
    return (entity("agent", "out", drives) + entity("monitor", "in", "", "  signal count : std_logic := '0';\n")
            + "library ieee; use ieee.std_logic_1164.all;\nentity tb is end;\narchitecture a of tb is\n"
            + "  signal BCLK : std_logic := '0';\n" + nets + "begin\n  BCLK <= not BCLK after 5 ns;\n"
            + f"  dut : entity work.agent port map ({joins});\n  mon : entity work.monitor port map ({joins});\nend;\n")


MAIN = """#include "Vtb.h"
#include "verilated.h"
#include "verilated_vcd_c.h"
int main(int c, char **v) {
  VerilatedContext x; x.commandArgs(c, v); x.traceEverOn(true);
  Vtb t{&x}; VerilatedVcdC f; t.trace(&f, 99); f.open("verilator.vcd");
  for (int i = 0; i < 20; i++) { t.BCLK = i & 1; t.eval(); f.dump(i * 5); }
  f.close();
}
"""

YOSYS = "read_verilog ports.v; hierarchy -top tb; proc; {} sim -clock BCLK -n 5 -vcd {}.vcd"

TOOLS = {
    "icarus": "iverilog -g2012 -o icarus.vvp icarus.v && vvp -n icarus.vvp",
    "icarus_bus": "iverilog -g2012 -o icarus_bus.vvp icarus_bus.v && vvp -n icarus_bus.vvp",
    "verilator": "verilator -Wno-fatal -Wno-lint -CFLAGS -O0 --cc --exe --build --trace --top-module tb ports.v main.cpp"
                 " && ./obj_dir/Vtb",
    "ghdl": "ghdl -a tb.vhd && ghdl -e tb && ghdl -r tb --vcd=ghdl.vcd --stop-time=100ns",
    "yosys": "yosys -q -p '" + YOSYS.format("", "yosys") + "'",
    "yosys_flat": "yosys -q -p '" + YOSYS.format("flatten;", "yosys_flat") + "'",
    "yosys_split": "yosys -q -p '" + YOSYS.format("flatten; splitnets -format [];", "yosys_split") + "'",
}


def scopes_of(path):
    """The scopes of a dump, each with the codes of its lines; a name with dots stands in a scope of its own."""
    known = {name.lower(): width for name, width in [("BCLK", 1)] + LINES}
    scopes, open_ones = {}, []
    for row in open(path, errors="replace"):
        words = row.split()
        if words[:1] == ["$scope"]:
            open_ones.append(words[2])
        elif words[:1] == ["$upscope"]:
            open_ones.pop()
        elif words[:1] == ["$var"]:
            *scope, name = ".".join(open_ones + [words[4]]).split(".")
            line = name.split("[")[0].lower()
            if line in known:
                scopes.setdefault(".".join(scope), {}).setdefault((known[line] > 1, line), []).append(words[3])
        elif words[:1] == ["$enddefinitions"]:
            break
    return scopes


def main():
    folder, *tools = sys.argv[1:]
    os.makedirs(folder, exist_ok=True)
    texts = {"icarus.v": verilog("module tb;\n", "", "icarus.vcd"), "main.cpp": MAIN, "tb.vhd": vhdl(),
             "icarus_bus.v": verilog("module tb;\n", "bus.", "icarus_bus.vcd"),
             "ports.v": verilog("module tb(input wire BCLK);\n", "", None)}
    for name, text in texts.items():
        with open(os.path.join(folder, name), "w") as out:
            out.write(text)
    for tool in tools or TOOLS:
        if not shutil.which(TOOLS[tool].split()[0]):
            print(f"{tool}: not installed")
            continue
        subprocess.run(TOOLS[tool], shell=True, cwd=folder, stdout=subprocess.DEVNULL, stderr=subprocess.DEVNULL)
        scopes = scopes_of(os.path.join(folder, f"{tool}.vcd"))
        for one, other in itertools.combinations([s for s in scopes if len(scopes[s]) == len(PORTS)], 2):
            both = [[scopes[one][k] == scopes[other][k] for k in scopes[one] if k[0] == words] for words in (False, True)]
            print(f"{tool}: {one} and {other}: {sum(both[0])} of {len(both[0])} single lines share their codes,"
                  f" {sum(both[1])} of {len(both[1])} words")


if __name__ == "__main__":
    main()
