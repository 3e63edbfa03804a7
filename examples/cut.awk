# Cuts a dump just before the rise of BCLK number `clock`; the last line is the time of that edge.
#   awk -v clock=28 -f cut.awk early.vcd > before.vcd
# docs/after-a-verdict.md shows its use. It wants one change of BCLK at a time.
$1 == "$var" && $5 == "BCLK" && code == "" { code = $4 }
/^#/ { printf "%s", block; block = ""; print; next }
{ block = block $0 "\n" }
code != "" && $0 == "0" code { low = 1 }
code != "" && $0 == "1" code && low { low = 0; if (count++ == clock) { block = ""; exit } }
END { printf "%s", block }
