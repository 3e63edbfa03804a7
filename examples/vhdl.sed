# Gives a dump of a VHDL simulator the names and values that p6bench reads (GNU sed):
#   sed -E -f vhdl.sed load.vcd > mine.vcd
# docs/your-dump.md shows its use.

# names: capitals, but for the _n at the end
/^ *\$var/ {
    s/ (bclk)([[ ])/ \U\1\E\2/
    s/ (breq[0-3]|bpri|lock|bnr|ads|req|ap?|aerr)_n([[ ])/ \U\1\E_n\2/
    s/ (hitm?|defer|rs|trdy|dbsy|drdy|d|rp)_n([[ ])/ \U\1\E_n\2/
}

# values of std_logic: U, W and - are x, L is 0, H is 1
:x
s/^(b[^ ]*)[UuWw-]/\1x/
tx
:low
s/^(b[^ ]*)[Ll]/\10/
tlow
:high
s/^(b[^ ]*)[Hh]/\11/
thigh
s/^[UuWw-]/x/
s/^[Ll]/0/
s/^[Hh]/1/
