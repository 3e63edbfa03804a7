# Joins the words that a dump has bit by bit, as A_n [35] to A_n [3], into one variable each.
#   awk -f join.awk split.vcd > joined.vcd
# docs/your-dump.md shows its use.
BEGIN {
    count = split("REQ_n 4 0 A_n 35 3 RS_n 2 0 D_n 63 0 AP_n 1 0", part)
    for (i = 1; i < count; i += 3) { high[part[i]] = part[i + 1]; low[part[i]] = part[i + 2] }
}

# the values of a block that changed, each word whole
function flush(    word, bit) {
    for (word in changed) {
        printf "b"
        for (bit = high[word]; bit >= low[word]; bit--)
            printf "%s", (word, bit) in value ? value[word, bit] : "x"
        print " join_" word
        delete changed[word]
    }
}

$1 == "$var" && $3 == 1 {
    name = $6 == "$end" ? $5 : $5 $6
    if (match(name, /\[[0-9]+\]$/)) {
        bit = substr(name, RSTART + 1, RLENGTH - 2)
        name = substr(name, 1, RSTART - 1)
        sub(/^\\/, "", name)
        if (name in high && !((name, bit) in declared)) {
            if (!(name in joined))
                print "$var wire " high[name] - low[name] + 1 " join_" name " " name " $end"
            joined[name]; declared[name, bit]
            bits[$4] = bits[$4] " " name " " bit
            next
        }
    }
}
$1 == "$var" { other[$4] }
/^#/ { flush() }
/^[01xXzZ]/ && substr($0, 2) in bits {
    count = split(bits[substr($0, 2)], part)
    for (i = 1; i < count; i += 2) {
        value[part[i], part[i + 1]] = substr($0, 1, 1)
        changed[part[i]]
    }
    if (!(substr($0, 2) in other)) next
}
{ print }
END { flush() }
