"""Random headers of dumps for second_wires.py: scopes, spellings of names, ranges, words in single bits, shared codes, with random values and options."""
import re

from second_dump import NEEDED, WIDTHS

NO_WIRES = ("real", "realtime", "string")
LOWEST = {"A_n": 3}


def lowest(line):
    """The least index of a line of the table."""
    return LOWEST.get(line, 0)


class MadeUp:
    """A header with values, and options for it."""

    def __init__(self, chance):
        self.chance, self.rows, self.count = chance, [], 0
        self.codes, self.widths = {}, {}
        self.shares = chance.choice([0, 0.5, 0.95, 1])
        self.paths = []
        scopes = chance.choice([1, 1, 2, 2, 3, 4])
        depth = 0
        for number in range(scopes):
            if depth and chance.random() < 0.4:
                self.rows.append("$upscope $end")
                depth -= 1
                self.paths.pop()
            if number or chance.random() < 0.9:
                self.paths.append(chance.choice(["tb", "dut", "bus", "mon", "u_%d" % number, "\\a[%d]" % number]))
                self.rows.append("$scope %s %s $end" % (chance.choice(["module", "begin", "vhdl_architecture"]), self.paths[-1]))
                depth += 1
            self.scope()
        self.rows += ["$upscope $end"] * depth

    def code(self, key, width):
        if (key, width) not in self.codes or self.chance.random() >= self.shares:
            self.count += 1
            self.codes[key, width] = "".join(chr(33 + (self.count // 90 ** place) % 90) for place in range(1 if self.count < 90 else 2))
            self.widths[self.codes[key, width]] = width
        return self.codes[key, width]

    def scope(self):
        chance = self.chance
        lacks = chance.choice([0, 0, 0, 0.05, 0.3, 0.9])
        style = chance.choice(["exact", "lower", "#", "_l", "_b", "_B", "mixed", "none", "exact"])
        prefix = chance.choice([""] * 8 + ["mon.", "x.y."])
        for line in chance.sample(list(WIDTHS), len(WIDTHS)) if chance.random() < 0.3 else WIDTHS:
            if chance.random() < (lacks if line in NEEDED else 0.6):
                continue
            self.line(line, prefix + self.spelled(line, style))
            if chance.random() < 0.04:
                self.line(line, prefix + self.spelled(line, "mixed"))
        for _ in range(chance.choice([0, 0, 1, 3])):
            kind, name, width = chance.choice([("event", "go", 1), ("parameter", "SIZE", 32), ("real", "ADS_n", 64), ("string", "HIT_n", 0),
                                               ("realtime", "d_n", 64), ("integer", "REQ_n", 32), ("wire", "control", 40), ("wire", "ADS", 1),
                                               ("reg", "lock", 1), ("wire", "A_n_x", 33), ("wire", "a_n_40", 1), ("wire", "RS_n_1", 1)])
            self.declare(kind, width, name, "")

    def spelled(self, line, style):
        chance = self.chance
        if style == "mixed":
            style = chance.choice(["exact", "lower", "#", "_l", "_b", "_B", "_L", "upper"])
        base = line[:-2] if line.endswith("_n") else line
        if style == "exact" or line == "BCLK" and style[0] in "#_":
            name = line
        elif style in ("lower", "upper"):
            name = getattr(line, style)()
        elif style == "none":
            name = base.lower()
        else:
            name = chance.choice([base, base.lower()]) + style
        return "\\" + name if chance.random() < 0.03 else name

    def line(self, line, name):
        chance, width, low = self.chance, WIDTHS[line], lowest(line)
        kind = chance.choice(["wire", "reg", "logic", "wire"])
        if width == 1:
            wrong = chance.random() < 0.02
            return self.declare(kind, 2 if wrong else 1, name, chance.choice(["", "", "", " [0]", "[0:0]"]) if not wrong else " [1:0]", line)
        form = chance.choice(["table"] * 8 + ["glued", "none", "up", "off", "wide", "wide", "bare", "narrow", "odd", "split", "split", "half"])
        high = low + width - 1
        if form in ("split", "half"):
            self.split(line, name, kind, form == "half")
        elif form in ("wide", "bare"):
            more, shift = chance.randint(1, 4), chance.choice([0, low, 0, 1])
            size = max(width + more, high + 1 if form == "bare" and chance.random() < 0.8 else 0)
            ends = (shift + size - 1, shift) if chance.random() < 0.8 else (shift, shift + size - 1)
            self.declare(kind, size, name, " [%d:%d]" % ends if form == "wide" else "", line)
        elif form == "narrow":
            self.declare(kind, width - 1, name, " [%d:0]" % (width - 2), line)
        else:
            shown = {"table": " [%d:%d]" % (high, low), "glued": "[%d:%d]" % (high, low), "none": "", "up": " [%d:%d]" % (low, high),
                     "off": " [%d:%d]" % (high + 5, low + 5), "odd": chance.choice([" [%d:-1]" % (width - 2), " [x:0]", " [123456789:0]"])}
            self.declare(kind, width, name, shown[form], line)

    def split(self, line, name, kind, is_half):
        chance, width = self.chance, WIDTHS[line]
        low = chance.choice([lowest(line), 0, 0])
        form = chance.choice(["[%d]", "(%d)", "_%d", " [%d]", "[%d] [0:0]"])
        numbers = list(range(low, low + width))
        if is_half:
            numbers.pop(chance.randrange(width))
        if chance.random() < 0.2:
            chance.shuffle(numbers)
        for number in numbers:
            self.declare(kind, 1, name + form.split(" ")[0] % (() if form[0] == " " else number),
                         (" " + form.split(" ")[1]) % (number if form[0] == " " else ()) if " " in form else "", (line, number))

    def declare(self, kind, width, name, shown, key=None):
        self.rows.append("$var %s %d %s %s%s $end" % (kind, width, self.code(key or name, width), name, shown))

    def text(self, steps):
        chance = self.chance
        rows = ["$timescale 1 ns $end"] + self.rows + ["$enddefinitions $end"]
        declared = {row.split()[3]: row.split()[1] for row in self.rows if row.startswith("$var")}
        for step in range(steps):
            rows.append("#%d" % step)
            for code, kind in declared.items():
                width = self.widths[code]
                if kind in NO_WIRES or width == 0:
                    rows += ["r1.5 " + code] if kind != "string" else ["sGo " + code]
                elif width > 1:
                    rows.append("b%s %s" % ("".join(chance.choices("01", k=width)), code))
                else:
                    rows.append(chance.choice("01") + code)
        return "\n".join(rows) + "\n"

    def options(self, variables, line_named):
        chance, options, words = self.chance, {"scope": None, "line": [], "without": []}, []
        if chance.random() < 0.35:
            return options, words
        if chance.random() < 0.4:
            one = chance.choice(variables)
            scope = one.scope if chance.random() < 0.95 else one.scope + "x"
            scope = scope.replace("\\", "") if chance.random() < 0.3 else scope
            options["scope"] = scope or "."
            words += ["--scope", options["scope"]]
        for _ in range(chance.choice([0, 0, 1, 2, 14])):
            self.line_option(options, words, [(one, line_named(one.name)) for one in variables + words_of(variables, line_named)])
        for _ in range(chance.choice([0, 0, 0, 1, 1])):
            line = chance.choice(["D_n", "D_n", "LOCK_n", "BNR_n", "AP_n", "ADS_n", "BCLK"])
            options["without"].append(line)
            words += ["--without", line]
        return options, words

    def line_option(self, options, words, variables):
        chance = self.chance
        unnamed = [it for it in WIDTHS if it not in {line for line, _, _ in options["line"]}]
        line = chance.choice([it for it in unnamed if it in NEEDED] or unnamed) if chance.random() < 0.97 else "ADS_n"
        near = [one for one, named in variables if named == line] if chance.random() < 0.8 else []
        one = chance.choice(near or [one for one, _ in variables])
        scope = one.scope.replace("\\", "") if chance.random() < 0.3 else one.scope
        target = one.name if options["scope"] and chance.random() < 0.5 else scope + "." + one.name
        if chance.random() < 0.25:
            low = chance.choice([lowest(line), 0, 1])
            ends = (low + WIDTHS[line] - 1, low) if chance.random() < 0.8 else (low, low + WIDTHS[line] - 1)
            target += "[%d]" % low if WIDTHS[line] == 1 else "[%d:%d]" % ends
        is_high = chance.random() < 0.3 and line != "BCLK"
        options["line"].append((line, is_high, target))
        words += ["--line", "%s=%s%s" % (line, "!" * is_high, target)]


def words_of(variables, line_named):
    """The bits whose names have an index, each by the name of its word."""
    named = [(one, re.sub(r"(\[\d+\]|\(\d+\)|_\d+)$", "", one.name)) for one in variables]
    return [one._replace(name=word) for one, word in named if word != one.name and line_named(word)]
