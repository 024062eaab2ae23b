"""The figures that are kept: gate/times/figures.csv, the table that docs/FIGURES.md has of it, and two such files next to one another."""
import csv
import os
import re

TOP = os.path.dirname(os.path.dirname(os.path.realpath(__file__)))
KEPT, PAGE = f"{TOP}/gate/times/figures.csv", f"{TOP}/docs/FIGURES.md"
FIGURE = ("median", "smallest", "largest")
RUN = ("date", "machine", "program", "sha2", "hashlib", "sync", "said")
COLUMNS = ("name", "what", "unit", *FIGURE, "peer", *(f"peer_{it}" for it in FIGURE), "ratio", "growth", "bar", "verdict", *RUN)
BEGIN, END = "<!-- made by gate/figures --page: begin -->", "<!-- made by gate/figures --page: end -->"
# The rows that say how a cost grows, with their sizes.
OVER_TARGETS, CONNECTIONS = (64, 512, 4096), (4, 16, 64)
SIZES = {"batch-roles": (16, 32, 64, 127)}
SIZES |= {name: OVER_TARGETS for name in ("draft", "seal", "sign", "show", "show-list", "export", "get-all")}
SIZES |= {f"load-{name}": CONNECTIONS for name in ("straight", "proxy", "cached")}
MONTHS = "January February March April May June July August September October November December".split()


def short(number):
    """Three digits, and all that stand before the point."""
    number = float(number)
    if abs(number) >= 100:
        return f"{number:,.0f}"
    return f"{number:.{1 if abs(number) >= 10 else 2 if abs(number) >= 0.1 else 4}f}"


def is_met(row, growth, step):
    """Whether the bar is met, or None where there is none, or nothing to hold to it."""
    words = row["bar"].split()
    found = growth / step if "proportion" in words and growth else None if "proportion" in words else row["ratio"]
    if not words or found is None:
        return None
    return found <= float(words[2]) if words[1] == "most" else found >= float(words[2])


def finished(rows):
    """The figures of one row of gate/figures, each with its growth from the size before and its verdict."""
    before = {}
    for row in rows:
        group, last = row["name"].rpartition("-")[0], None
        if row["size"]:
            last, before[group] = before.get(group), row
        growth, step = (row["median"] / last["median"], row["size"] / last["size"]) if last and last["median"] > 0 else (None, 1)
        met = is_met(row, growth, step)
        row["growth"] = f"{growth:.2f} for {step:.3g}" if growth else ""
        row["verdict"] = "" if met is None else "met" if met else "missed"
        yield row


def spelled(row):
    """The cells of a figure in the file."""
    cells = {column: row.get(column) for column in COLUMNS}
    return {column: "" if it is None else f"{it:.6g}" if isinstance(it, float) else it for column, it in cells.items()}


def kept(path=KEPT):
    with open(path, encoding="utf-8", newline="") as file:
        return [*csv.DictReader(file)]


def keep(path, rows):
    """Writes the figures in place of those of the same names, and lets the others be."""
    rows = [spelled(row) for row in rows]
    old = kept(path) if os.path.exists(path) else []
    places = {row["name"]: at for at, row in reversed([*enumerate(old)])}
    fresh = {row["name"] for row in rows}
    order = [(at, row) for at, row in enumerate(old) if row["name"] not in fresh]
    order += [(places.get(row["name"], len(old)), row) for row in rows]
    with open(f"{path}.new", "w", encoding="utf-8", newline="") as file:
        lines = csv.DictWriter(file, COLUMNS, lineterminator="\n")
        lines.writeheader()
        lines.writerows(row for _, row in sorted(order, key=lambda it: it[0]))
    os.replace(f"{path}.new", path)


def numbers(row, prefix=""):
    """A median with its unit, and the smallest and the largest where they are another number."""
    middle, least, most = (row[prefix + it] for it in FIGURE)
    unit, ends = row["unit"].replace("a second", "/ s"), f"{short(least)} to {short(most)}" if least != most else ""
    if middle == "":
        return f"{ends} {unit}" if ends else ""
    return f"{short(middle)} {unit}" + (f" ({ends})" if ends else "")


def ratio(row):
    return f"{float(row['ratio']):.2f}" if re.fullmatch(r"[\d.e+-]+", row["ratio"]) else row["ratio"]


def sized(row):
    """What the sizes of a figure have in common, and its size: of 'verify-w4' they are 'verify-wN' and '4'."""
    size = re.fullmatch(r"(.*-w?)(\d+)", row["name"])
    return (f"{size[1]}N", size[2]) if size else (row["name"], "")


def grouped(rows):
    """The sizes of a figure that have one run, one bar and one verdict, for a line of the table each."""
    groups = {}
    for at, row in enumerate(rows):
        name, size = sized(row)
        same = groups.setdefault((name, row["unit"], row["bar"], *(row[it] for it in RUN), "" if size else at), [[]])
        if len({it["verdict"] for it in [*same[-1], row]} - {""}) > 1:
            same.append([])
        same[-1].append(row)
    return [group for same in groups.values() for group in same]


def middles(group, prefix=""):
    """The medians of a group with their unit, or their ends where they have none."""
    found = [short(row[f"{prefix}median"]) for row in group if row[f"{prefix}median"]]
    return f"{'; '.join(found)} {group[0]['unit'].replace('a second', '/ s')}" if found else numbers(group[0], prefix)


def line(group, run):
    """Sizes of a figure as one line of the table."""
    name, sizes = sized(group[0])[0], [size for _, size in map(sized, group) if size]
    growth = "; ".join(row["growth"].split(" ")[0] for row in group if row["growth"])
    bar = ", ".join(filter(None, (group[-1]["bar"].replace("at most 1.25 in", "in"), group[-1]["verdict"])))
    cells = (", ".join([f"`{name}`", *sizes]), middles(group), middles(group, "peer_"), "; ".join(filter(None, map(ratio, group))), growth, bar, run)
    return "| " + " | ".join(map(str, cells)) + " |"


def meaning(group):
    """The name of a figure, what it is and what stands next to it, the same for all sizes."""
    name, size = sized(group[-1])
    what = re.sub(rf"\b(w?){size}\b", r"\1N", group[-1]["what"]) if size else group[-1]["what"]
    return f"- `{name}`: {what}" + (f"; next to {group[-1]['peer']}" if group[-1]["peer"] else "")


def day(date):
    year, month, number = date.split("-")
    return f"{int(number)} {MONTHS[int(month) - 1]} {year}"


def markdown(rows):
    """The table, what each figure is, and what is said of each run."""
    runs = [*dict.fromkeys(tuple(row[it] for it in RUN) for row in rows)]
    groups = grouped(rows)
    lines = ["| Row | Figure | Floor or peer | Ratio | Growth | Bar | Run |", "|" + "---|" * 7]
    lines += [line(group, runs.index(tuple(group[0][it] for it in RUN)) + 1) for group in groups]
    lines += ["", *dict.fromkeys(map(meaning, groups))]
    lines += ["", *(told_of(number, run, runs[number - 2] if number > 1 else None) for number, run in enumerate(runs, 1))]
    lines += no_figure({row["name"] for row in rows})
    return "\n".join(lines) + "\n"


def no_figure(names):
    """A line for the growing rows of which some sizes were not measured yet."""
    left = {group: [str(size) for size in sizes if f"{group}-{size}" not in names] for group, sizes in SIZES.items()}
    said = "; ".join(f"`{group}-N` of {', '.join(sizes)}" for group, sizes in left.items() if sizes)
    return ["", f"Not measured yet: {said}."] if said else []


def told_of(number, run, before):
    """When and where a run was made."""
    date, machine, program, sha2, hashlib, sync, said = run
    where = f"{machine}; {program}" if before is None or run[1:3] != before[1:3] else "the same machine and program"
    units = ", ".join(f"{who} {it} MB a second" for who, it in (("`sha2`", sha2), ("OpenSSL", hashlib)) if it)
    synced = f"a sync takes {sync} ms" if sync else ""
    return f"{number}. {day(date)}: {'; '.join(filter(None, (where, units, synced, said)))}."


def with_table(text):
    """The page with the table that stands in the file."""
    before, _, rest = text.partition(BEGIN)
    _, _, after = rest.partition(END)
    return f"{before}{BEGIN}\n\n{markdown(kept())}\n{END}{after}"


def write_page():
    with open(PAGE, encoding="utf-8") as file:
        text = with_table(file.read())
    with open(PAGE, "w", encoding="utf-8") as file:
        file.write(text)


def faults():
    """A page whose table is another."""
    with open(PAGE, encoding="utf-8") as file:
        text = file.read()
    if BEGIN not in text or END not in text or with_table(text) != text:
        yield "docs/FIGURES.md has another table than gate/times/figures.csv: gate/figures --page"


def against(one, other):
    """Prints the figures that both files have, and the units of their machines."""
    ours, theirs = ({row["name"]: row for row in kept(path) if row["median"]} for path in (one, other))
    print(f"| Name | Unit | {os.path.basename(one)} | {os.path.basename(other)} | Second by first | `sha2` by `sha2` | OpenSSL by OpenSSL |")
    print("|" + "---|" * 7)
    for name, row in ours.items():
        if name in theirs:
            cells = [short(row["median"]), short(theirs[name]["median"]), f"{float(theirs[name]['median']) / float(row['median']):.2f}"]
            print(f"| `{name}` | {row['unit']} | " + " | ".join([*cells, *(by(theirs[name][it], row[it]) for it in ("sha2", "hashlib"))]) + " |")


def by(one, other):
    """The ratio of two units, where both are a number."""
    try:
        return f"{float(one) / float(other):.2f}"
    except ValueError:
        return ""
