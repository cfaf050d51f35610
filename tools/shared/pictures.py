"""The pictures of tools/sweep and tools/why, as words for gnuplot."""
import dataclasses

COLOURS = ["0072b2", "d55e00", "009e73", "cc79a7", "e69f00", "56b4e9", "000000", "999999"]
MARKS = [5, 6, 7, 8, 9, 13, 11, 12]
# Marks are small, so that they cover the point of no other cache.
MARKED = {"smallest": ("circle", "pt 6 ps 1.4"), "recommended": ("square", "pt 4 ps 1.6")}
LABELS = 14  # of an axis, at most
WIDTH, LEGEND = 470, 190  # points of a panel, and of the legend at the right
ROOMS = 64  # sizes of fast RAM for which the hottest functions are drawn


@dataclasses.dataclass(frozen=True)
class Panel:
    """A picture of a sweep: what stands to the right and upwards for each row, and a line that costs are beside."""
    across: str
    x: object  # of a cache
    up: str
    y: object  # of counts, and the cache that has them
    beside: bool = False  # whether costs beside no cache are shown
    board: object = None  # whose alternatives are shown


def size_label(size):
    for unit, name in ((1 << 20, "MiB"), (1 << 10, "KiB")):
        if size % unit == 0:
            return f"{size // unit} {name}"
    return f"{size} B"


def plain(text):
    """What gnuplot may take as it stands."""
    return "".join(c if c.isalnum() or c in "._ -/" else "?" for c in text)


def decade_steps(low, high):
    """The steps 1, 2, 5 of a decade around the values."""
    steps = [base * 10.0 ** power for power in range(-9, 16) for base in (1, 2, 5)]
    return max(step for step in steps if step <= low * 0.9999), min(step for step in steps if step >= high * 1.0001)


def tens():
    return ", ".join(f'"{base * 10.0 ** power:g}" {base * 10.0 ** power:g}' for power in range(-6, 13) for base in (1, 2, 5))


def block_of(name, lines):
    return [f"${name} << EOD", *lines, "EOD"]


def sweep(report):
    """Curves against the size of the cache or of all fast RAM: a colour for each length of blocks, and broken lines for rings."""
    panels = panels_of(report)
    lines = [f"set terminal svg size {WIDTH * len(panels) + LEGEND},500 font 'sans-serif,13' background '#ffffff'", "set output '@OUT@'"]
    for k, panel in enumerate(panels):
        lines += data(report, panel, k)
    lines += [f"set multiplot title '{heading(report)}' noenhanced font 'sans-serif,14' offset 0,0.1", f"set logscale xy; set ytics ({tens()}); set mytics 1",
              "set grid xtics ytics lc rgb '#dddddd' lt 1; set border 3; set tics nomirror"]
    lines += [f"set label {k} '{text}' at screen 0.5, screen {0.935 - 0.04 * k:.3f} center font 'sans-serif,12' tc rgb '#444444'" for k, text in enumerate(legend(report), 1)]
    lines += [f"set style line {k + 1} lc rgb '#{colour}' lw 2 pt {mark} ps 0.5" for k, (colour, mark) in enumerate(zip(COLOURS, MARKS))]
    for k, panel in enumerate(panels):
        lines += drawn(report, panel, k, len(panels))
    return "\n".join([*lines, "unset multiplot"]) + "\n"


def panels_of(report):
    size = ("bytes of the cache", lambda cache: cache.size)
    found = [Panel(*size, "misses for each 1000 steps", lambda counts, _: counts.of_thousand("misses"))]
    if report.board:
        return [*found, Panel("bytes of fast RAM: cache, runtime and tables", report.board.ram, "time of a step; in slow memory it is 1", report.sweep.value, True, report.board)]
    found.append(Panel(*size, "words fetched and written, for each step", lambda counts, _: counts.work))
    return [*found, Panel(*size, "cost beside no cache", report.sweep.value, True)] if report.weights else found


def heading(report):
    if not report.weights:
        return plain(report.runs.name)
    waits = f" with {report.weights.load:g} wait states" if report.weights.step[1] else ""
    return f"{plain(report.runs.name)}, costs by {plain(report.weights.named.replace(',', ' '))}{waits}"


def drawn(report, panel, k, count):
    """A panel in its place; the last has the legend at its right."""
    total, last = WIDTH * count + LEGEND, k + 1 == count
    values = [panel.y(row.counts, row.cache) for row in report.rows] + [panel.y(row.jump, row.cache) for row in report.rows if row.jump] + [1.0] * panel.beside
    values += [panel.board.alternatives.whole] if panel.board else []
    places = [panel.x(row.cache) for row in report.rows] + ([report.runs.elf.text_bytes] if panel.board else [])
    low, high = decade_steps(min(value for value in values if value > 0), max(values))
    key = f"set key at screen {1 - 10 / total:.4f}, screen 0.82 right top vertical title 'words of a block' samplen 2 spacing 1.1" if last else "unset key"
    yield f"set lmargin at screen {(WIDTH * k + 92) / total:.4f}; set rmargin at screen {WIDTH * (k + 1) / total - 0.01:.4f}; set bmargin at screen 0.19; set tmargin at screen 0.82"
    yield f"set xlabel '{panel.across}' offset 0,-0.2; set ylabel '{panel.up}' offset 0.8,0; {key}; set xtics ({tics(places)}) rotate by -45"
    yield from marks(report, panel)
    yield f"set xrange [{min(places)} / 1.2:{max(places)} * 1.2]; set yrange [{low:g}:{high:g}]; plot {', '.join(curves(report, panel, k))}"
    yield "unset label"


def data(report, panel, k):
    """A block of points for each curve, one of what jumps, those of what is marked, and the hottest functions."""
    def point(row):
        return f"{panel.x(row.cache)} {panel.y(row.counts, row.cache):.6g}"
    lines = []
    for block, ring in forms_of(report):
        rows = sorted((row for row in report.rows if row.cache.form == (block, ring)), key=lambda row: panel.x(row.cache))
        lines += block_of(f"{curve_name(block, ring)}p{k}", [point(row) for row in rows])
    lines += block_of(f"jumps{k}", [f"{point(row)} {panel.y(row.jump, row.cache):.6g}" for row in report.rows if row.jump])
    for name, rows in marked(report).items():
        lines += block_of(f"{name}{k}", [point(row) for row in rows])
    if panel.board:
        lines += block_of("hot", hottest(panel.board, min(panel.x(row.cache) for row in report.rows)))
        lines += block_of("whole", [f"{report.runs.elf.text_bytes} {panel.board.alternatives.whole:.6g}"])
    return lines


def hottest(board, least):
    """The cost of the hottest functions by their room, from the smallest of the caches to the whole text."""
    most = board.alternatives.text
    rooms = sorted({round(least * (most / least) ** (k / ROOMS)) for k in range(ROOMS + 1)}) if least < most else [most]
    return [f"{room} {board.alternatives.hot(room):.6g}" for room in rooms] if board.alternatives.functions else []


def forms_of(report):
    return sorted({row.cache.form for row in report.rows})


def curve_name(block, ring):
    return f"ring{block}" if ring else f"slots{block}"


def marked(report):
    """The rows that are marked, in slots and of rings."""
    rows = {name: [choice.rows()[name] for choice in report.choices if name in choice.rows()] for name in MARKED}
    return {name: found for name, found in rows.items() if found}


def curves(report, panel, k):
    """The curves of a panel."""
    blocks = sorted({row.cache.block for row in report.rows})
    for block, ring in forms_of(report):
        style, name = blocks.index(block) % len(COLOURS) + 1, "dt 2 notitle" if ring else f"title '{block}'"
        yield f"${curve_name(block, ring)}p{k} using 1:2 with linespoints ls {style} {name}"
    if report.has_rings:
        yield "NaN with lines dt 2 lw 2 lc rgb '#888888' title 'rings'"
    if panel.beside:
        yield f"1 with lines dt 3 lw 2 lc rgb '#000000' title '{'slow memory' if panel.board else 'no cache'}'"
    if panel.board and panel.board.alternatives.functions:
        yield "$hot using 1:2 with steps lw 2 lc rgb '#777777' title 'hottest functions'"
    if panel.board:
        yield "$whole using 1:2 with points pt 3 ps 1.2 lw 2 lc rgb '#000000' title 'whole text'"
    if any(row.jump for row in report.rows):
        yield f"$jumps{k} using 1:2:(0):($3-$2) with vectors filled head size graph 0.02,18 lc rgb '#cc0000' lw 1.5 notitle"
    for name in marked(report):
        yield f"${name}{k} using 1:2 with points {MARKED[name][1]} lw 2 lc rgb '#000000' notitle"


def tics(places):
    """Labels at powers of 2, with those between where they are few; or where there are none at the places themselves."""
    least, most = min(places), max(places)
    powers = [1 << bits for bits in range(3, 32) if least <= 1 << bits <= most]
    if len(powers) < LABELS // 2:
        powers = [size for bits in range(3, 32) for size in (1 << bits, 3 << bits - 1) if least <= size <= most]
    labelled = powers or sorted(set(places))
    every = (len(labelled) + LABELS - 1) // LABELS
    return ", ".join(f'"{size_label(size)}" {size}' for size in labelled[::every])


def marks(report, panel):
    """A line at each cache that is marked."""
    for k, row in enumerate([row for rows in marked(report).values() for row in rows], 1):
        yield f"set arrow {k} from {panel.x(row.cache)}, graph 0 to {panel.x(row.cache)}, graph 1 nohead dt 2 lc rgb '#888888'"


def legend(report):
    """Names what is marked: the smallest and the recommended cache in a line each, or with rings a line for each kind."""
    if report.has_rings:
        for choice in report.choices:
            found = [f"{name} {size_label(row.cache.size)}/{row.cache.block} ({MARKED[name][0]})" for name, row in choice.rows().items()]
            yield f"{'ring' if choice.ring else 'slots'}: {', '.join(found) or 'none'}"
        return
    (choice,) = report.choices
    red = "; red: one slot less, or moved" if any(row.jump for row in report.rows) else ""
    for name, row in choice.rows().items():
        what = f"the smallest, {place_of(row)}{red}" if name == "smallest" else f"{name}, {place_of(row)}"
        yield f"{MARKED[name][0]}: {what}"


def place_of(row):
    return f"{size_label(row.cache.size)} in blocks of {row.cache.block}"


def why(found, name, options):
    """A bar for each block that was missed, over its place in the text; the functions with the most misses have a colour each."""
    most = sorted(found.missed, key=lambda each: (-found.missed[each], each))[:len(COLOURS) - 1]
    bars = {each: [] for each in [*most, None]}
    for block, count in sorted(found.block_missed.items()):
        owner = found.owner(block)
        begin = found.blocks.first[block]
        end = found.blocks.first[block + 1] if block + 1 < found.blocks.count else len(found.blocks.of)
        # x, y, then the bar from its left to its right and up
        bars[owner if owner in most else None].append(f"{2 * (begin + end)} {count} {4 * begin} {4 * end} 0.5 {count}")
    lines = ["set terminal svg size 960,480 font 'sans-serif,13' background '#ffffff'", "set output '@OUT@'"]
    shown = []
    for k, (owner, points) in enumerate(bars.items()):
        if points:
            lines += block_of(f"f{k}", points)
            title = f"{plain(owner)} {found.missed[owner]}" if owner else "others"
            shown.append(f"$f{k} using 1:2:3:4:5:6 with boxxyerror fs solid 0.8 border lc rgb '#{COLOURS[k] if owner else 'bbbbbb'}' lc rgb '#{COLOURS[k] if owner else 'bbbbbb'}' title '{title}' noenhanced")
    high = max(found.block_missed.values())
    lines += [f"set title '{plain(name)}: misses of each block, {options.cache} bytes in blocks of {options.block} words' noenhanced",
              f"set ylabel 'misses of the block'; set logscale y; set yrange [0.5:{decade_steps(high, high)[1]:g}]; set ytics ({tens()}); set mytics 1; set grid ytics lc rgb '#dddddd' lt 1",
              f"set xrange [0:{4 * len(found.blocks.of)}]; set format x '%.0f'; set xlabel 'bytes from the begin of the text, {found.base:08x}'",
              "set border 3; set tics nomirror; set key outside right top samplen 1 title 'function, misses'; set rmargin 30",
              f"plot {', '.join(shown)}"]
    return "\n".join(lines) + "\n"
