"""A picture of what comes back over the heap, by gnuplot."""
import shutil
import subprocess

from common.words import FAILED, Told

SORTS = (("ended done", "lw 2 pt 7 ps 0.6 lc rgb '#0072b2'", "linespoints"), ("did not end done", "pt 2 lc rgb '#d55e00'", "points"))


def need_gnuplot():
    if shutil.which("gnuplot") is None:
        raise Told(FAILED, "gnuplot, which draws the picture, is not on PATH. On Debian: apt-get install gnuplot-nox")


def quoted(text):
    """The text as gnuplot reads it."""
    visible = "".join(letter if letter.isprintable() else "?" for letter in text)
    return "'" + visible.replace("'", "''") + "'"


def commands(rows, title, need, uses):
    """All that gnuplot is told. The line of one use in a hundred is drawn across, and the plain need upright."""
    sorts = [[row for row in rows if row.is_done], [row for row in rows if not row.is_done]]
    drawn = [place for place, sort in enumerate(sorts) if sort]
    for place in drawn:
        yield f"$rows{place} << END"
        yield from (f"{row.heap} {row.came_back}" for row in sorts[place])
        yield "END"
    yield "set terminal svg size 860,400 font 'sans-serif,12' background 'white'"
    yield f"set title {quoted(title)} noenhanced"
    yield "set xlabel 'words of the heap' offset 0,0.5\nset ylabel 'came back from the disk'\nset logscale x 2\nset format '%.10g'"
    yield "set yrange [0:*]\nset key outside below\nset grid lc rgb '#cccccc'"
    if need is not None:
        yield f"set arrow from {need}, graph 0 to {need}, graph 1 nohead dt (6,6) lc rgb '#666666'"
        yield f"set label 'plain need' at {need}, graph 0.95 right offset -0.5,0"
    lines = [f"$rows{place} using 1:2 with {SORTS[place][2]} {SORTS[place][1]} title '{SORTS[place][0]}'" for place in drawn]
    yield "plot " + ", ".join([*lines, f"{uses / 100} with lines lw 2 dt (2,4) lc rgb '#009e73' title 'one use in a hundred'"])


def draw(rows, title, need, uses):
    """The picture, as bytes."""
    text = "\n".join(commands(rows, title, need, uses)) + "\n"
    drawn = subprocess.run(["gnuplot", "--default-settings"], input=text.encode(), stdout=subprocess.PIPE)
    if drawn.returncode or not drawn.stdout:
        raise Told(FAILED, f"gnuplot drew nothing, and ended with status {drawn.returncode}")
    return drawn.stdout
