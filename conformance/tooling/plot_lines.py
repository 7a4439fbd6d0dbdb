"""Tests of examples/plot, with a stand-in for gnuplot that draws what it is told."""
import os
import pathlib
import subprocess

from tooling.calls import TOP

HEAD = "number,phase,held,live,bodies,stubs,end"


def drawn(*rows):
    """What gnuplot is told of a run with these collections."""
    pathlib.Path("run").write_text("\n".join(["thread 0", "end done", HEAD, *rows, ""]))
    gnuplot = pathlib.Path("gnuplot")
    gnuplot.write_text("#!/bin/sh\n/bin/cat\n")
    gnuplot.chmod(0o755)
    subprocess.run([TOP / "examples/plot", "run", "run.svg"], check=True, env={**os.environ, "PATH": f"{pathlib.Path.cwd()}:{os.environ['PATH']}"})
    return pathlib.Path("run.svg").read_text()


def test_plot_stubs(folder):
    """Stubs have a line and an axis of their own, where some were written."""
    told = drawn("1,inactive,4,9,0,0,1", "2,move,4,4,2,0,6", "3,mark,4,6,0,3,6")
    assert "\n1 9 4 0 0\n2 4 4 5 0\n3 6 4 5 3\nEND\n" in told and "set y2range [-0.09:" in told, told
    assert "using 1:5 with linespoints pt 7 ps 0.4 lw 1 lc rgb '#000000' axes x1y2 title 'Stubs written'" in told, told
    told = drawn("1,inactive,4,9,0,0,1", "2,move,4,4,2,0,6")
    assert "title 'words of all homes'" in told and "Stubs" not in told and "y2" not in told, told
