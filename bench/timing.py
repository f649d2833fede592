"""What the scripts of this folder share: a run of the program on a script, and the least time of some runs."""
import pathlib, subprocess, time

top = pathlib.Path(__file__).resolve().parent.parent


def timed(run, times=3):
    """The least time that `run` took, of so many."""
    least = None
    for _ in range(times):
        start = time.perf_counter()
        run()
        took = time.perf_counter() - start
        least = took if least is None else min(least, took)
    return least


def rehearse(lines):
    """Runs the program on a script of these lines."""
    text = "\n".join(lines) + "\n"
    subprocess.run([str(top / "viewbox"), "rehearse"], input=text.encode(), stdout=subprocess.DEVNULL, check=True)


def seconds_of(lines):
    """The least time of a script of these lines."""
    lines = list(lines)
    return timed(lambda: rehearse(lines))
