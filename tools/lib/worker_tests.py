"""Tests that a run by several workers is that of one, byte for byte: what `tools/test --workers` does.

Each stylesheet of lib/worker_sheets.py runs under several limits and grains by one worker, and then again and again by more, as many
runs at a time as there are processors, twice over: so threads are stopped at any place."""

import os
import random
import re
import subprocess
import tempfile
from concurrent.futures import ThreadPoolExecutor

from lib.worker_sheets import SHEET, SOURCES, STYLESHEETS

HERE = os.path.dirname(os.path.abspath(__file__))
XML2PYX = os.path.join(HERE, "..", "xml2pyx")
WORKERS = [2, 3, 8, 64]
GRAINS = [1, 3, 16]
SECONDS = 60
MOST_TICKS = 200_000
SEED = 1


def program():
    """The program: that of the environment's XSLT, or the script at the top."""
    return os.path.abspath(os.environ.get("XSLT") or os.path.join(HERE, "..", "..", "xslt"))


def run(words, folder):
    """What a run gives: its status, its result and its lines; no status where it took too long."""
    try:
        done = subprocess.run([program(), *words], cwd=folder, stdin=subprocess.DEVNULL, capture_output=True, timeout=SECONDS)
    except subprocess.TimeoutExpired:
        return None, b"", b"the run took too long"
    return done.returncode, done.stdout, done.stderr


def write_files(folder):
    """The sources and stylesheets as PYX lines."""
    for name, source in SOURCES.items():
        write(folder, name, source)
    for number, (_, content) in enumerate(STYLESHEETS.values()):
        write(folder, f"sheet{number}", SHEET.format(content))


def write(folder, name, document):
    """A document as PYX lines."""
    with open(os.path.join(folder, name + ".pyx"), "wb") as file:
        subprocess.run([XML2PYX], input=document.encode(), stdout=file, check=True)


def settings(number, source, folder):
    """The limits and grains under which a stylesheet runs, of which one is within the ticks that it takes, just and by one less."""
    chosen = random.Random(SEED + number)
    files = [f"sheet{number}.pyx", f"{source}.pyx"]
    for grain in GRAINS:
        plain = ["--stats", "--grain", str(grain)]
        words = [*plain, "--budget", str(MOST_TICKS), *files]
        yield words
        spent = re.search(rb"stats (\d+)", run(["--workers", "1", *words], folder)[2])
        ticks = int(spent[1]) if spent else MOST_TICKS // 10
        for budget in {ticks, ticks - 1, *(chosen.randrange(1, ticks) for _ in range(2))} - {0}:
            yield [*plain, "--budget", str(budget), *files]
        for events in (1, chosen.randrange(2, 400)):
            yield [*plain, "--budget", str(MOST_TICKS), "--max-events", str(events), *files]


def test(tests, runs):
    """Runs all stylesheets, so many times by several workers."""
    with tempfile.TemporaryDirectory() as folder, ThreadPoolExecutor(2 * (os.cpu_count() or 1)) as pool:
        write_files(folder)
        cases = [
            (f"{name}: {' '.join(words)}", words, pool.submit(run, ["--workers", "1", *words], folder))
            for number, (name, (source, _)) in enumerate(STYLESHEETS.items())
            for words in settings(number, source, folder)
        ]
        started = []
        for at in range(runs):
            name, words, one = cases[at % len(cases)]
            count = WORKERS[at // len(cases) % len(WORKERS)]
            started.append((f"{name} by {count} workers", one, pool.submit(run, ["--workers", str(count), *words], folder)))
        for name, one, more in started:
            tests.check(name, more.result(), one.result())
        ends = {one.result()[0] for _, _, one in cases}
        tests.check("the statuses of all runs", ends, {0, 4})
