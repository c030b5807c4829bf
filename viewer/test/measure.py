#!/usr/bin/env python3
"""Measures the page in Chromium on a log of a week, and prints what docs/PERFORMANCE.md tells: python3 viewer/test/measure.py

Each figure is the least of five runs: processor time of the page's thread, which tells more than the clock on a busy machine,
and the clock. Frames are drawn one after another, each with another left second, and the canvas is read back at the end of a
run, so that all pixels are made. Panning counts the frames that the browser shows in four seconds."""
import shutil
import sys
import tempfile
import time
from pathlib import Path

sys.dont_write_bytecode = True
from browser_test import Page, chromium
from week import week_log

RUNS, FRAMES = 5, 40
VIEWS = [("the week", 604800), ("a day", 86400), ("an hour", 3600), ("five minutes", 300), ("a minute", 60)]
DRAW = """
const [seconds, frames] = arguments, { layout, log } = state, scale = Math.max(layout.fit, layout.plot / seconds);
const last = log.seconds + 1 - layout.plot / scale;
for (let k = 0; k < frames; k++) {
  state.view = { from: 1 + (last - 1) * (0.3 + k / frames / 1000), scale };
  drawChart();
}
document.getElementById('chart').getContext('2d').getImageData(0, 0, 1, 1);
"""
PAN = """
const [seconds] = arguments, begin = performance.now();
state.view = { from: 200000, scale: Math.max(state.layout.fit, state.layout.plot / seconds) };
Object.assign(window, { panned: 0, isPanned: false });
requestAnimationFrame(function step() {
  if (performance.now() - begin > 4000) return (window.isPanned = true);
  panned++;
  move(shownSeconds() / 200);
  requestAnimationFrame(step);
});
"""
SIZE = """
function size(value) {
  if (value?.buffer) return value.byteLength;
  return value && typeof value === 'object' ? Object.values(value).reduce((sum, part) => sum + size(part), 0) : 0;
}
return size(state.log);
"""


def thread_seconds(page):
    return next(row["value"] for row in page.devtools("Performance.getMetrics")["metrics"] if row["name"] == "ThreadTime")


def least(page, act):
    """The least processor time of the page's thread, and the least time on the clock, in milliseconds."""
    runs = []
    for _ in range(RUNS):
        thread, clock = thread_seconds(page), time.perf_counter()
        act()
        runs.append((thread_seconds(page) - thread, time.perf_counter() - clock))
    return [1000 * min(column) for column in zip(*runs)]


def main():
    if chromium.MISSING:
        sys.exit(chromium.MISSING)
    folder = Path(tempfile.mkdtemp(prefix="viewer_"))
    week = folder / "week.log"
    week.write_bytes(week_log())
    page = Page(folder)
    page.begin(folder)
    try:
        page.devtools("Performance.enable")
        page.take(week)
        seconds, columns = page.call("return state.log.seconds"), page.call(SIZE) / 1e6
        width, height = page.call("return [state.layout.width, state.layout.height]")
        print(f"log: {week.stat().st_size / 1e6:.1f} MB, {seconds:,} seconds; columns: {columns:.1f} MB; {width} x {height}")

        def read():
            page.type_into("files", str(week))
            page.rest()

        for name, act in [("read and shown", read), ("sums", lambda: page.call("sumsOf(state.log, 1, state.log.seconds)"))]:
            thread, clock = least(page, act)
            print(f"{name}: thread {thread:.0f} ms, clock {clock:.0f} ms")
        for name, seconds in VIEWS:
            thread, clock = (time / FRAMES for time in least(page, lambda: page.call(DRAW, seconds, FRAMES)))
            page.call(PAN, seconds)
            page.wait("return isPanned")
            panned = page.call("return panned") / 4
            print(f"frame of {name}: thread {thread:.1f} ms, clock {clock:.1f} ms; {panned:.0f} frames a second while panned")
        assert page.errors() == []
    finally:
        page.close()
        shutil.rmtree(folder, ignore_errors=True)


if __name__ == "__main__":
    main()
