"""How far a long test has come, on standard error: on a terminal a counter that is written over, elsewhere a line now and then."""
import sys
import time

SECONDS = 5  # between two lines, where standard error is no terminal
MOMENT = 0.1  # between two counters on a terminal


class Progress:
    def __init__(self, what, count):
        self.what, self.count, self.done = what, count, 0
        self.terminal = sys.stderr.isatty()
        self.start = self.shown = time.monotonic()

    def step(self, more=1):
        """So many more of the cases are done."""
        self.done += more
        now = time.monotonic()
        if now - self.shown >= (MOMENT if self.terminal else SECONDS):
            self.shown = now
            self.show(now)

    def show(self, now):
        percent = 100 * self.done // max(self.count, 1)
        text = f"{self.what}: {self.done} of {self.count}, {percent} %, {now - self.start:.0f} s"
        print(f"\r{text} " if self.terminal else text, end="" if self.terminal else "\n", file=sys.stderr, flush=True)

    def end(self):
        """Takes the counter off the terminal, so that what is printed next stands in its place."""
        if self.terminal:
            print("\r" + " " * 78 + "\r", end="", file=sys.stderr, flush=True)
