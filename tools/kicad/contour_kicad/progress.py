"""Progress on standard error: nets done of all, elapsed, expected."""
import sys
import time


class Progress:
    """A counted piece of work; `tqdm` draws it where it is installed and standard error is a terminal."""

    def __init__(self, title, total, quiet=False, every=2.0):
        self.title, self.total, self.quiet, self.every = title, total, quiet, every
        self.done = 0
        self.start = self.told = time.monotonic()
        self.bar = None if quiet else bar(title, total)

    def step(self):
        """One more piece is done."""
        self.done += 1
        if self.bar is not None:
            self.bar.update(1)
        elif not self.quiet and time.monotonic() - self.told >= self.every:
            self.told = time.monotonic()
            self.say()

    def say(self):
        """Writes a line on how far the work has come."""
        elapsed = time.monotonic() - self.start
        expected = elapsed * (self.total - self.done) / max(1, self.done)
        print(f"{self.title}: {self.done} of {self.total}, {elapsed:.0f} s, about {expected:.0f} s more",
              file=sys.stderr, flush=True)

    def close(self):
        """Ends the work."""
        if self.bar is not None:
            self.bar.close()


def bar(title, total):
    """A bar of tqdm, or None."""
    if not sys.stderr.isatty():
        return None
    try:
        from tqdm import tqdm
    except ImportError:
        return None
    return tqdm(total=total, desc=title, unit="net")
