"""Types samples at a terminal one by one, and looks for the results between them.

    typed.py AHEAD SAMPLES RESULTS WORDS..

SAMPLES and RESULTS are lines with commas between them. The command of these words reads from the terminal and writes to it.
From the AHEAD-th sample that is no blank line on, a result is waited for before the next line is typed. The others are
to come when the input has ended. Prints what the terminal shows in place of what is due, and then ends with 1.
"""
import os
import pty
import select
import subprocess
import sys

PATIENCE = 10  # seconds for a line


class Terminal:
    """A terminal, and the command that runs at it."""

    def __init__(self, words):
        self.keyboard, side = pty.openpty()
        self.child = subprocess.Popen(words, stdin=side, stdout=side, stderr=side)
        os.close(side)
        self.shown = b""

    def press(self, keys):
        os.write(self.keyboard, keys)

    def line(self):
        """The next line that is shown, or None where no line ends in time."""
        while b"\n" not in self.shown:
            ready, _, _ = select.select([self.keyboard], [], [], PATIENCE)
            piece = self.read() if ready else b""
            if not piece:
                return None
            self.shown += piece
        line, _, self.shown = self.shown.partition(b"\n")
        return line.rstrip(b"\r").decode(errors="replace")

    def read(self):
        try:
            return os.read(self.keyboard, 4096)
        except OSError:  # the command is gone
            return b""


def due(terminal, what, wanted):
    """Ends the program unless the next line is the wanted one; None stands for no further line."""
    line = terminal.line()
    if line != wanted:
        terminal.child.kill()
        sys.exit(f"{what}: the terminal shows {line!r}, wanted {wanted!r}")


def main():
    ahead = int(sys.argv[1])
    samples = sys.argv[2].split(",")
    results = sys.argv[3].split(",")
    terminal = Terminal(sys.argv[4:])
    typed = 0
    for sample in samples:
        terminal.press(sample.encode() + b"\n")
        due(terminal, "a typed line", sample)
        typed += 1 if sample else 0
        if sample and typed >= ahead:
            due(terminal, f"after sample {typed}", results[typed - ahead])
    terminal.press(b"\x04")
    for result in results[typed - ahead + 1:]:
        due(terminal, "after the end", result)
    due(terminal, "at last", None)
    status = terminal.child.wait(PATIENCE)
    if status != 0:
        sys.exit(f"status {status}")


main()
