"""Runs of a program that are killed, for `kill-runs` and `kill-switches`."""
import subprocess
import threading

from lib.guest_runs import SECONDS, request_lines

PIPES = {"stdin": subprocess.PIPE, "stdout": subprocess.PIPE, "stderr": subprocess.PIPE}


def input_lines(requests):
    """The request lines of texts, each with its newline."""
    return [line + b"\n" for line in request_lines(requests).split(b"\n")[:-1]]


class Life:
    """A run of the program. Its input comes in pieces of any length, and then line by line, with a
    pause before each. Its output is read as it comes."""

    def __init__(self, words, given, lines, pause, rng):
        self.given, self.lines, self.pause = given, lines, pause
        self.rng, self.output = rng, b""
        self.came, self.is_over = threading.Condition(), threading.Event()
        # pylint: disable=consider-using-with
        self.ran = subprocess.Popen(words, **PIPES, bufsize=0)
        self.threads = [threading.Thread(target=it) for it in (self.give, self.hear)]
        for it in self.threads:
            it.start()

    def give(self):
        """Writes what is given, and leaves the input open."""
        at = 0
        try:
            while at < len(self.given):
                length = self.rng.choice([1, 7, 100, 2_000, 50_000])
                self.ran.stdin.write(self.given[at : at + length])
                at += length
            for line in self.lines:
                if self.is_over.wait(self.pause):
                    break
                self.ran.stdin.write(line)
        except BrokenPipeError:
            pass

    def hear(self):
        """Reads the output to its end."""
        while data := self.ran.stdout.read(65_536):
            with self.came:
                self.output += data
                self.came.notify()

    def wait_for(self, lines):
        """Waits until so many lines have come, or none comes any more."""
        with self.came:
            self.came.wait_for(lambda: self.output.count(b"\n") >= lines, timeout=1)

    def end(self, is_killed):
        """Kills the program, or closes its input. Answers status and error output."""
        if is_killed:
            self.ran.kill()
            self.is_over.set()
        else:
            self.threads[0].join()
            self.ran.stdin.close()
        self.ran.wait(SECONDS)
        for it in self.threads:
            it.join()
        words = self.ran.stderr.read()
        for pipe in (self.ran.stdin, self.ran.stdout, self.ran.stderr):
            pipe.close()
        return self.ran.returncode, words
