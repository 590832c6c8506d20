"""What the scripts `try` run on: a program, a Redis server of their own, and an orderly end."""
import os
import pathlib
import shutil
import signal
import socket
import subprocess
import sys
import time

TOP = pathlib.Path(__file__).resolve().parents[2]
# Where the program is: beside the Makefile of a release, or where a build leaves it.
PLACES = [TOP / "wasmhost", TOP / "crates/wasmhost/out/wasmhost"]


def found_program(named):
    """The program that is named, or else the one of this folder, or else that of the PATH."""
    places = [named] if named else [*PLACES, shutil.which("wasmhost")]
    for it in filter(None, places):
        if os.path.isfile(it) and os.access(it, os.X_OK):
            return pathlib.Path(it).resolve()
    sys.exit(f"try: there is no program {named}" if named else
             "try: there is no program here or in the PATH: build one, or say --program PROGRAM")


def end_in_order():
    """Has the signals that end a program end it as an error does, so that all is put away. Against
    `kill -9` nothing helps."""
    for it in (signal.SIGTERM, signal.SIGHUP):
        signal.signal(it, lambda number, _: sys.exit(128 + number))


class Redis:
    """A server of our own, which listens to a socket in a folder."""

    def __init__(self, folder):
        self.socket = str(folder / "redis.sock")
        words = ["redis-server", "--port", "0", "--unixsocket", self.socket, "--save", "",
                 "--appendonly", "no", "--dir", str(folder), "--logfile", str(folder / "redis.log")]
        if not shutil.which(words[0]):
            sys.exit("try: there is no redis-server: apt-get install redis-server")
        # pylint: disable=consider-using-with
        self.ran = subprocess.Popen(words, start_new_session=True)
        try:
            self.wait_for_socket()
        except BaseException:
            self.end()
            raise

    def listens(self):
        """Whether it does: its socket is there some time before."""
        with socket.socket(socket.AF_UNIX) as client:
            return client.connect_ex(self.socket) == 0

    def wait_for_socket(self):
        """Waits until it listens."""
        while not self.listens():
            if self.ran.poll() is not None:
                sys.exit(f"try: redis-server has ended with {self.ran.returncode}")
            time.sleep(0.05)

    def call(self, *words):
        """The rows of an answer."""
        words = ["redis-cli", "-e", "--raw", "-s", self.socket, *words]
        ran = subprocess.run(words, stdin=subprocess.DEVNULL, capture_output=True, check=True)
        return ran.stdout.split(b"\n")[:-1]

    def answers(self, name):
        """The answers of a worker: of each its id, field and text."""
        rows = self.call("XRANGE", f"{name}.answers", "-", "+")
        return [tuple(rows[at : at + 3]) for at in range(0, len(rows), 3)]

    def end(self):
        """Ends the server."""
        self.ran.terminate()
        self.ran.wait()
