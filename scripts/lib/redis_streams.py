"""Streams of a Redis server with entries of any bytes, and what a row says of them."""
import re
import subprocess


def wanted(what, found, right):
    """A row's fault, where what is found isn't what was worked out."""
    return [] if found == right else [f"{what}: {found!r}, wanted {right!r}"]


def add(redis, stream, entries):
    """Adds entries to a stream, with all bytes: redis-cli takes no zero byte as a word."""
    for id_, *fields in entries:
        spelled = " ".join('"' + "".join(f"\\x{it:02x}" for it in (
            field if isinstance(field, bytes) else field.encode())) + '"' for field in fields)
        ran = subprocess.run(["redis-cli", "-s", redis.socket], text=True, capture_output=True,
                             input=f"XADD {stream} {id_} {spelled}\n", check=True)
        assert ran.stdout.startswith("0-") or ran.stdout.strip() == id_, ran.stdout


def texts(redis, stream):
    """The values of the entries of a stream: redis-cli quotes them, one a line."""
    ran = subprocess.run(["redis-cli", "--no-raw", "-s", redis.socket, "XRANGE", stream, "-", "+"],
                         capture_output=True, check=True)
    quoted = re.findall(rb'^ +2\) "(.*)"$', ran.stdout, re.M)
    return [it.decode("ascii").encode().decode("unicode_escape").encode("latin-1")
            for it in quoted]
