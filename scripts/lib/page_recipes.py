"""The recipes of the deployment pages. Each indented block of a page is typed as it stands there,
in the order of the pages, on one unit `ledger`. So a page can't say anything else than its row.

The tables at the end have each block of the pages by its first words: a function that types it and
looks at what comes of it, or why it isn't typed. A block that they don't have is a fault.

Nothing is changed outside of a folder. `make install` installs there, and the folder of the unit's
user is there. In place of some commands there are others:

- `apt-get`, `useradd` and `chattr` do nothing: they change the machine, and not every file system
  has the flag of the last one;
- `runuser` runs its command as the same user, and no file is given to another one;
- `systemctl` does with the installed unit what systemd does: it starts what `ExecStart` says in the
  environment of the unit, and starts it again but for the statuses that the unit has;
- `redis-cli` asks the server of these rows.
"""
import contextlib
import os
import pathlib
import shutil
import signal
import subprocess
import time

from lib.guest_runs import EXAMPLES, ROOT
from lib.redis_streams import add, texts, wanted
from lib.typed_lines import blocks_in

# How long a unit may take to do what is asked.
SECONDS = 120
NAME = "ledger"
REQUESTS, ANSWERS = f"{NAME}.requests", f"{NAME}.answers"

NOTHING = "#!/bin/sh\n"
AS_USER = """#!/bin/sh
[ "$1 $2 $3" = "-u wasmhost --" ] && shift 3 && exec "$@"
"""
ASK = """#!/bin/sh
exec {redis_cli} -s {socket} "$@"
"""
# The processes of a unit are a group. Its number is in NAME.group, and its last status, where it
# isn't started again, in NAME.ended. What is left of it then is killed before the next start.
SYSTEMCTL = """#!/bin/bash
name=${{*: -1}} name=${{name#wasmhost@}}
of_unit() {{ sed -n "s/^$1=//p" {unit} | sed "s/%i/$name/g"; }}
runs() {{ ps -o stat= --sid "$(cat {room}/$name.group)" | grep -qv Z; }} 2>/dev/null
case $* in
"stop wasmhost@$name")
    ! runs || kill -TERM -- "-$(cat {room}/$name.group)"
    for ((tries = 0; tries < 600; tries++)); do runs && sleep 0.05 || break; done ;;
"start wasmhost@$name" | "enable --now wasmhost@$name")
    ! runs || [ -s {room}/$name.ended ] || exit 0
    ! runs || kill -KILL -- "-$(cat {room}/$name.group)"
    rm -f {room}/$name.ended
    export -f of_unit
    export name
    setsid bash -c 'echo $$ >{room}/$name.group
        while :; do
            env $(of_unit Environment) $(of_unit ExecStart)
            status=$?
            [[ " 0 $(of_unit RestartPreventExitStatus) " != *" $status "* ]] || break
            sleep 0.2
        done
        echo $status >{room}/$name.ended' </dev/null >>{room}/$name.log 2>&1 &
    until [ -s {room}/$name.group ] && runs; do sleep 0.05; done ;;
*) echo "systemctl: $*: isn't done here" >&2; exit 1 ;;
esac
"""


def blocks_of(page):
    """The indented blocks of a page, each with the number of its first row."""
    return list(blocks_in((pathlib.Path(ROOT) / page).read_text(encoding="utf-8")))


class Recipes:
    """The unit `ledger`, as the pages set it up, and the folder in which it is."""

    def __init__(self, program, redis, room, trapping):
        """`trapping` is a module that echoes, and traps at a request that begins with z."""
        self.redis, self.room, self.trapping = redis, room, trapping
        self.state, self.faults, self.place = room / "state", [], ""
        self.own = {"/var/lib/wasmhost": self.state, "/usr/local": room / "usr",
                    "/path/to/your.wasm": f"{EXAMPLES}/notebook.wasm", " -o wasmhost": ""}
        self.put_stand_ins()
        self.environment = {
            **os.environ, "PREFIX": str(room / "usr"), "MAKEFLAGS": f"s -- PROGRAM={program}",
            "PATH": f"{room}/stand-ins:{room}/usr/bin:{os.environ['PATH']}"}

    def put_stand_ins(self):
        """Makes the commands that are here in place of others."""
        folder = self.room / "stand-ins"
        folder.mkdir(parents=True)
        unit = self.room / "unit"
        told = {"redis_cli": shutil.which("redis-cli"), "socket": self.redis.socket,
                "unit": unit, "room": self.room}
        for name, text in (("apt-get", NOTHING), ("useradd", NOTHING), ("chattr", NOTHING),
                           ("runuser", AS_USER), ("redis-cli", ASK.format(**told)),
                           ("systemctl", SYSTEMCTL.format(**told))):
            (folder / name).write_text(text)
            (folder / name).chmod(0o755)

    def typed(self, block, folder=None):
        """Types a block. Answers what it prints, on both of its outputs."""
        for words, own in self.own.items():
            block = block.replace(words, str(own))
        ran = subprocess.run(["bash", "-euo", "pipefail", "-c", block], cwd=folder or self.state,
                             env=self.environment, stdin=subprocess.DEVNULL, text=True,
                             stdout=subprocess.PIPE, stderr=subprocess.STDOUT, check=False,
                             timeout=SECONDS)
        if ran.returncode:
            self.faults.append(f"{block}: ends with {ran.returncode}: {ran.stdout}")
        return ran.stdout

    def look(self, what, found, right):
        """Notes a fault, where what is found isn't what was worked out."""
        self.faults += wanted(f"{self.place}: {what}", found, right)

    def ask(self, *requests):
        """Adds requests to the stream, by the next numbers."""
        add(self.redis, REQUESTS, [("0-*", "text", it) for it in requests])

    def answers(self, count):
        """The answers, once there are so many, or none comes any more in time."""
        end = time.monotonic() + SECONDS
        while len(found := texts(self.redis, ANSWERS)) < count and time.monotonic() < end:
            time.sleep(0.1)
        return found

    def ended(self):
        """The status with which the unit has failed, once it has."""
        end, file = time.monotonic() + SECONDS, self.room / f"{NAME}.ended"
        while not (file.exists() and file.read_text()) and time.monotonic() < end:
            time.sleep(0.1)
        return int(file.read_text()) if file.exists() else None

    def systemctl(self, verb):
        """Starts or stops the unit."""
        self.typed(f"systemctl {verb} wasmhost@{NAME}")

    def anew(self, module):
        """Sets up the unit once more, with another module."""
        self.systemctl("stop")
        for it in [*self.state.iterdir(), self.room / f"{NAME}.log"]:
            it.unlink()
        self.redis.call("DEL", REQUESTS, f"{REQUESTS}.instead", ANSWERS)
        shutil.copy2(module, self.state / f"{NAME}.wasm")
        self.typed(f"wasmhost create {NAME}.disk {NAME}.wasm && touch {NAME}.lines")
        self.systemctl("start")

    def type_page(self, page, table):
        """Types the blocks of a page, as its table says."""
        blocks = blocks_of(page)
        for (row, block), (begins, what) in zip(blocks, table):
            self.place = f"{page}:{row}"
            if not block.startswith(begins):
                self.look("another block", block.partition("\n")[0], begins)
                return
            if callable(what):
                what(self, block)
        self.look("blocks", len(blocks), len(table))

    def run(self):
        """Types the pages in their order. Answers the faults."""
        try:
            for page, table in PAGES.items():
                self.type_page(page, table)
        finally:
            with contextlib.suppress(FileNotFoundError, ProcessLookupError, ValueError):
                group = int((self.room / f"{NAME}.group").read_text())
                os.killpg(group, signal.SIGKILL)
        return self.faults


USAGE = b"add TEXT, list, drop N or clear"


def set_up(at, block):
    """The worker is created, and its unit is started."""
    at.typed(block.partition("systemctl")[0], ROOT)
    shutil.copy2(at.room / "usr/lib/systemd/system/wasmhost@.service", at.room / "unit")
    text = (at.room / "unit").read_text().replace("/var/lib/wasmhost", str(at.state))
    (at.room / "unit").write_text(text)
    at.typed("systemctl" + block.partition("systemctl")[2])
    at.look("mode", at.state.stat().st_mode & 0o777, 0o700)


def first_request(at, block):
    at.typed(block)
    at.look("answers", at.answers(1), [USAGE])


def entry_is_refused(at, block):
    at.ask(*[b"add note"] * 5, b"add\nforged", b"add last")
    at.look("status", at.ended(), 6)
    at.look("log", (at.room / f"{NAME}.log").read_text().count(block), 1)
    at.look("answers", at.answers(6), [USAGE] + [b"added"] * 5)


def entry_is_replaced(at, block):
    at.typed(block)
    at.look("answers", at.answers(8), [USAGE] + [b"added"] * 5 + [USAGE, b"added"])


def written_back(at, block):
    at.systemctl("stop")
    at.ask(b"list")
    at.look("last words", at.typed(block), "parked\n")
    at.look("answers", at.answers(15)[8:], NOTES)


NOTES = [b"%d note" % it for it in range(1, 6)] + [b"6 last", b"6 notes"]


def copied(at, block):
    """The last two requests of the copy are in its journal alone."""
    at.ask(b"add late")
    at.answers(16)
    at.typed(block)
    rows = at.typed(f"wasmhost inspect {NAME}.copy").splitlines()
    found = [it for it in rows if it.startswith("requests ") or it.startswith("record request ")]
    at.look("copy", [it.split()[0] for it in found], ["requests", "record", "record"])


def trimmed(at, block):
    """What the copy lacks stays."""
    at.ask(b"drop 1", b"add end")
    at.answers(18)
    at.typed(block)
    at.look("requests", texts(at.redis, REQUESTS), [b"drop 1", b"add end"])


def emptied(at, block):
    """All lines were told. Those that come again are of the newest requests."""
    at.typed(block)
    at.systemctl("stop")
    at.look("lines", (at.state / f"{NAME}.lines").read_bytes().startswith(b"1 o "), False)


def put_back(at, block):
    """What comes again isn't told again. What the copy lacks comes from the stream."""
    at.typed(block)
    at.ask(b"list")
    found = at.answers(26)
    at.look("answers", found[14:18], [b"6 notes", b"added", b"dropped", b"added"])
    at.look("answers", found[18:], [b"%d note" % it for it in range(1, 5)] +
            [b"5 last", b"6 late", b"7 end", b"7 notes"])


def looked_at(at, block):
    """The files are those of the snapshot, in which the copy's last request isn't worked on yet."""
    printed = at.typed(block)
    at.look("files", printed.splitlines()[1:], ["note"] * 5 + ["last"])


def trapped(at, block):
    at.anew(at.trapping)
    at.ask(b"a", b"b", b"c")
    at.answers(3)
    save, back = (next(it for _, it in blocks_of(README) if words in it)
                  for words in (" save ", "cp -p "))
    at.typed(save)
    at.ask(b"d", b"e", b"f", b"zero", b"g")
    at.look("status", at.ended(), 70)
    at.typed(block)
    at.typed(back)
    at.look("answers", at.answers(8), [b"a", b"b", b"c", b"d", b"e", b"f", b"nothing", b"g"])


def tried_on_a_copy(at, block):
    """The unit is killed while it runs, so what it has taken since its last save isn't saved."""
    at.anew(f"{EXAMPLES}/notebook.wasm")
    shutil.copy2(f"{EXAMPLES}/notebook2.wasm", at.state / f"{NAME}2.wasm")
    at.ask(b"add one")
    at.answers(1)
    at.systemctl("stop")
    at.systemctl("start")
    at.ask(b"add two")
    at.answers(2)
    printed = at.typed(block).splitlines()
    at.look("creation", printed[-1], "goes on after request 2, line 2")
    at.look("try", at.typed('echo "3 r find two" | wasmhost run try.disk'), "3 o 2 two\nparked\n")


def code_is_changed(at, block):
    at.ask(b"add three")
    at.answers(3)
    at.typed(block)
    at.ask(b"add four")
    at.look("answers", at.answers(4), [b"added"] * 3 + [b"added note 4"])


README, DEPLOYMENT = "examples/deployment/README.md", "docs/DEPLOYMENT.md"
CD = "cd /var/lib/wasmhost\n"
SYSTEMD = "systemd reads it"
MANY = "other units, and a list of systemd's"
CLUSTER = "there is no Redis Cluster"
DEVICES = "two machines with block devices: examples/failover/try has takeovers"
PAGES = {
    README: [
        ("producers --XADD--> ", "a picture"),
        ("examples/deployment/try ", "a row of its own runs it"),
        ("apt-get install redis-server\n", set_up),
        ("redis-cli XADD ledger.requests ", first_request),
        ("feed: ledger.requests: the entry 0-7 ", entry_is_refused),
        ("redis-cli HSET ledger.requests.instead ", entry_is_replaced),
        (f"{CD}runuser -u wasmhost -- sh -c 'wasmhost run ", written_back),
        (f"{CD}runuser -u wasmhost -- sh -c 'rm -f next.copy", copied),
        (f"{CD}taken=$(wasmhost inspect ledger.copy ", trimmed),
        (f"{CD}systemctl stop wasmhost@ledger\n/usr/local/lib/wasmhost/tell ", emptied),
        (f"{CD}systemctl stop wasmhost@ledger\nmv ", put_back)],
    DEPLOYMENT: [
        ("[Service]\nType=oneshot", SYSTEMD),
        ("[Unit]\nOnFailure=", SYSTEMD),
        ("wasmhost show ", looked_at),
        ("[Service]\nEnvironment=METRICS=", SYSTEMD),
        ("groups:\n", "Prometheus reads it"),
        ("redis-cli HSET ledger.requests.instead ", trapped),
        (f"{CD}wasmhost save ledger.disk try.copy ", tried_on_a_copy),
        (f"{CD}systemctl stop wasmhost@ledger\nrunuser ", code_is_changed),
        ("systemctl enable --now wasmhost@ledger wasmhost@queue", MANY),
        ("[Service]\nEnvironment=\"REDIS_FLAGS=-c ", CLUSTER),
        ("wasmhost create /dev/drbd0 ", DEVICES),
        ("ln -s /dev/drbd0 ", DEVICES),
        ("[Unit]\n# The file system is mounted ", SYSTEMD),
        ("resource ledger {", DEVICES),
        ("stonith_admin --fence one\n", DEVICES),
        ("rbd create pool/ledger ", DEVICES),
        ("aws ec2 stop-instances ", DEVICES)]}
