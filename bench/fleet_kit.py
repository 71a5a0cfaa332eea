"""What bench/fleet runs: nodes, fronts, partners and a database, each in a folder of the room."""
import http.client
import os
import re
import shutil
import socket
import subprocess
import sys
import time
from pathlib import Path
from urllib.parse import quote

TOP = Path(__file__).resolve().parent.parent
sys.path.insert(0, str(TOP / "interop"))
sys.dont_write_bytecode = True
import application
import gsoap11
from gsoap11 import listens

FRONTS, BRIDGE = TOP / "examples/front", TOP / "examples/postgresql"
BUILT = [TOP / "crates/rm_cli/out/rm_cli", TOP / "crates/wsrm_run/out/wsrm_run"]
# The front; behind it nodes 1 to 4; nodes without a front; and partner 11, whose way to the front begins at 21611.
PUBLIC, NODES, OTHERS, WAYS, DATABASE = 21500, 21500, 21520, 21600, 21455
POSTGRES = "/usr/lib/postgresql/15/bin"
ITEM = re.compile(r"item \d+ \d+ ([0-9a-f]*)")
RM = "http://docs.oasis-open.org/ws-rx/wsrm/200702"
MC = "http://docs.oasis-open.org/ws-rx/wsmc/200702"
ADDRESSING = "http://www.w3.org/2005/08/addressing"
ANONYMOUS = f"{ADDRESSING}/anonymous"
programs = {}
wrong = []
running = []
databases = []


def tell(what, holds):
    wrong.extend([] if holds else [what])
    print(f"{'yes' if holds else 'NO ':3} {what}", flush=True)


def note(what):
    print(f"    {what}", flush=True)


def until(what, seconds=60):
    """Waits for it; whether it came."""
    end = time.monotonic() + seconds
    while not what():
        if time.monotonic() > end:
            return False
        time.sleep(0.05)
    return True


def started(words, folder, log, **how):
    with open(log, "ab") as out:
        how = {"stdin": subprocess.DEVNULL, "stdout": out, "stderr": out, **how}
        process = subprocess.Popen([str(it) for it in words], cwd=folder, **how)
    running.append(process)
    return process


def killed(process):
    process.kill()
    process.wait()
    running.remove(process)


def kill_all():
    for it in list(running):
        killed(it)
    for it in list(databases):
        it.down("immediate")


class Node:
    """A folder with a node, which runs between `up` and `down`."""

    def __init__(self, room, number, port, address=None):
        self.folder, self.number, self.port, self.process = Path(room) / f"node{number}", number, port, None
        self.address = address or f"http://127.0.0.1:{port}/"
        self.journal = self.folder / "wsrm.journal"
        self.folder.mkdir(parents=True)
        self.command("make", str(number), self.address)

    def command(self, *words):
        ran = subprocess.run([programs["wsrm"], *words], cwd=self.folder, stdin=subprocess.DEVNULL, capture_output=True)
        return ran.stdout.decode()

    def up(self, grant="dfg"):
        self.process = started([programs["run"], f"127.0.0.1:{self.port}", grant], self.folder, self.folder / "said")
        if not until(lambda: listens(self.port) and self.ask("GET", "/show")[0] == 200):
            sys.exit(f"bench: {self.folder} does not run: {(self.folder / 'said').read_text()[-400:]}")
        return self

    def down(self):
        if self.process:
            killed(self.process)
            self.process = None

    def ask(self, method, path, body=None):
        """The status and the text of its answer; 0 where it is down."""
        line = application.Line(str(self.folder / "wsrm.socket"))
        try:
            line.request(method, path, body)
            answer = line.getresponse()
            return answer.status, answer.read().decode()
        except (OSError, http.client.HTTPException):
            return 0, ""
        finally:
            line.close()

    def send(self, to, payload, seconds=60):
        """The sequence and the number by which it was accepted, or the answer that it got instead."""
        end = time.monotonic() + seconds
        while True:
            status, text = self.ask("POST", f"/send?to={quote(to, safe='')}", payload)
            if status == 200:
                return tuple(map(int, text.split()[1:3]))
            if status not in (0, 429, 503) or time.monotonic() > end:
                return f"{status} {text}".strip()
            time.sleep(0.02)

    def outgoing(self):
        """{sequence: (phase, accepted, the numbers that are acknowledged)}"""
        found = {}
        for seq, phase, accepted, ranges in re.findall(r"^out (\d+) (\w+) accepted (\d+) acked (\S+)",
                                                       self.ask("GET", "/show")[1], re.M):
            pairs = [tuple(map(int, it.split("-"))) for it in ranges.split(",") if it != "-"]
            found[int(seq)] = phase, int(accepted), {it for low, high in pairs for it in range(low, high + 1)}
        return found

    def is_acked(self):
        """Whether all that it accepted is acknowledged."""
        return all(len(acked) == accepted for _, accepted, acked in self.outgoing().values())

    def inboxes(self):
        """{sequence: payloads} of all that come in, by the commands: it must be down."""
        found = {}
        for seq in range(1, 257):
            said = self.command("inbox", str(seq))
            if "inbox" in said.splitlines()[-1:][0].split():
                found[seq] = [bytes.fromhex(it) for it in ITEM.findall(said)]
            elif "WrongSide" not in said:
                return found
        return found


def made_nodes(room):
    """Nodes 1 to 4 behind the front, which run."""
    address = f"http://127.0.0.1:{PUBLIC}/node"
    return [Node(room, it, NODES + it, f"{address}{it}/").up() for it in (1, 2, 3, 4)]


def needs(program, package):
    if not shutil.which(program):
        sys.exit(f"bench: {program} is missing: it is in Debian's package {package}")


def front_up(room, kind):
    """The front: haproxy, nginx, or the wrong one."""
    if kind == "nginx":
        needs("nginx", "nginx-light, and its module in libnginx-mod-http-js")
        place = Path(room) / "nginx"
        shutil.copytree(FRONTS, place, dirs_exist_ok=True)
        words = ["nginx", "-p", place, "-c", "nginx.conf", "-e", "error.log"]
    else:
        needs("haproxy", "haproxy")
        words = ["haproxy", "-db", "-f", FRONTS / ("haproxy-wrong.cfg" if kind == "wrong" else "haproxy.cfg")]
    process = started(words, room, Path(room) / f"{kind}.log", env={**os.environ, "FLEET": str(room)})
    if not until(lambda: listens(PUBLIC), 10):
        sys.exit(f"bench: {kind} does not listen: {(Path(room) / f'{kind}.log').read_text()[-400:]}")
    return process


def front_down(process):
    process.terminate()
    process.wait()
    running.remove(process)


def ways_up(room, numbers):
    """Gives each partner an address of its own: what comes to its way goes to the front from there."""
    needs("haproxy", "haproxy")
    lines = ["defaults", "    mode tcp", "    timeout connect 5s", "    timeout client 120s", "    timeout server 120s"]
    for it in numbers:
        lines += [f"listen partner{it}", f"    bind 127.0.0.1:{WAYS + it}",
                  f"    server front 127.0.0.1:{PUBLIC} source 127.0.0.{it}"]
    file = Path(room) / "ways.cfg"
    file.write_text("\n".join(lines) + "\n")
    process = started(["haproxy", "-db", "-f", file], room, Path(room) / "ways.log")
    until(lambda: all(listens(WAYS + it) for it in numbers), 10)
    return process


def admin(room, command):
    """What HAProxy answers to a command of its operator."""
    with socket.socket(socket.AF_UNIX) as line:
        line.connect(str(Path(room) / "haproxy.sock"))
        line.sendall(command.encode() + b"\n")
        return line.makefile().read().strip()


def envelope(action, header, body, message_id="urn:fleet:1"):
    return (f'<s:Envelope xmlns:s="http://www.w3.org/2003/05/soap-envelope" xmlns:a="{ADDRESSING}" xmlns:r="{RM}" '
            f'xmlns:c="{MC}"><s:Header><a:To>http://elsewhere.example/x</a:To><a:Action>{action}</a:Action>'
            f"<a:MessageID>{message_id}</a:MessageID>{header}</s:Header><s:Body>{body}</s:Body></s:Envelope>")


def create(message_id, acks_to=ANONYMOUS, offer=""):
    body = f"<r:CreateSequence><r:AcksTo><a:Address>{acks_to}</a:Address></r:AcksTo>{offer}</r:CreateSequence>"
    return envelope(f"{RM}/CreateSequence", "", body, message_id)


def data(identifier, number, payload="<m/>", before="", block="Sequence"):
    header = (f'{before}<r:{block} s:mustUnderstand="1"><r:Identifier>{identifier}</r:Identifier><r:MessageNumber>'
              f"{number}</r:MessageNumber></r:{block}>")
    return envelope("urn:fleet", header, payload)


def posted(path, text, source="127.0.0.31", port=PUBLIC):
    """The status and the text of what answers."""
    line = http.client.HTTPConnection("127.0.0.1", port, timeout=90, source_address=(source, 0))
    try:
        line.request("POST", path, text.encode(), {"Content-Type": "application/soap+xml", "Host": "elsewhere.example"})
        answer = line.getresponse()
        return answer.status, answer.read().decode(errors="replace")
    finally:
        line.close()


def identifier_in(text):
    found = re.search(r"<[^<>/]*Identifier[^<>]*>\s*(urn:uuid:[^<]*)", text)
    return found[1].strip() if found else None


class Database:
    """PostgreSQL in the room, as a user of its own where this runs as root."""

    def __init__(self, room):
        needs("psql", "postgresql-15")
        if not Path(POSTGRES, "initdb").exists():
            sys.exit("bench: initdb is missing: it is in Debian's package postgresql-15")
        self.room = Path(room) / "database"
        self.room.mkdir()
        self.user = ["setpriv", "--reuid=postgres", "--regid=postgres", "--clear-groups"] if os.getuid() == 0 else []
        if self.user:
            shutil.chown(self.room, "postgres", "postgres")
        self.dsn = f"host={self.room} port={DATABASE} dbname=postgres user=postgres"
        self.does("initdb", "-D", self.room / "pg", "-U", "postgres", "-A", "trust")
        self.up()

    def does(self, program, *words):
        subprocess.run([*self.user, f"{POSTGRES}/{program}", *map(str, words)], cwd=self.room, check=True,
                       stdout=subprocess.DEVNULL)

    def up(self):
        self.does("pg_ctl", "-D", self.room / "pg", "-w", "-l", self.room / "log", "-o",
                  f"-p {DATABASE} -k {self.room} -c listen_addresses=''", "start")
        databases.append(self)

    def down(self, how):
        databases.remove(self)
        self.does("pg_ctl", "-D", self.room / "pg", "-w", "-m", how, "stop")

    def ask(self, text):
        """The rows of a query, or None where the database is down."""
        ran = subprocess.run([*self.user, "psql", "-X", "-At", "-v", "ON_ERROR_STOP=1", self.dsn, "-c", text],
                             cwd=self.room, capture_output=True)
        return None if ran.returncode else ran.stdout.decode().splitlines()
