"""The parts of bench/fleet without a front: two nodes, old journals, the bridge, and a mirror."""
import random
import re
import shutil
import signal
import subprocess
import threading
import time
from http.server import BaseHTTPRequestHandler, HTTPServer

import fleet_kit as kit
from fleet_kit import OTHERS, PUBLIC, Node, note, posted, tell, until

PYTHON = "/usr/bin/python3"


def text(number):
    return b"<m>%d</m>" % number


def numbers(node, seq=1):
    """What an inbox has; the node must be down."""
    return [int(it[3:-4]) for it in node.inboxes().get(seq, [])]


class Caught(BaseHTTPRequestHandler):
    """A partner that keeps what comes."""

    came = []

    def do_POST(self):
        said = self.rfile.read(int(self.headers["Content-Length"])).decode()
        parts = "Identifier>(urn:partner[^<]*)", "MessageNumber>([0-9]*)", "<m>.*</m>"
        self.came.extend(zip(*[re.findall(it, said) for it in parts]))
        self.send_response(202)
        self.send_header("Content-Length", "0")
        self.end_headers()

    def log_message(self, *_):
        pass


def offer(room, _):
    """Two nodes that take one Offer number from 1 on the partner's one identifier: so no CreateSequence may move."""
    server = HTTPServer(("127.0.0.1", PUBLIC - 1), Caught)
    threading.Thread(target=server.serve_forever, daemon=True).start()
    partner = f"http://127.0.0.1:{PUBLIC - 1}/"
    offered = (f"<r:Offer><r:Identifier>urn:partner:1</r:Identifier><r:Endpoint><a:Address>{partner}</a:Address>"
               "</r:Endpoint></r:Offer>")
    asked = kit.create("urn:fleet:offer", partner, offered)
    for number in (1, 2):
        node = Node(room, number, OTHERS + number).up()
        said = posted("/", asked, port=node.port)[1]
        note(f"node {number} takes the Offer: {'Accept>' in said}; it sends by {node.send(partner, text(number), 5)}")
        until(lambda: any(it[2] == text(number).decode() for it in Caught.came), 5)
        node.down()
    ones = {it[2] for it in Caught.came if it[1] == "1"}
    tell(f"one CreateSequence at two nodes: message 1 of the partner's one sequence is {sorted(ones)}", len(ones) == 2)
    server.shutdown()
    server.server_close()


def moved(room, _):
    for name, is_drained in (("at once", False), ("drained", True)):
        place = room / name.replace(" ", "-")
        old, new, far = (Node(place, it, OTHERS + it) for it in (2, 5, 9))
        old.up(), new.up(), far.up()
        old.send(far.address, text(1))
        until(old.is_acked)
        far.down()
        for it in (2, 3):
            old.send(far.address, text(it))
        if is_drained:
            far.up()
            tell("drained: all is acknowledged at the old node", until(old.is_acked, 120))
            for it in ("close", "end"):
                old.ask("POST", f"/{it}/1")
                until(lambda: old.outgoing()[1][0] == f"{it}{'d' if it == 'close' else 'ed'}", 10)
        else:
            # The far side is there again, and the new node is quicker than the old one, which waits before it tries.
            old.down()
            far.up()
        new.send(far.address, text(4))
        until(new.is_acked)
        order = taken(far)
        if not is_drained:
            old.up()
            until(old.is_acked, 120)
            order += taken(far)
        for it in (old, new, far):
            it.down()
        tell(f"moved {name}: the application takes {order}", (order == [1, 2, 3, 4]) == is_drained)


def taken(node):
    """What an application takes now: the items of each inbox that were not consumed."""
    found = []
    for seq in re.findall(r"^in (\d+) ", node.ask("GET", "/show")[1], re.M):
        items = re.findall(rf"item {seq} (\d+) (\w+)", node.ask("GET", f"/inbox/{seq}?from=1&max=1000")[1])
        found += [int(bytes.fromhex(it)[3:-4]) for _, it in items]
        if items:
            node.ask("POST", f"/consume/{seq}?upto={items[-1][0]}")
    return found


class Pair:
    """A node that sends and one that receives, of which one goes on with a copy of its journal."""

    def __init__(self, room, name, grant="dfg"):
        self.sender, self.receiver = Node(room / name, 1, OTHERS + 1), Node(room / name, 2, OTHERS + 2)
        self.grant, self.copy = grant, room / name / "copy"

    def sends(self, *numbers):
        """Both run while these are sent; what came of each, and how the sender's sequences stand then."""
        self.receiver.up(self.grant)
        self.sender.up()
        said = [self.sender.send(self.receiver.address, text(it), 8) for it in numbers]
        until(self.sender.is_acked, 8)
        rows = {seq: (phase, accepted, len(acked)) for seq, (phase, accepted, acked) in self.sender.outgoing().items()}
        self.receiver.down()
        self.sender.down()
        return said, rows

    def keeps(self, node):
        shutil.copy(node.journal, self.copy)

    def goes_back(self, node):
        shutil.copy(self.copy, node.journal)


def copies(room, _):
    """Each row of the table of FLEET.md: what the nodes say, and what is lost. Nothing says that a copy is old."""
    pair = Pair(room, "receiver")
    pair.sends(1, 2, 3)
    pair.keeps(pair.receiver)
    pair.sends(4, 5, 6)
    pair.goes_back(pair.receiver)
    _, rows = pair.sends(7, 8)
    have = numbers(pair.receiver)
    tell(f"the receiver's, dfg: sent 1 to 8, at the sender {rows}; the inbox has {have}",
         have == [1, 2, 3] and all(accepted == acked for _, accepted, acked in rows.values()))

    pair = Pair(room, "loose", "loose")
    pair.sends(1, 2)
    pair.keeps(pair.receiver)
    pair.sends(3, 4)
    pair.goes_back(pair.receiver)
    _, rows = pair.sends(5)
    have = numbers(pair.receiver)
    tell(f"the receiver's, loose: sent 1 to 5, at the sender {rows}; the inbox has {have}", have == [1, 2, 5])

    pair = Pair(room, "sender")
    pair.sends(1, 2, 3)
    pair.keeps(pair.sender)
    pair.sends(4, 5, 6)
    pair.goes_back(pair.sender)
    said, rows = pair.sends(70, 80, 90, 100)
    have = numbers(pair.receiver)
    tell(f"the sender's: 70 80 90 100 get {said}, at the sender {rows}; the inbox has {have}",
         have == [1, 2, 3, 4, 5, 6, 100] and all(accepted == acked for _, accepted, acked in rows.values()))

    pair = Pair(room, "granted")
    pair.keeps(pair.receiver)
    pair.sends(1, 2)
    pair.goes_back(pair.receiver)
    said, rows = pair.sends(3, 4)
    have = {it: numbers(pair.receiver, it) for it in pair.receiver.inboxes()}
    tell(f"the receiver's, before it granted: 3 and 4 get {said}, at the sender {rows}; the inboxes are {have}",
         not any(set(have.get(it, [])) & {1, 2} for it in have))

    pair = Pair(room, "asked")
    pair.keeps(pair.sender)
    pair.sends(1, 2)
    pair.goes_back(pair.sender)
    said, rows = pair.sends(31, 41, 51)
    have = numbers(pair.receiver)
    tell(f"the sender's, before it asked: 31 41 51 get {said}, at the sender {rows}; the inbox has {have}",
         have == [1, 2, 51])
    other_partner(room)


def other_partner(room):
    """The receiver's copy is from before it granted, and another partner asks first: one identifier, two partners."""
    pair, third = Pair(room, "third"), Node(room / "third", 3, OTHERS + 3)
    pair.keeps(pair.receiver)
    pair.sends(1, 2)
    pair.goes_back(pair.receiver)
    pair.receiver.up()
    third.up()
    third.send(pair.receiver.address, text(101))
    until(third.is_acked, 8)
    third.down()
    pair.receiver.down()
    said, rows = pair.sends(3)
    pair.receiver.up()
    third.up()
    for it in (102, 103):
        third.send(pair.receiver.address, text(it))
    until(third.is_acked, 8)
    acked = third.is_acked()
    third.down()
    pair.receiver.down()
    have = numbers(pair.receiver)
    tell(f"the same, and another partner sends 101 102 103: 3 gets {said}, at its sender {rows}; the other has all "
         f"acknowledged: {acked}; the inbox has {have}", {it > 100 for it in have} == {False, True})


class Bridged:
    """Node 1, which sends what stands in the outbox, node 2, which receives it, and a bridge for each."""

    def __init__(self, room, script):
        room.mkdir(parents=True, exist_ok=True)
        self.room, self.script, self.database = room, script, kit.Database(room)
        self.database.ask((kit.BRIDGE / "bridge.sql").read_text())
        self.nodes = {it: Node(room, it, OTHERS + it) for it in (1, 2)}
        self.bridges, self.written = {}, 0

    def up(self):
        for it in (1, 2):
            self.nodes[it].up()
            self.bridge_up(it)

    def bridge_up(self, number):
        words = [PYTHON, "-B", self.script, number, self.nodes[number].folder / "wsrm.socket", self.database.dsn]
        self.bridges[number] = kit.started(words, self.room, self.log(number))

    def log(self, number):
        return self.room / f"bridge{number}.log"

    def kill(self, number):
        if self.bridges[number].poll() is None:
            kit.killed(self.bridges[number])
        self.bridge_up(number)

    def adds(self, rows):
        """More rows, in one transaction; whether they are there."""
        values = ", ".join(f"(1, '{self.nodes[2].address}', '<m>{self.written + it}</m>')" for it in range(1, rows + 1))
        there = self.database.ask(f"insert into wsrm_outbox (node, partner, payload) values {values}") is not None
        self.written += rows if there else 0
        return there

    def count(self, what):
        found = self.database.ask(f"select count(*) from {what}")
        return int(found[0]) if found else -1

    def ends(self):
        """Waits until all is there; what came, in order."""
        def is_over():
            for it in (1, 2):
                if self.bridges[it].poll() not in (None, 3):
                    self.bridge_up(it)
            return not self.count("wsrm_outbox where not sent") and self.count("wsrm_inbox") >= self.written

        until(is_over, 60)
        rows = self.database.ask("select convert_from(payload, 'UTF8') from wsrm_inbox order by node, seq, number")
        return [int(it[3:-4]) for it in rows]

    def down(self):
        for it in (1, 2):
            if self.bridges[it].poll() is None:
                kit.killed(self.bridges[it])
            self.nodes[it].down()
        self.database.down("fast")


def played(room, script, kills):
    """A bridge that is killed so often, with the nodes and the database now and then: what was lost, what came twice,
    whether all came in order, and how many rows there were."""
    bridged, counts = Bridged(room, script), {"bridges": 0, "nodes": 0, "databases": 0}
    bridged.up()
    begun = time.monotonic()
    while counts["bridges"] < kills:
        if bridged.count("wsrm_outbox where not sent") < 20:
            bridged.adds(10)
        time.sleep(random.uniform(0.1, 0.8))
        bridged.kill(random.choice((1, 2)))
        counts["bridges"] += 1
        if counts["bridges"] % 10 == 5:
            node = bridged.nodes[random.choice((1, 2))]
            node.down()
            node.up()
            counts["nodes"] += 1
        if counts["bridges"] % 25 == 20:
            bridged.database.down("immediate")
            bridged.database.up()
            counts["databases"] += 1
    came = bridged.ends()
    bridged.down()
    wanted = list(range(1, bridged.written + 1))
    lost, twice = len(set(wanted) - set(came)), len(came) - len(set(came))
    note(f"killed {counts}, {time.monotonic() - begun:.0f} s")
    return lost, twice, came == wanted, len(wanted)


def bridge(room, asked):
    lost, twice, exactly, rows = played(room, other_script(room, "bridge.py"), asked.kills)
    tell(f"the bridge: of {rows} rows lost {lost}, twice {twice}, {'' if exactly else 'not '}in order", exactly)


# Where the bridge waits, so that a kill comes between two of its steps.
SLOW = [("    comes = [int(it)", "    time.sleep(0.05)\n    comes = [int(it)"),
        ("    # Only what is in the database", "    time.sleep(0.05)\n    # Only what is in the database")]


def other_script(room, name, *changes):
    """The bridge with waits, and with other lines."""
    script = (kit.BRIDGE / "bridge.py").read_text()
    for old, new in [*SLOW, *changes]:
        if script.count(old) != 1:
            raise SystemExit(f"bench: bridge.py has not the one text {old!r}")
        script = script.replace(old, new)
    (room / name).write_text(script)
    return room / name


CURSOR_FIRST = """        upto = int(items[-1][2])
        db.execute("insert into wsrm_cursor values (%s, %s, %s) on conflict (node, seq) do update "
                   "set number = excluded.number", (NODE, seq, upto))
        ask("POST", f"/consume/{seq}?upto={upto}")
        time.sleep(0.05)
        with db.transaction():
"""


def bridges(room, asked):
    stops(room / "stops")
    plain = other_script(room, "without_numbers.py", ("&seq={seq}&number={number}", ""))
    lost, twice, _, rows = played(room / "plain", plain, asked.kills)
    tell(f"without seq and number: of {rows} rows lost {lost}, twice {twice}: it has some twice", twice > 0)
    early = other_script(room, "cursor_first.py", ("        with db.transaction():\n", CURSOR_FIRST))
    lost, twice, _, rows = played(room / "early", early, asked.kills)
    tell(f"cursor before rows: of {rows} rows lost {lost}, twice {twice}: it loses some", lost > 0)


def stops(room):
    """A second bridge, a row that is no XML, and journals that went back."""
    bridged = Bridged(room / "rows", kit.BRIDGE / "bridge.py")
    bridged.up()
    bridged.adds(5)
    tell("5 rows come", bridged.ends() == [1, 2, 3, 4, 5])
    words = [PYTHON, "-B", bridged.script, 2, bridged.nodes[2].folder / "wsrm.socket", bridged.database.dsn]
    second = subprocess.run([str(it) for it in words], capture_output=True, timeout=60)
    tell(f"a second bridge ends: {second.stderr.decode().strip()}", second.returncode == 1)
    bridged.database.ask("delete from wsrm_outbox where id < 5")
    bridged.database.ask("update wsrm_outbox set payload = 'no XML', sent = false, seq = null, number = null")
    bridged.adds(1)
    until(lambda: bridged.count("wsrm_outbox where refused is not null") == 1, 10)
    seen = bridged.database.ask("select id, sent, refused from wsrm_outbox order by id")
    tell(f"a row that is no XML holds up its partner: {seen}", len(seen) == 2 and seen[0].startswith("5|f|422"))
    bridged.database.ask("delete from wsrm_outbox where id = 5")
    tell("and is passed once it is deleted", bridged.ends() == [1, 2, 3, 4, 5, 6])
    bridged.down()
    for number in (1, 2):
        went_back(room / f"back{number}", number)


def went_back(room, number):
    """A node goes on with a copy of its journal from before 3 more messages."""
    bridged = Bridged(room, kit.BRIDGE / "bridge.py")
    bridged.up()
    node = bridged.nodes[number]
    bridged.adds(3)
    bridged.ends()
    node.down()
    shutil.copy(node.journal, room / "copy")
    node.up()
    bridged.adds(3)
    bridged.ends()
    node.down()
    kit.killed(bridged.bridges[number])
    shutil.copy(room / "copy", node.journal)
    node.up()
    bridged.bridge_up(number)
    bridged.adds(1)
    ended = until(lambda: bridged.bridges[number].poll() is not None, 20)
    said = bridged.log(number).read_text().splitlines()[-1:]
    tell(f"the journal of node {number} is of before 4 to 6: {said}", ended and bridged.bridges[number].poll() == 3)
    bridged.down()


def does(*words):
    return subprocess.run([str(it) for it in words], check=True, capture_output=True, text=True).stdout.strip()


class Mirror:
    """The disk of machine A, each write of which is on its own image and on that of machine B before it returns."""

    def __init__(self, room):
        self.room, self.host, self.port, self.loop = room, "127.0.0.3", OTHERS + 9, "/dev/null"
        for name in ("a", "b"):
            with open(room / f"{name}.img", "wb") as file:
                file.truncate(64 << 20)
        does("mkfs.ext4", "-q", "-F", room / "a.img")
        shutil.copy(room / "a.img", room / "b.img")

    def daemon(self, name, *words):
        return kit.started(["qemu-storage-daemon", *words], self.room, self.room / f"{name}.log")

    def up(self):
        """Both machines, and the file system mounted at A."""
        self.b = self.daemon("b", "--blockdev", f"driver=file,node-name=f,filename={self.room}/b.img", "--nbd-server",
                             f"addr.type=inet,addr.host={self.host},addr.port={self.port}", "--export",
                             "nbd,id=e,node-name=f,writable=on,name=disk")
        until(lambda: kit.listens(self.port), 10)
        disk = self.room / "disk"
        disk.touch()
        quorum = '{"driver":"quorum","node-name":"q","vote-threshold":2,"children":["a","b"]}'
        self.a = self.daemon("a", "--blockdev", f"driver=file,node-name=a,filename={self.room}/a.img", "--blockdev",
                             f"driver=nbd,node-name=b,server.type=inet,server.host={self.host},server.port={self.port},"
                             "export=disk", "--blockdev", quorum, "--export",
                             f"fuse,id=x,node-name=q,mountpoint={disk},writable=on")
        if not until(lambda: disk.stat().st_size, 10):
            raise SystemExit(f"bench: {(self.room / 'a.log').read_text()[-400:]}")
        self.loop = self.mounted(disk)
        return self.room / "mnt"

    def mounted(self, image):
        (self.room / "mnt").mkdir(exist_ok=True)
        loop = does("losetup", "-f", "--show", image)
        does("mount", "-t", "ext4", loop, self.room / "mnt")
        return loop

    def lose_a(self):
        """Machine A is gone; B mounts its own image."""
        self.unmounted()
        kit.killed(self.b)
        self.loop = self.mounted(self.room / "b.img")

    def unmounted(self):
        for words in (["umount", "-l", "mnt"], ["losetup", "-d", self.loop], ["umount", "-l", "disk"]):
            subprocess.run(words, cwd=self.room, capture_output=True)

    def resync(self):
        self.unmounted()
        shutil.copy(self.room / "b.img", self.room / "a.img")


def mirror(room, _):
    """8 times: machine A is killed within a message, its node and its disk; B goes on with its own image."""
    kit.needs("qemu-storage-daemon", "qemu-system-common")
    both, sender = Mirror(room), Node(room, 1, OTHERS + 1).up()
    try:
        rounds(both, sender)
    finally:
        kit.kill_all()
        both.unmounted()


def rounds(both, sender):
    node = None
    accepted, to = [], f"http://127.0.0.1:{OTHERS + 2}/"
    for turn in range(8):
        place = both.up()
        node = node or Node(place, 2, OTHERS + 2)
        node.up()
        is_over = threading.Event()

        def send():
            while not is_over.is_set():
                if isinstance(sender.send(to, text(len(accepted) + 1), 10), tuple):
                    accepted.append(len(accepted) + 1)
                until(lambda: is_over.is_set() or sender.is_acked(), 10)

        work = threading.Thread(target=send)
        work.start()
        time.sleep(random.uniform(2, 4))
        # All of machine A at one moment.
        node.process.send_signal(signal.SIGSTOP)
        kit.killed(both.a)
        node.down()
        is_over.set()
        work.join()
        acked = {it for _, _, found in sender.outgoing().values() for it in found}
        both.lose_a()
        have = numbers(node)
        node.up()
        until(sender.is_acked, 120)
        node.down()
        after = numbers(node)
        missing = acked - set(have)
        tell(f"round {turn + 1}: accepted {len(accepted)}, acknowledged {len(acked)}, not at B {len(missing)}, "
             f"there at the end {len(after)}", not missing and after == accepted)
        both.resync()
