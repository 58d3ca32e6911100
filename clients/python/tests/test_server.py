"""The client over connections: answers, refusals of a door, connections that are cut, and what is found by `recall`. Where the program has no `serve` it is
skipped."""
import io
import json
import os
import signal
import socket
import subprocess
import sys
import threading
import time
import unittest
from contextlib import redirect_stderr

from common import PROGRAM, TOP, Between, often, published, survey
from hitchseason import Cut, Failed, Refused, connect, server
from hitchseason.answers import Left
from hitchseason.transport import transport_of

sys.path.insert(0, f"{TOP}/tests/lib")
import places  # noqa: E402,F401
from served import free_ports, is_listened_at  # noqa: E402

WORKERS = 2


def has_serve():
    said = subprocess.run([PROGRAM, "serve", "no catalog", "no key", "--port", "7000", "--each", "1"], stdin=subprocess.DEVNULL, capture_output=True, timeout=60)
    return said.returncode == 3


class Proxy(Between):
    """Hands bytes through, and cuts a connection where it is told: before a line that asks, behind it, within it, or behind its reply; of lines that
    ask it lets so many through before."""

    def __init__(self, port):
        self.cut, self.through, self.connections = None, 0, 0
        super().__init__(port)

    def taken(self):
        self.connections += 1
        return ()

    def serve(self, link):
        try:
            self.pass_on(link)
        except OSError:
            link.close()

    def pass_on(self, link):
        with link, socket.create_connection(("127.0.0.1", self.to)) as to, link.makefile("rb") as lines, to.makefile("rb") as replies:
            for line in lines:
                mode = self.cut if line.startswith(b"ask") and self.through == 0 else None
                self.through -= self.through > 0 and line.startswith(b"ask")
                self.cut = None if mode else self.cut
                if mode != "before":
                    to.sendall(line.rpartition(b" + ")[0] if mode == "within" else line)
                reply = replies.readline() if mode in ("answered", None) else b""
                if mode:
                    # A reset would take away replies that weren't read yet, where lines are still being sent.
                    link.shutdown(socket.SHUT_WR)
                    lines.read()
                    return
                link.sendall(reply)


class Hears(io.StringIO):
    """Standard error: behind the first that is said something is done."""

    def __init__(self, call):
        self.call = call
        super().__init__()

    def write(self, text):
        super().write(text)
        call, self.call = self.call, lambda: None
        call()


class Clock:
    """In the place of time: it goes by what is slept alone, and does something at a time."""

    def __init__(self, at, call):
        self.now, self.at, self.call = 0.0, at, call

    def monotonic(self):
        return self.now

    def sleep(self, seconds):
        before, self.now = self.now, self.now + seconds
        if self.at is not None and before < self.at <= self.now:
            self.call()


class Silent(Between):
    """Takes a line from each connection, or hands so many lines' replies of a service through, and then says nothing."""

    def __init__(self, to=None, through=0):
        self.through, self.silent = through, threading.Event()
        super().__init__(to)

    def taken(self):
        return ()

    def serve(self, link):
        with link, link.makefile("rb") as lines:
            if self.through:
                with socket.create_connection(("127.0.0.1", self.to)) as to, to.makefile("rb") as replies:
                    for _ in range(self.through):
                        to.sendall(lines.readline())
                        link.sendall(replies.readline())
            lines.readline()
            self.silent.set()
            lines.read()


@unittest.skipUnless(has_serve(), "the program has no serve")
class Served(unittest.TestCase):
    def setUp(self):
        self.place = survey(capacity=4000)
        self.public = published(self.place)
        self.port = free_ports(WORKERS)
        self.start()
        self.proxy = Proxy(self.port)

    def start(self):
        words = ["serve", "catalog.json", "key", "--port", str(self.port), "--workers", str(WORKERS), "--each", "1000000"]
        self.service = subprocess.Popen([PROGRAM, *words], cwd=self.place.folder, stdin=subprocess.DEVNULL)
        until = time.monotonic() + 60
        while not is_listened_at(self.port) and time.monotonic() < until:
            time.sleep(0.02)

    def tearDown(self):
        self.proxy.close()
        self.service.kill()
        self.service.wait()
        self.place.__exit__()

    def client(self, analyst="mia", port=None):
        return connect("127.0.0.1", port or self.proxy.port, analyst, "labour", public=self.public)

    def test_answers(self):
        """The same calls as over a folder, each over one connection."""
        client = self.client()
        answer = client.count("persons", "p.age <= 30", eps=1)
        self.assertEqual((answer.number, answer.taken, answer.left.spent), (0, 10**6, 10**6))
        self.assertEqual(client.recall(0), answer.value)
        before = self.proxy.connections
        self.assertEqual(client.median("persons", "income", 0, 5000, charge=1).numbers[0], 1)
        self.assertEqual(self.proxy.connections, before + 1)
        groups = client.histogram("areas", eps=1)
        self.assertEqual(len(groups), 5)
        self.assertIn("number", str(client.mean("persons", "income", 0, 5000, charge=1)))
        other = connect(f"127.0.0.1:{self.port + 1}", "tom", "labour", public=self.public)
        self.assertEqual(other.left().spent, client.left().spent)
        with self.assertRaises(Refused):
            other.recall(0)

    def test_words(self):
        with self.assertRaises(Failed) as caught:
            connect("127.0.0.1", self.port, "mia", "labour")
        self.assertIn("public", str(caught.exception))
        with self.assertRaises(Refused):
            self.client("nobody")
        with self.assertRaises(Failed):
            connect("no/folder", "mia", "labour")
        # With its parentheses the longest program is too long.
        longest = "1" + 15_999 * " "
        self.place.client().forecast("ask", longest, eps=1)
        with self.assertRaises(Refused) as caught:
            self.client().forecast("ask", longest, eps=1)
        self.assertIn("parentheses", str(caught.exception))

    def test_cut(self):
        """An ask is answered, found by `recall`, or known to be none; it is never sent twice."""
        client, expected = self.client(), 0
        for mode in ("before", "behind", "answered", None):
            self.proxy.cut = mode
            try:
                answer = client.count("persons", eps=1)
            except Failed as fault:
                self.assertEqual(mode, "before")
                self.assertIn("nothing is charged", str(fault))
                continue
            self.assertEqual((answer.number, answer.recalled), (expected, mode is not None))
            self.assertEqual(client.recall(expected), answer.value)
            expected += 1
        self.assertEqual(client.left().records, 2 * expected)
        # What came of a line that was cut isn't another program: nothing is asked.
        self.proxy.cut = "within"
        with self.assertRaises(Failed):
            client.ask("size persons + 7", eps=1)
        self.assertEqual(client.left().records, 2 * expected)
        self.proxy.cut = "answered"
        with self.assertRaises(Cut) as caught:
            client.histogram("areas", eps=1)
        self.assertEqual(len(caught.exception.numbers), 1)

    def cut_at(self, mode, through):
        self.proxy.cut, self.proxy.through = mode, through

    def test_partly_heard(self):
        """A mean whose sum was heard, and a histogram of which three parts were heard and the fourth was answered: nothing that was paid is lost."""
        client = self.client()
        self.cut_at("before", 1)
        with self.assertRaises(Cut) as caught:
            client.mean("persons", "income", 0, 5000, charge=1)
        (answer,) = caught.exception.answers
        self.assertEqual((answer.number, answer.value, answer.recalled), (0, client.recall(0), False))
        self.assertEqual([ask.sent for ask in caught.exception.unasked], ["size persons"])
        self.cut_at("answered", 3)
        with self.assertRaises(Cut) as caught:
            client.histogram("areas", eps=1)
        known = [(answer.ask.part[1], answer.number, answer.recalled) for answer in caught.exception.answers]
        self.assertEqual(known, [("north", 1, False), ("south", 2, False), ("east", 3, False), ("west", 4, True)])
        self.assertEqual([answer.value for answer in caught.exception.answers], [client.recall(number) for number in range(1, 5)])
        self.assertEqual(([ask.part[1] for ask in caught.exception.unasked], client.left().records), (["capital"], 10))
        # All was answered, one before the last reply.
        self.cut_at("answered", 4)
        groups = client.histogram("areas", eps=1)
        self.assertEqual([answer.recalled for answer in groups.answers.values()], [False] * 4 + [True])
        self.assertEqual(groups.numbers, [5, 6, 7, 8, 9])

    def test_heard_before_an_interrupt(self):
        """Ctrl-C behind three replies of five: another analyst has asked meanwhile, and the three are told as they were heard."""
        client = self.client(port=self.port)
        client.learn()
        opened = client.transport.opened

        def interrupting(*words):
            link = opened(*words)
            hear, heard, say = link.hear, [], link.say
            link.say = lambda line: None if " west " in line or " capital " in line else say(line)

            def hears():
                if len(heard) == 4:
                    self.client("tom", self.port + 1).count("persons", eps=1)
                    raise KeyboardInterrupt
                heard.append(hear())
                return heard[-1]

            link.hear, client.transport.opened = hears, opened
            return link

        client.transport.opened = interrupting
        with self.assertRaises(KeyboardInterrupt):
            client.histogram("areas", eps=1)
        with self.assertRaises(Cut) as caught:
            client.recover()
        known = [(answer.ask.part[1], answer.number, answer.recalled) for answer in caught.exception.answers]
        self.assertEqual(known, [("north", 0, False), ("south", 1, False), ("east", 2, False)])
        self.assertEqual([ask.part[1] for ask in caught.exception.unasked], ["west", "capital"])

    def test_search_goes_on(self):
        """A median whose third step was cut: two steps are paid, and the call goes on with the third, so that there are 8 numbers in all; it may have
        taken what was left."""
        client = self.client()
        self.cut_at("before", 2)
        with self.assertRaises(Failed) as caught:
            client.median("persons", "income", 0, 5000, charge=1)
        self.assertEqual([answer.number for answer in caught.exception.answers], [0, 1])
        said = "The ask wasn't reserved: nothing is charged for it, and it may be asked again. Before that 2 asks of this call were answered and are paid"
        self.assertIn(said, str(caught.exception))
        # Without what is paid there is enough for the rest, to the millionth.
        client.left = lambda: Left("labour", 250_000, 1_000_000, 4, "")
        found = client.median("persons", "income", 0, 5000, charge=1, resume=caught.exception.answers)
        self.assertEqual((found.numbers, found.taken), (list(range(8)), 10**6))
        client.left = lambda: Left("labour", 250_001, 1_000_000, 4, "")
        with self.assertRaises(Refused) as refused:
            client.median("persons", "income", 0, 5000, charge=1, resume=caught.exception.answers)
        self.assertIn("its 6 asks take up to 0.75 together", str(refused.exception))
        del client.left
        self.assertEqual(client.left().records, 16)

    def test_behind_another(self):
        """The worker serves another connection: that is said once, and past the limit nothing was asked. What was cut meanwhile is known later."""
        told, server.TOLD_AFTER = server.TOLD_AFTER, 0.2
        self.addCleanup(setattr, server, "TOLD_AFTER", told)
        for wait, said in ((3, f"port {self.port} serves another connection; waiting\n"), (0.1, "")):
            client = connect("127.0.0.1", self.port, "mia", "labour", public=self.public, wait=wait)
            with socket.create_connection(("127.0.0.1", self.port)) as other, other.makefile("rb") as replies:
                other.sendall(b"hello tom\n")
                self.assertEqual(replies.readline(), b"hello tom\n")
                with redirect_stderr(io.StringIO()) as stderr, self.assertRaises(Failed) as caught:
                    client.count("persons", eps=1)
                self.assertEqual(str(caught.exception), f"127.0.0.1, port {self.port}, has served another connection for {wait} s. Nothing was asked.")
                self.assertEqual(stderr.getvalue(), said)
            self.assertIsNone(client.pending)
            # Where no limit is said, or it isn't reached.
            for patient in (self.client(port=self.port), connect("127.0.0.1", self.port, "mia", "labour", public=self.public, wait=60)):
                other = socket.create_connection(("127.0.0.1", self.port))
                other.sendall(b"hello tom\n")
                other.recv(100)
                with redirect_stderr(Hears(other.close)) as stderr:
                    before = patient.left().records
                self.assertEqual((stderr.getvalue(), before), (f"port {self.port} serves another connection; waiting\n", 0))

    def test_kill(self):
        """A service that is killed and started anew while the client waits for it."""
        client = self.client()
        for number in range(often(2, 20)):
            self.assertEqual(client.count("persons", eps=1).number, number)
            self.service.kill()
            self.service.wait()
            late = threading.Timer(1, self.start)
            late.start()
            self.assertEqual(client.left().records, 2 * number + 2)
            late.join()

    def test_door(self):
        """By a login, ssh being a program that runs a door: a key that isn't mia's, a refusal of the door, and an ask."""
        ssh = f"{self.place.folder}/ssh"
        with open(ssh, "w") as file:
            file.write(f"#!/bin/sh\nexec {TOP}/tools/door tom {self.port} {WORKERS} --catalog {self.place.folder}/catalog.json --deepest 0\n")
        os.chmod(ssh, 0o755)
        login = lambda analyst: connect("ssh://tom@there", analyst, "labour", public=self.public, ssh=(ssh,))
        with self.assertRaises(Refused) as caught:
            login("mia").count("persons", eps=1)
        self.assertEqual(caught.exception.reply, "door hello: this key speaks for tom alone")
        client = login("tom")
        self.assertEqual(client.count("persons", eps=1).number, 0)
        with self.assertRaises(Refused) as caught:
            client.count("persons", "p.age <= 30", eps=1)
        self.assertTrue(caught.exception.reply.startswith("door deep 1: "))
        self.assertEqual(client.left().records, 2)

    def test_destinations(self):
        """What ssh is called with, by the place."""
        for place, words in (
            ("ssh://stats", "-T -- stats"),
            ("ssh://tom@stats.example", "-T -- tom@stats.example"),
            ("ssh://tom@stats.example:2222", "-T -p 2222 -- tom@stats.example"),
            ("ssh://stats.example:1/", "-T -p 1 -- stats.example"),
            ("ssh://tom@[::1]:65535", "-T -p 65535 -- tom@::1"),
            ("ssh://[fe80::1]", "-T -- fe80::1"),
        ):
            self.assertEqual(transport_of(place).command, ["ssh", *words.split()])
        self.assertEqual(transport_of("ssh://a:2", words=("-i", "key")).command, "ssh -T -p 2 -i key -- a".split())
        for place in ("ssh://a:0", "ssh://a:65536", "ssh://a:x", "ssh://a:", "ssh://", "ssh://tom@", "ssh://::1", "ssh://a:1:2"):
            with self.assertRaises(Failed):
                transport_of(place)

    def test_no_way(self):
        failing = f"{self.place.folder}/ssh"
        with open(failing, "w") as file:
            file.write("#!/bin/sh\nexit 255\n")
        os.chmod(failing, 0o755)
        with self.assertRaises(Failed) as caught:
            connect("ssh://nowhere", "tom", "labour", public=self.public, ssh=(failing,)).left()
        self.assertIn("ssh failed", str(caught.exception))

    def test_commands(self):
        """tools/left and tools/askparts over an address."""
        ran = subprocess.run([f"{TOP}/tools/left", f"127.0.0.1:{self.port}", "labour", "--public", self.public, "--json"], check=True, stdout=subprocess.PIPE)
        self.assertEqual(json.loads(ran.stdout)["records"], 0)

    def interrupted(self, silent, tool, *words, given=""):
        """What a tool says, and its status, when Ctrl-C ends it where it has no reply."""
        ran = subprocess.Popen(
            [f"{TOP}/tools/{tool}", f"127.0.0.1:{silent.port}", *words, "--public", self.public], stdin=subprocess.PIPE, stdout=subprocess.PIPE,
            stderr=subprocess.PIPE, text=True, preexec_fn=lambda: signal.signal(signal.SIGINT, signal.default_int_handler),
        )  # fmt: skip
        threading.Timer(0.0, lambda: (silent.silent.wait(60), ran.send_signal(signal.SIGINT))).start()
        out, err = ran.communicate(given, timeout=90)
        silent.close()
        return ran.returncode, out, err

    def test_interrupted(self):
        """Ctrl-C where the first reply is waited for, so that nothing was asked; and behind an ask."""
        program = f"{self.place.folder}/program"
        with open(program, "w") as file:
            file.write("size persons")
        asks = ("mia", "labour", "areas", "1", program)
        for tool, words, given in (("left", ("labour",), ""), ("askparts", asks, ""), ("shell", ("mia", "labour"), "\\b\n")):
            self.assertEqual(self.interrupted(Silent(), tool, *words, given=given), (130, "", f"tools/{tool}: given up; nothing was asked\n"))
        # A hello, a `left` and a hello come before the line that asks: where there is no record nothing is recalled.
        status, out, err = self.interrupted(Silent(self.port, 3), "askparts", *asks)
        self.assertEqual((status, out), (130, ""))
        self.assertTrue(err.startswith("tools/askparts: given up; what was asked may be answered and paid: "), err)

    def test_askparts_cut(self):
        """What is known is told in each form, the keys that aren't are named, and the status is 1."""
        words = [f"{TOP}/tools/askparts", f"127.0.0.1:{self.proxy.port}", "mia", "labour", "areas", "1", "-", "--public", self.public]
        for form in ("--json", "--csv", None):
            self.cut_at("before", 3)
            ran = subprocess.run(words + ([form] if form else []), input="size persons", capture_output=True, text=True, timeout=60)
            self.assertEqual(ran.returncode, 1, ran.stderr)
            self.assertIn("Not reserved, so that nothing is charged for them: areas west, areas capital.", ran.stderr)
            if form == "--json":
                found = json.loads(ran.stdout)
                self.assertEqual((list(found["groups"]), found["missing"]), (["north", "south", "east"], ["west", "capital"]))
            elif form == "--csv":
                self.assertEqual([line.split(",")[0] for line in ran.stdout.splitlines()[1:]], ["north", "south", "east", "west", "capital"])
                self.assertEqual(ran.stdout.splitlines()[4:], ["west,,,,,,,,,", "capital,,,,,,,,,"])
            else:
                self.assertEqual([line.split()[0] for line in ran.stdout.splitlines()[:-1]], ["north", "south", "east"])
                self.assertTrue(ran.stdout.endswith("left; without an answer: west, capital\n"), ran.stdout)


class Keeps(Between):
    """Keeps its first connection for so long, and ends it; behind it each is told the same, or ended, too."""

    def __init__(self, seconds, said):
        self.seconds, self.said = [seconds], said
        super().__init__(None)

    def taken(self):
        return (self.seconds.pop() if self.seconds else None,)

    def serve(self, link, seconds):
        with link, link.makefile("rb") as lines:
            if seconds is not None:
                time.sleep(seconds)
            elif self.said:
                for _ in lines:
                    link.sendall(self.said)


class Says(Between):
    """What listens is another program: it says the same to whatever comes, one after the other, or what a function says of a line. What came is kept."""

    def __init__(self, said, port=0):
        self.said, self.lines = said, []
        super().__init__(None, port)

    def taken(self):
        return ()

    def serve(self, link):
        with link, link.makefile("rb") as lines:
            for line in lines:
                self.lines.append(line)
                link.sendall(self.said_to(line))

    def said_to(self, line):
        if callable(self.said):
            return self.said(line)
        return self.said if isinstance(self.said, bytes) else b"bye\n" if line == b"bye\n" else next(self.said)


class OtherPrograms(unittest.TestCase):
    """At the port listens something else."""

    @classmethod
    def setUpClass(cls):
        cls.place = survey(capacity=10)
        cls.public = published(cls.place)

    @classmethod
    def tearDownClass(cls):
        cls.place.__exit__()

    def fault(self, said, call):
        """What is raised, and which lines came."""
        other = Says(said)
        try:
            with self.assertRaises((Failed, Refused)) as caught:
                call(connect("127.0.0.1", other.port, "mia", "labour", public=self.public))
        finally:
            other.close()
        return caught.exception, other.lines, f"127.0.0.1, port {other.port},"

    def test_no_service(self):
        web = b"HTTP/1.0 400 Bad\r\nServer: web\r\n\r\n"
        for said, told in (
            (web, "`HTTP/1.0 400 Bad`"),
            (b"\n", "an empty line"),
            (b"SSH-2.0-\x1b[31mred\r\n", "`SSH-2.0-\\x1b[31mred`"),
            (b"n" * 100 + b"\n", f"`{'n' * 58}..`"),
            (b"left labour\n", "`left labour`"),
            (b"no entry\n", "`no entry`"),
        ):
            fault, lines, where = self.fault(said, lambda client: client.left())
            self.assertIsInstance(fault, Failed)
            self.assertEqual(str(fault), f"What answers at {where} is no hitchseason service (it said {told}). Nothing was asked.")
            self.assertEqual(lines, [b"left labour\n"])
        for call in (lambda client: client.count("persons", eps=1), lambda client: client.recall(0)):
            fault, lines, _ = self.fault(web, call)
            self.assertIn("is no hitchseason service", str(fault))
            self.assertEqual(len(lines), 1)

    def test_lying_replies(self):
        """Control characters, numbers of over 40 digits and lines without an end are no replies, and none of them is told as it came."""
        recall = lambda client: client.recall(0)
        for said, call, told in (
            ([b"hello mia\n", b"recall 0 answer " + b"9" * 41 + b" 2\n"], recall, f"recall 0 answer {'9' * 40}.. 2"),
            ([b"hello mia\n", b"no 60 \x1b]0;x\x07\xc2\x9b31m 2\n"], recall, r"no 60 \x1b]0;x\x07\xc2\x9b31m 2"),
            ([b"left 0 " + b"9" * 5000 + b" 2\n"], lambda client: client.left(), f"(it said `left 0 {'9' * 40}.. 2`)"),
            ([b"hello mia\n", b"x" * 20_000], recall, "a line of over 16384 bytes came, which is no reply"),
            ([b"x" * 20_000], lambda client: client.left(), "a line of over 16384 bytes came, which is no reply. Nothing was asked."),
        ):
            begun = time.monotonic()
            fault, _, _ = self.fault(iter(said), call)
            self.assertIn(told, str(fault))
            self.assertTrue(str(fault).isprintable(), str(fault))
            self.assertLess(time.monotonic() - begun, 10)

    def recalled_by(self, records, call, budget=10**15):
        """Which numbers are recalled, and how it ends, of a server that recalls whatever is asked for, ends a connection that asks, and has so many records
        one after the other."""
        records = iter(records)
        told = [next(records)]

        def reply(line):
            word, *words = line.split()
            if word == b"ask":
                told[0] = next(records)
                return b"door closed: the service ended\n"
            if word == b"recall":
                return b"recall %s answer 5 9\n" % words[1]
            if word != b"left":
                return line
            if asked() and asked()[-1] not in seen:
                seen.add(asked()[-1])
                told[0] = next(records, told[0])
            return b"left 0 %d %d\n" % (budget, told[0])

        other, seen = Says(reply), set()
        asked = lambda: [int(line.split()[2]) for line in other.lines if line.startswith(b"recall")]
        client = connect("127.0.0.1", other.port, "mia", "labour", public=self.public)
        try:
            call(client)
            said = f"next {client.next}"
        except (Failed, Cut) as fault:
            said = str(fault)
        other.close()
        return asked(), said

    def test_recalls_have_an_end(self):
        """No number is asked for that can't be there, by the records that are told and by the room for them, which is 10. Of nine records five at least are of
        numbers, where none is of a grant."""
        more = "there are more records than there is room for: what answers is no hitchseason service, or its catalog is another."
        learn = lambda client: client.learn()
        for records, budget, recalled, said in (
            ([0], 10**15, [], "next 0"),
            ([9], 10**15, range(5, 9), "next 9"),
            ([9, 10**30], 10**15, range(5, 10), more),
            ([10], 10**15, range(5, 10), "next 10"),
            ([10**30], 10**15, [], more),
            ([3], 10**15 + 1, range(3), "next 3"),
            ([10**30], 10**15 + 1, range(10), more),
        ):
            self.assertEqual(self.recalled_by(records, learn, budget), (list(recalled), said), records)
        # Behind an ask that was cut.
        recalled, said = self.recalled_by([0, 3], lambda client: client.count("persons", eps=1))
        self.assertEqual((recalled, "Of 1 asks the analyst has 3 new reservations" in said), ([0, 1, 2], True), said)

    def test_noise_of_a_login(self):
        """What a login says on its standard error has no control characters when it is told."""
        ssh, said = f"{self.place.folder}/noisy", io.StringIO()
        with open(ssh, "w") as file:
            file.write("#!/bin/sh\nprintf 'a \\033[31mred\\302\\23331m\\r\\n' >&2\nread line\necho 'left 0 20000000 0'\nread line\necho bye\n")
        os.chmod(ssh, 0o755)
        with redirect_stderr(said):
            self.assertEqual(connect("ssh://there", "mia", "labour", public=self.public, ssh=(ssh,)).left().records, 0)
        self.assertEqual(said.getvalue(), "a \\x1b[31mred\\x9b31m\n")

    def test_waiting(self):
        """A service that isn't there: that it is waited for is told once, after a second, and not where it comes before."""
        kept = server.PATIENCE, server.time
        self.addCleanup(lambda: (setattr(server, "PATIENCE", kept[0]), setattr(server, "time", kept[1])))
        server.PATIENCE = 2.5
        for ready, told in ((None, True), (1.8, True), (0.3, False)):
            port, others, said = free_ports(1), [], io.StringIO()
            server.time = Clock(ready, lambda port=port, others=others: others.append(Says(b"left 0 20000000 0\n", port)))
            client = connect("127.0.0.1", port, "mia", "labour", public=self.public)
            with redirect_stderr(said):
                if ready:
                    self.assertEqual(client.left().records, 0)
                else:
                    with self.assertRaises(Failed) as caught:
                        client.left()
                    self.assertIn(f"127.0.0.1, port {port}, can't be reached", str(caught.exception))
                    self.assertGreater(server.time.now, 2.5)
            self.assertEqual(said.getvalue(), f"waiting for 127.0.0.1, port {port}, up to 2.5 s\n" if told else "")
            for other in others:
                other.close()

    def test_ends_behind_another(self):
        """A service ends while it serves another connection, which took longer than one that isn't there is waited for: it is waited for from there on."""
        kept = server.PATIENCE, server.TOLD_AFTER
        self.addCleanup(lambda: (setattr(server, "PATIENCE", kept[0]), setattr(server, "TOLD_AFTER", kept[1])))
        server.PATIENCE = 1
        for keeps, answers, server.TOLD_AFTER in ((1.5, True, 0.2), (0, False, kept[1])):
            other = Keeps(keeps, b"left 0 20000000 0\n" if answers else None)
            client = connect("127.0.0.1", other.port, "mia", "labour", public=self.public)
            said = io.StringIO()
            with redirect_stderr(said):
                if answers:
                    self.assertEqual(client.left().records, 0)
                else:
                    with self.assertRaises(Failed):
                        client.left()
            self.assertEqual("serves another connection" in said.getvalue(), answers)
            other.close()

    def test_hello_refused(self):
        """By another connection than the one by which the next number was learnt: nothing was asked, and the client goes on."""
        replies = iter([b"hello mia\n", b"left 0 20000000 0\n", b"no 12 1\n", b"left 0 20000000 0\n"])
        other = Says(replies)
        client = connect("127.0.0.1", other.port, "mia", "labour", public=self.public)
        client.learn()
        with self.assertRaises(Refused) as caught:
            client.count("persons", eps=1)
        self.assertEqual((str(caught.exception), client.pending), ("no 12 1: nothing was asked.", None))
        self.assertEqual(client.left().records, 0)
        other.close()

    def test_refusals_of_a_service(self):
        """A line of the protocol is told as it was."""
        for said, call, told in (
            (b"no 12 1\n", lambda client: client.recall(0), "no 12 1: nothing was asked."),
            (b"no 12 1\n", lambda client: client.left(), "no 12 1: the analyst"),
            (b"door hello: this key speaks for tom alone\n", lambda client: client.recall(0), "door hello: this key speaks for tom alone: nothing was asked."),
        ):
            fault, _, _ = self.fault(said, call)
            self.assertTrue(str(fault).startswith(told), fault)


if __name__ == "__main__":
    unittest.main()
