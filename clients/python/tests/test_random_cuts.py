"""Connections that are cut at random bytes, both ways: each ask is answered once, as what it is, or known to be none. Where the program has no
`serve` it is skipped."""
import hashlib
import random
import re
import select
import socket
import struct
import sys
import threading
import unittest
from collections import Counter

import test_server
from common import PROGRAM, TOP, Between, often, survey
from hitchseason import Cut, Failed, connect, server

sys.path.insert(0, f"{TOP}/tools/lib")
from catalog import read  # noqa: E402
from journal import book_of, contents, header  # noqa: E402

ROWS = 1000
# The noise of this EPS is 0, but for once in 10^434: a value tells its program.
EPS = 1000
ASKED = re.compile(rb"^ask labour 1000 \(size persons \+ (\d+)\)$", re.M)


class Cutter(Between):
    """Hands bytes through, and cuts so many of its connections: where so many bytes went to the service, or to the client, by a reset or an end. It
    keeps what clients sent."""

    def __init__(self, port, seed, share=0.7, most=300):
        self.rng, self.share, self.most, self.cuts = random.Random(seed), share, most, 0
        self.sent, self.lock = [], threading.Lock()
        super().__init__(port)

    def taken(self):
        with self.lock:
            cut = self.rng.random() < self.share
            limits = [self.rng.randrange(self.most), 10**9] if cut else [10**9, 10**9]
            self.rng.shuffle(limits)
            return limits, self.rng.random() < 0.5

    def serve(self, link, limits, reset):
        sent = bytearray()
        with self.lock:
            self.sent.append(sent)
        try:
            with link, socket.create_connection(("127.0.0.1", self.to)) as to:
                for one in (link, to):
                    one.setsockopt(socket.IPPROTO_TCP, socket.TCP_NODELAY, 1)
                if self.pass_on(link, to, limits, sent):
                    self.cuts += 1
                    if reset:
                        for one in (link, to):
                            one.setsockopt(socket.SOL_SOCKET, socket.SO_LINGER, struct.pack("ii", 1, 0))
        except OSError:
            pass

    @staticmethod
    def pass_on(link, to, limits, sent):
        """Whether it ends by a cut."""
        out, back = limits
        while True:
            ready = select.select([link, to], [], [])[0]
            if link in ready:
                data = link.recv(65_536)
                sent += data
                to.sendall(data[:out])
                out -= len(data)
            if to in ready:
                said = to.recv(65_536)
                link.sendall(said[:back])
                back -= len(said)
            if out < 0 or back < 0:
                return True
            if (link in ready and not data) or (to in ready and not said):
                return False


@unittest.skipUnless(test_server.has_serve(), "the program has no serve")
class RandomCuts(unittest.TestCase):
    start, tearDown = test_server.Served.start, test_server.Served.tearDown

    def setUp(self):
        test_server.Served.setUp(self)
        self.pause, server.PAUSE = server.PAUSE, 0.01
        self.addCleanup(setattr, server, "PAUSE", self.pause)

    def client(self, analyst, port):
        return connect("127.0.0.1", port, analyst, "labour", public=self.public)

    def asks(self, analyst, cutter, numbers, told):
        """Each number asked as a program of its own; where the client says that nothing was asked, the test asks again. TOLD has (value, number, how)."""
        client = self.client(analyst, cutter.port)
        for number in numbers:
            calls = 0
            while True:
                calls += 1
                try:
                    answer = client.ask(f"size persons + {number}", eps=EPS)
                    break
                except Failed:
                    if client.pending is not None:
                        raise
                except Cut:
                    # Its recall was cut as well: nothing new is asked until it is known.
                    answer = self.recovered(client)
                    if answer is not None:
                        break
            told[number] = (answer.value, answer.number, answer.recalled, calls, analyst)

    def recovered(self, client):
        while True:
            try:
                (answer,) = client.recover()
                return answer
            except Failed:
                return None
            except Cut as cut:
                self.assertIsNone(cut.numbers)
                self.assertIsNotNone(client.pending)

    def test_random_cuts(self):
        """Two analysts at once, a worker each: none of their asks is lost, asked twice, or answered by another's number."""
        many, told, faults = often(100, 500), {}, []
        cutters = [Cutter(self.port + worker, seed=worker) for worker in range(2)]

        def of(analyst, cutter, numbers):
            try:
                self.asks(analyst, cutter, numbers, told)
            except BaseException as fault:
                faults.append(fault)

        threads = []
        for worker, analyst in enumerate(("mia", "tom")):
            threads.append(threading.Thread(target=of, args=(analyst, cutters[worker], range(worker * many, (worker + 1) * many))))
        for thread in threads:
            thread.start()
        for thread in threads:
            thread.join()
        for cutter in cutters:
            cutter.close()
        if faults:
            raise faults[0]
        self.judge(told, cutters, 2 * many)

    def judge(self, told, cutters, many):
        self.assertEqual(sorted(told), list(range(many)))
        for number, (value, _, _, _, _) in told.items():
            self.assertEqual(value, ROWS + number)
        # Each has a number of its own, and there are no others: none was asked twice, and none is lost.
        self.assertEqual(sorted(one[1] for one in told.values()), list(range(many)))
        self.assertEqual(self.client("mia", self.port).left().records, 2 * many)
        analysts, book = self.book()
        for number, (value, reserved, _, _, analyst) in told.items():
            record = book.reserved[reserved]
            self.assertEqual((analysts[record.analyst], record.e), (analyst, EPS * 10**6))
            self.assertEqual(record.program, hashlib.sha256(f"(size persons + {number})".encode()).digest())
            self.assertEqual(book.settled[reserved].answer, value)
        # The client sent each once for each time that it was called, at most.
        sent = Counter(int(match[1]) for cutter in cutters for stream in cutter.sent for match in ASKED.finditer(bytes(stream)))
        for number, (_, _, _, calls, _) in told.items():
            self.assertLessEqual(sent[number], calls)
        recalled, again = sum(one[2] for one in told.values()), sum(one[3] > 1 for one in told.values())
        self.assertGreater(recalled, 0)
        print(f"    {many} asks, {sum(cutter.cuts for cutter in cutters)} cuts: {recalled} answers recalled, {again} asked again by the test after `Failed`")

    def book(self):
        """The analysts, and labour's journal by the second reader."""
        files = {}
        for name in ("catalog.json", "key"):
            with open(f"{self.place.folder}/{name}", "rb") as file:
                files[name] = file.read()
        catalog = read(files["catalog.json"])
        head = header(files["catalog.json"], 0, files["key"], lambda name: contents(f"{self.place.folder}/{name}"))
        return catalog["analysts"], book_of(contents(f"{self.place.folder}/journals/0.bud"), head, catalog["owners"][0], catalog["analysts"])

    def test_two_clients(self):
        """Where the rule is broken, and another client of the analyst asked meanwhile, there are two new numbers: neither is taken for the answer."""
        client, other = self.client("mia", self.proxy.port), self.client("mia", self.port)
        client.ask("size persons", eps=EPS)
        opened = client.transport.opened

        def between(patience):
            if client.pending is not None:
                client.transport.opened = opened
                other.ask("size persons + 7", eps=EPS)
            return opened(patience)

        for mode in ("behind", "answered"):
            client.left()
            self.proxy.cut, client.transport.opened = mode, opened
            said = client.transport.heard

            def heard(lines):
                """Once the ask is out, the next connection is late."""
                client.transport.opened = opened if any(line.startswith("ask") for line in lines) else between
                return said(lines)

            client.transport.heard = heard
            with self.assertRaises(Cut) as caught:
                client.ask("size persons + 3", eps=EPS)
            client.transport.heard = said
            self.assertEqual([standing[0] for _, standing in caught.exception.numbers], ["answer", "answer"])
            self.assertEqual(sorted(int(standing[1]) for _, standing in caught.exception.numbers), [ROWS + 3, ROWS + 7])
            # The numbers are known again, and the next ask is an ask like any other.
            self.assertEqual(client.ask("size persons + 1", eps=EPS).value, ROWS + 1)


if __name__ == "__main__":
    unittest.main()
