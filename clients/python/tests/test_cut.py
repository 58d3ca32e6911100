"""Runs that are cut: what the client finds of its asks by `recall`, and that it never asks again."""
import fcntl
import json
import os
import random
import subprocess
import time
import unittest
from statistics import median

from common import PROGRAM, often, survey
from hitchseason import BadCall, Client, Cut, Failed, Fault, Refused, Unanswered, connect
from hitchseason.answers import Left
from hitchseason.server import Ended, Server
from hitchseason.transport import Stopped, Waited

# The program under a mode that the folder's file `mode` has, once: killed before it has read anything, killed when it has answered and before it has
# written, asked twice so, after another analyst's ask, and killed always.
WRAPPED = """
mode=$(cat mode 2>/dev/null)
[ "$mode" = dead ] || rm -f mode
case $mode in
before | dead) kill -KILL $$ ;;
behind) REAL "$@" >/dev/null; kill -KILL $$ ;;
half) REAL "$@" | head -n 2; kill -KILL $$ ;;
twice) cat >script; REAL "$@" <script >/dev/null; REAL "$@" <script >/dev/null; kill -KILL $$ ;;
others) cat >script; printf 'hello tom\\nask labour 0.5 size persons\\n' | REAL "$@" >/dev/null; REAL "$@" <script >/dev/null; kill -KILL $$ ;;
refuse) exit 3 ;;
*) exec REAL "$@" ;;
esac
"""
# A run that is killed at a random moment.
TIMED = """
delay=$(cat delay 2>/dev/null) || exec REAL "$@"
rm -f delay
exec timeout -s KILL "$delay" REAL "$@"
"""


def duration(call):
    begun = time.monotonic()
    call()
    return time.monotonic() - begun


class Cuts(unittest.TestCase):
    def setUp(self):
        self.place = survey(capacity=2000)
        self.client = self.place.client(program=self.place.wrapped(WRAPPED))
        self.client.learn()

    def tearDown(self):
        self.place.__exit__()

    def mode(self, mode):
        with open(f"{self.place.folder}/mode", "w") as file:
            file.write(mode)

    def spent(self):
        """What an audit of the journals says."""
        ran = subprocess.run([PROGRAM, "audit", "catalog.json", "key"], cwd=self.place.folder, check=True, capture_output=True, text=True)
        words = ran.stdout.splitlines()[0].split()
        return int(words[2]), int(words[-3])

    def test_before(self):
        """Nothing was asked, and that is said."""
        self.client.count("persons", eps=1)
        self.mode("before")
        with self.assertRaises(Failed) as caught:
            self.client.count("persons", eps=1)
        self.assertIn("nothing is charged", str(caught.exception))
        self.assertIn("SIGKILL", str(caught.exception))
        self.assertEqual(self.spent()[0], 1)
        self.assertEqual(self.client.count("persons", eps=1).number, 1)

    def test_behind(self):
        """The one new number is the answer, which is recalled, and isn't asked once more; a reply that came is the answer as ever."""
        for number, mode in enumerate(("behind", "half")):
            self.mode(mode)
            answer = self.client.count("persons", eps=1)
            self.assertEqual((answer.recalled, answer.taken), (True, None) if mode == "behind" else (False, 10**6))
            self.assertEqual((answer.number, answer.value), (number, self.client.recall(number)))
            self.assertEqual(self.spent(), (number + 1, 10**6 * (number + 1)))
            self.assertEqual(answer.left.spent, 10**6 * (number + 1))
            self.assertEqual("recalled" in str(answer), answer.recalled)

    def test_groups_behind(self):
        """As many new numbers as asks are the answers, in their order."""
        self.mode("behind")
        groups = self.client.histogram("areas", eps=1)
        self.assertEqual([answer.number for answer in groups.answers.values()], [0, 1, 2, 3, 4])
        self.assertTrue(all(answer.recalled for answer in groups.answers.values()))

    def test_unknown(self):
        """An analyst, or an owner, of the public file whom the catalog of the folder hasn't: nothing is asked, and no number is looked for."""
        with open(f"{self.place.folder}/catalog.json") as file:
            catalog = json.load(file)
        for owner in catalog["owners"]:
            for table in owner["tables"]:
                del table["file"]
        catalog["analysts"].append("eve")
        catalog["owners"].append({**catalog["owners"][0], "name": "others"})
        with open(f"{self.place.folder}/public.json", "w") as file:
            json.dump(catalog, file)
        for names, fault, said in ((("eve", "labour"), Refused, "no 12 1: nothing was asked."), (("mia", "others"), Failed, "no 12 1: the analyst")):
            client = connect(self.place.folder, *names, program=PROGRAM, public=f"{self.place.folder}/public.json")
            for call in (lambda: client.count("persons", eps=1), lambda: client.histogram("areas", eps=1)):
                with self.assertRaises(fault) as caught:
                    call()
                self.assertTrue(str(caught.exception).startswith(said), caught.exception)
                self.assertIsNone(client.pending)
        self.assertEqual(self.spent(), (0, 0))

    def test_others(self):
        """Numbers of other analysts are none of its own."""
        self.client.count("persons", eps=1)
        self.mode("others")
        self.assertEqual(self.client.count("persons", eps=1).number, 2)

    def test_twice(self):
        """More new numbers than asks: nothing is guessed."""
        self.mode("twice")
        with self.assertRaises(Cut) as caught:
            self.client.count("persons", eps=1)
        self.assertEqual([number for number, _ in caught.exception.numbers], [0, 1])
        self.assertEqual(self.spent()[0], 2)
        self.assertEqual(self.client.count("persons", eps=1).number, 2)

    def test_recall_cut_too(self):
        """Until the recall is answered nothing is asked."""
        self.mode("behind")
        real = self.client.transport.replies
        calls = []

        def replies(lines):
            calls.append(lines)
            if len(calls) == 2:
                self.mode("dead")
            return real(lines)

        self.client.transport.replies = replies
        with self.assertRaises(Cut):
            self.client.count("persons", eps=1)
        with self.assertRaises(Cut) as caught:
            self.client.count("persons", eps=1)
        self.assertIn("recover()", str(caught.exception))
        os.remove(f"{self.place.folder}/mode")
        (answer,) = self.client.recover()
        self.assertTrue(answer.recalled)
        self.assertEqual(self.spent()[0], 1)
        with self.assertRaises(Failed):
            self.client.recover()

    def test_interrupted(self):
        """Ctrl-C goes through, and until it is known what came of the ask nothing more is asked."""
        real = self.client.transport.replies
        for ends, answered in ((KeyboardInterrupt, True), (KeyboardInterrupt, False), (Waited, False)):

            def replies(lines):
                self.client.transport.replies = real
                if answered:
                    real(lines)
                raise ends

            self.client.transport.replies = replies
            with self.assertRaises(KeyboardInterrupt):
                self.client.count("persons", eps=1)
            if ends is Waited:
                break
            with self.assertRaises(Cut):
                self.client.count("persons", eps=1)
            if answered:
                (answer,) = self.client.recover()
                self.assertEqual((answer.number, answer.value, answer.recalled), (0, self.client.recall(0), True))
            else:
                with self.assertRaises(Failed):
                    self.client.recover()
        self.assertEqual(self.client.count("persons", eps=1).number, 1)

    def test_new_client(self):
        """Another client of the analyst begins after what there is, lost numbers among it."""
        for _ in range(3):
            self.client.count("persons", eps=1)
        other = self.place.client("tom")
        other.count("persons", eps=1)
        again = self.place.client(program=self.place.wrapped(WRAPPED))
        self.mode("behind")
        # The first run of a client learns the next number, and is told at once that it was cut.
        with self.assertRaises(Failed) as caught:
            again.count("persons", eps=1)
        self.assertIn("nothing had been asked", str(caught.exception))
        self.mode("before")
        with self.assertRaises(Failed):
            again.count("persons", eps=1)
        self.assertEqual(again.count("persons", eps=1).number, 4)

    def test_recalled_with_interval(self):
        """By the EPS the margin is that of the answer: at 0.5 it is 6 at 95 of 100. The number alone is a value, as ever."""
        answer = self.client.count("persons", eps="0.5")
        again = self.client.recall(0, eps=0.5)
        self.assertEqual((self.client.recall(0), again.value, again.interval(95)), (answer.value, answer.value, (answer.value - 6, answer.value + 6)))
        self.assertEqual((again.numbers, again.taken, again.recalled, again.as_dict()["eps"], again.as_dict()["sent"]), ([0], None, True, "0.5", None))
        self.assertTrue(str(again).endswith("; number 0, recalled"), again)
        for eps in (0, -1, "x"):
            with self.assertRaises(ValueError):
                self.client.recall(0, eps=eps)

    def test_wait(self):
        """Another run on the folder is waited for up to the limit."""
        client = connect(self.place.folder, "mia", "labour", program=PROGRAM, wait=0.3)
        with open(f"{self.place.folder}/journals.lock", "a") as file:
            fcntl.flock(file, fcntl.LOCK_EX)
            with self.assertRaises(Failed) as caught:
                client.count("persons", eps=1)
            self.assertEqual(str(caught.exception), f"another run has worked on {self.place.folder} for 0.3 s. Nothing was asked.")
        self.assertEqual(client.count("persons", eps=1).number, 0)

    def test_not_run(self):
        self.mode("refuse")
        with self.assertRaises(Failed) as caught:
            self.client.count("persons", eps=1)
        self.assertIn("status 3", str(caught.exception))
        self.assertIsNone(self.client.pending)


HELLO = "hello mia"


class Broken(Server):
    """A connection that takes so many lines and has so many replies, in which what is spent is the number of the line, and then has ended."""

    name = "nowhere"

    def __init__(self, taken, replies):
        super().__init__(None)
        self.taken, self.left, self.said = taken, [f"left {number} 9 4" for number in range(replies)], []

    def opened(self, *_):
        return self

    def say(self, line):
        if len(self.said) == self.taken:
            raise BrokenPipeError("broken pipe")
        self.said.append(line)

    def hear(self):
        if not self.left:
            raise Ended("no reply came")
        return self.left.pop(0)

    def close(self):
        pass


class Connections(unittest.TestCase):
    def test_replies_behind_a_broken_pipe(self):
        """What came is heard where a line can't go out any more: of 4 lines 3 went out, and 2 replies came."""
        for taken, replies in ((3, 2), (3, 3), (1, 1), (4, 2)):
            with self.assertRaises(Stopped) as caught:
                Broken(taken, replies).replies(["left a", "left b", "left c", "left d"])
            self.assertEqual([reply.split()[1] for reply in caught.exception.heard], ["0", "1", "2"][:replies])


class Told:
    """A transport that has its replies written down: a list of replies, or what is raised, an exchange. A hello and a `left`, before recalls, are none, unless
    they fail: they say that there are more records than are recalled. Nor is a `mine`, whose replies, or what is raised, are `mine`, the last one for ever."""

    def __init__(self, *exchanges):
        self.exchanges, self.asked, self.mine = list(exchanges), [], ["mine 0 none 40"]

    def replies(self, lines):
        if lines[-1].startswith("mine "):
            said = self.mine.pop(0) if len(self.mine) > 1 else self.mine[0]
            if isinstance(said, Exception):
                raise said
            return [lines[0], said]
        self.asked.append(lines)
        if len(lines) == 2 and not isinstance(self.exchanges[0], Exception):
            return [lines[0], "left 1000000 20000000 40"]
        said = self.exchanges.pop(0)
        if isinstance(said, Exception):
            raise said
        return [*said, *["no 60 9 4"] * (len(lines) - len(said) - 1), "left 1000000 20000000 4"]


class Granted:
    """A transport over a journal of so many numbers with two records, and so many grants of 1."""

    def __init__(self, numbers, grants, entry):
        self.numbers, self.left, self.runs = numbers, f"left 0 {entry['budget'] + grants} {2 * numbers + grants}", 0

    def replies(self, lines):
        self.runs += 1
        return [self.reply(line.split(" ")) for line in lines]

    def reply(self, words):
        if words[0] != "recall":
            return self.left if words[0] == "left" else " ".join(words)
        number = int(words[2])
        return f"no 60 {number} 1" if number >= self.numbers else f"recall {number} answer 5 1" if number % 3 else f"no 61 {number} 1"


class Servers(unittest.TestCase):
    """What another transport may tell: a reservation that is still open in the server's run, and one that is lost."""

    def client(self, *exchanges):
        with survey(capacity=100) as place:
            catalog = place.client().catalog
        client = Client(Told(*exchanges), catalog, "mia", "labour")
        client.next = 3
        return client

    def test_open(self):
        hello = "hello mia"
        client = self.client(Stopped("the connection ended"), [hello, "recall 3 open 4"], [hello, "no 61 3 4", "recall 4 answer 17 4"])
        with self.assertRaises(Cut) as caught:
            client.count("persons", eps=1)
        self.assertIn("still open", str(caught.exception))
        with self.assertRaises(Cut):
            client.count("persons", eps=1)
        (answer,) = client.recover()
        self.assertEqual((answer.number, answer.value, client.next), (4, 17, 5))
        self.assertEqual(sum("ask " in line for lines in client.transport.asked for line in lines), 1)

    def mean(self, *exchanges):
        """Of a mean, whose sum and count are asked at once after a `left`; number 3 is the next one, and 4 records are of numbers 0 to 1 at most."""
        client = self.client([], *exchanges)
        call = lambda **more: client.mean("persons", "age", 0, 100, charge=1, **more)
        return client, call

    def cut_of(self, call, kind=Cut):
        with self.assertRaises(kind) as caught:
            call()
        return caught.exception

    def asked(self, client):
        return sum(line.startswith("ask") for lines in client.transport.asked for line in lines)

    def test_heard(self):
        """The sum was heard, as -60, and the count is recalled, as 10: with the bounds' middle of 50 the mean is 44."""
        client, call = self.mean(Stopped("cut", [HELLO, "answer 3 -60 500000"]), [HELLO, "recall 4 answer 10 8"])
        mean = call()
        self.assertEqual((mean.value, mean.numbers, mean.taken, client.next), (44, [3, 4], None, 5))
        self.assertEqual([answer.recalled for answer in mean.answers], [False, True])
        self.assertEqual([line for line in client.transport.asked[3] if "recall" in line][0], "recall labour 4")
        # Both were heard, and the line after them wasn't; whether a recall is answered or not.
        heard = [HELLO, "answer 3 -60 500000", "answer 5 10 500000"]
        for recall, spent in (([HELLO], 10**6), (Stopped("cut"), None)):
            client, call = self.mean(Stopped("cut", heard), recall)
            mean = call()
            self.assertEqual((mean.value, mean.numbers, mean.taken, client.next, client.pending), (44, [3, 5], 10**6, 6, None))
            self.assertEqual(mean.left and mean.left.spent, spent)

    def test_first_heard(self):
        """The sum was heard and the count wasn't reserved: the answer isn't lost, and the count is named."""
        client, call = self.mean(Stopped("cut", [HELLO, "answer 3 -60 500000"]), [HELLO])
        cut = self.cut_of(call)
        self.assertEqual([(answer.number, answer.value, answer.recalled) for answer in cut.answers], [(3, -60, False)])
        self.assertEqual(([ask.sent for ask in cut.unasked], cut.numbers, client.next, client.pending), (["size persons"], [], 4, None))
        self.assertIn("Of 2 asks 1 is answered and paid (`answers`): `sum[-50,50] (map", str(cut))
        self.assertTrue(str(cut).endswith("Not reserved, so that nothing is charged for them: `size persons`."), cut)
        # The call goes on with the count alone. Answers of another call are refused.
        for other in (lambda: client.count("persons", eps=1, resume=cut.answers), lambda: client.histogram("areas", eps=1, resume=cut.answers)):
            self.assertIn("aren't of this call: nothing was asked", str(self.cut_of(other, Refused)))
        self.assertEqual(self.asked(client), 2)
        client.transport.exchanges += [[], [HELLO, "answer 4 10 500000"]]
        mean = call(resume=cut.answers)
        self.assertEqual((mean.value, mean.numbers, self.asked(client)), (44, [3, 4], 3))

    def test_first_recalled(self):
        """No reply was heard, and there is one new number: it is the first ask's, as neither can have been refused."""
        client, call = self.mean(Stopped("cut", [HELLO]), [HELLO, "recall 3 answer -60 6"])
        cut = self.cut_of(call)
        self.assertEqual([(answer.ask.sent[:3], answer.number, answer.value, answer.recalled) for answer in cut.answers], [("sum", 3, -60, True)])
        self.assertEqual(([ask.sent for ask in cut.unasked], cut.numbers), (["size persons"], [(3, ["answer", "-60"])]))
        self.assertEqual(self.asked(client), 2)

    def test_not_sure(self):
        """One new number of two asks, where the first may have been refused: the door judges them, the journal may have been full, or another analyst has
        asked meanwhile, who has number 4."""
        one = [HELLO, "recall 3 answer -60 6"]
        for what, recall in (("judged", one), ("capacity", one), ("others", [HELLO, "no 61 3 8", "recall 4 answer -60 8"]), (None, one)):
            client, call = self.mean(Stopped("cut", [HELLO]), recall)
            client.transport.judged = what == "judged"
            # 4 records, 2 for each of the asks and 1 for each of 16 that may be open.
            client.view.entry["capacity"] = 23 if what == "capacity" else 24
            cut = self.cut_of(call)
            self.assertEqual([answer.number for answer in cut.answers], [3] if what is None else [])
            self.assertEqual("which is whose isn't known" in str(cut), what is not None)
            self.assertEqual(([number for number, _ in cut.numbers], len(cut.unasked)), ([4 if what == "others" else 3], 1 if what is None else 0))

    def test_limited(self):
        """The same where the analyst's limit may have refused one: two asks cost a million together. Where no limit is told, nothing is sure either."""
        for mine, sure in (("mine 500000 none 6", True), ("mine 500000 1500000 6", True), ("mine 500000 1499999 6", False), (Stopped("cut"), False)):
            client, call = self.mean(Stopped("cut", [HELLO]), [HELLO, "recall 3 answer -60 6"])
            client.transport.mine.append(mine)
            cut = self.cut_of(call)
            self.assertEqual(([answer.number for answer in cut.answers], [number for number, _ in cut.numbers]), ([3] if sure else [], [3]), mine)

    def test_granted(self):
        """One new number of two asks, after grants or without: where something was granted meanwhile, which took room, nothing is sure."""
        one = [HELLO, "recall 3 answer -60 6"]
        for budget, before, sure in ((20_000_000, 20_000_000, True), (10**6, 20_000_000, True), (10**6, 19_000_000, False), (20_000_000, 19_000_000, False)):
            client, call = self.mean(Stopped("cut", [HELLO]), one)
            client.view.entry["budget"] = budget
            call_left = client.left
            client.left = lambda call_left=call_left, before=before: Left("labour", 10**6, before, 4, call_left().time)
            cut = self.cut_of(call)
            self.assertEqual([answer.number for answer in cut.answers], [3] if sure else [], (budget, before))

    def test_learns_behind_grants(self):
        """Of some records many are grants, and the rest of numbers with two: the next number is found, by few runs, whoever made them."""
        for numbers, grants in ((0, 0), (7, 0), (0, 1), (1, 1), (2, 300), (100, 5000), (131_000, 1), (0, 262_144), (65_000, 100_000)):
            client = self.client()
            client.view.entry["capacity"] = 2**20
            client.transport = Granted(numbers, grants, client.view.entry)
            client.next = None
            client.learn()
            self.assertEqual(client.next, numbers)
            self.assertLess(client.transport.runs, 7)

    def test_groups_heard(self):
        """Of five parts two were heard, one is recalled, and two weren't reserved. Where the budget wasn't surely enough before them, the third may be any."""
        heard = [HELLO, "answer 3 58 500000", "answer 4 71 0"]
        for spent, sure in ((19_500_000, True), (19_500_001, False)):
            client = self.client(Stopped("cut", heard), [HELLO, "recall 5 answer 62 12"])
            client.before = Left("labour", spent, 20_000_000, 6, "")
            cut = self.cut_of(lambda client=client: client.histogram("areas", eps="0.5"))
            known = [("north", 58), ("south", 71), ("east", 62)]
            self.assertEqual([(answer.ask.part[1], answer.value) for answer in cut.answers], known if sure else known[:2])
            self.assertEqual([ask.part[1] for ask in cut.unasked], ["west", "capital"] if sure else [])
            said = "Not reserved, so that nothing is charged for them: areas west, areas capital." if sure else (
                "Of the 3 others the analyst has 1 new reservation, and which is whose isn't known: 5 answer 62.")
            self.assertTrue(str(cut).endswith(said), cut)
            self.assertEqual((client.next, client.pending, self.asked(client)), (6, None, 5))

    def test_groups_of_a_statistic(self):
        """Of two keys' means the second count isn't reserved: asks are told by part and program, and the call goes on with that count."""
        client = self.client(Stopped("cut", [HELLO, "answer 3 -60 500000", "answer 4 10 500000", "answer 5 -50 0"]), [HELLO])
        call = lambda **more: client.groups("areas", "mean", "age", 0, 100, charge=1, keys=["north", "south"], **more)
        cut = self.cut_of(call)
        self.assertIn("Of 4 asks 3 are answered and paid (`answers`): areas north `sum[-50,50] (map", str(cut))
        self.assertTrue(str(cut).endswith("Not reserved, so that nothing is charged for them: areas south `size persons`."), cut)
        client.transport.exchanges.append([HELLO, "answer 6 10 0"])
        found = call(resume=cut.answers)
        self.assertEqual({key: (mean.value, mean.numbers) for key, mean in found.items()}, {"north": (44, [3, 4]), "south": (45, [5, 6])})
        self.assertEqual(self.asked(client), 5)

    def test_groups_of_searches(self):
        """What is paid of searches that are done is told, too, and the call goes on after them."""
        client = self.client([HELLO, "answer 3 5 500000"], [HELLO, "answer 4 5 500000"], Stopped("cut", [HELLO]), [HELLO])
        call = lambda **more: client.groups("areas", "median", "age", 0, 100, charge=1, steps=2, keys=["north", "south"], **more)
        fault = self.cut_of(call, Failed)
        self.assertIn("nothing is charged for it, and it may be asked again. Before that 2 asks of this call were answered", str(fault))
        self.assertEqual([answer.number for answer in fault.answers], [3, 4])
        client.transport.exchanges += [[HELLO, f"answer {number} 5 500000"] for number in (5, 6)]
        found = call(resume=fault.answers)
        self.assertEqual([median.numbers for _, median in found.items()], [[3, 4], [5, 6]])
        self.assertEqual(self.asked(client), 5)

    def test_refused_heard(self):
        """What was refused has no number: the first was heard so, and the number is one of the others'; where there is none the refusal is told."""
        heard = Stopped("cut", [HELLO, "no 40 19500001 20000001 20000000 8"])
        for recall, kind in (([HELLO, "recall 3 answer 62 12"], Cut), ([HELLO], Refused)):
            client = self.client(heard, recall)
            client.before = Left("labour", 0, 20_000_000, 6, "")
            fault = self.cut_of(lambda client=client: client.histogram("areas", eps="0.5"), kind)
            self.assertEqual((list(fault.answers), client.pending), ([], None))

    def test_heard_and_no_recall(self):
        """Until a recall is answered what was heard is told; then the rest is known, and all of it comes."""
        client, call = self.mean(Stopped("cut", [HELLO, "answer 3 -60 500000"]), Stopped("cut again"), [HELLO, "recall 4 answer 10 8"])
        cut = self.cut_of(call)
        self.assertEqual(([answer.value for answer in cut.answers], cut.numbers), ([-60], None))
        self.assertIn("What came of the others isn't known", str(cut))
        self.assertEqual([answer.value for answer in client.recover()], [-60, 10])

    def test_lost(self):
        client = self.client(Stopped("the connection ended"), ["hello mia", "recall 3 lost 4"])
        with self.assertRaises(Unanswered) as caught:
            client.count("persons", eps=1)
        self.assertEqual((caught.exception.number, client.next), (3, 4))

    def test_of_the_machine(self):
        """A reservation whose disk failed has a number that nobody was told."""
        for reply, kind, after in (("no 50 3", Unanswered, 4), ("no 52", Unanswered, None), ("no 42 1", Failed, 3), ("no 90", Failed, 3)):
            client = self.client(["hello mia", reply])
            with self.assertRaises(kind) as caught:
                client.count("persons", eps=1)
            self.assertEqual((caught.exception.reply, client.next), (reply, after))


class Kills(unittest.TestCase):
    def test_random_moments(self):
        """Each ask is answered, recalled, or told to have come to nothing; the journal has no other."""
        rng, told = random.Random(7), {"answered": 0, "recalled": 0, "nothing": 0, "lost": 0}
        with survey(capacity=2000) as place:
            client = place.client(program=place.wrapped(TIMED))
            client.learn()
            whole = median(duration(client.left) for _ in range(5))
            for _ in range(often(25, 400)):
                with open(f"{place.folder}/delay", "w") as file:
                    file.write(f"{rng.uniform(0.2, 1.2) * whole:.4f}")
                try:
                    answer = client.count("persons", eps=1)
                    told["recalled" if answer.recalled else "answered"] += 1
                    self.assertEqual(client.recall(answer.number), answer.value)
                except Failed as fault:
                    self.assertIn("nothing", str(fault))
                    told["nothing"] += 1
                except Unanswered as fault:
                    with self.assertRaises(Unanswered):
                        client.recall(fault.number)
                    told["lost"] += 1
                if os.path.exists(f"{place.folder}/delay"):
                    os.remove(f"{place.folder}/delay")
            ran = subprocess.run([PROGRAM, "audit", "catalog.json", "key"], cwd=place.folder, check=True, capture_output=True, text=True)
            words = ran.stdout.splitlines()[0].split()
            self.assertEqual(int(words[2]), told["answered"] + told["recalled"] + told["lost"])
            self.assertEqual(int(words[4]), told["answered"] + told["recalled"])
        print(f"    kills: {told}")


class Refusals(unittest.TestCase):
    def test_of_budget(self):
        with survey(budget=2_000_000, capacity=6) as place:
            client = place.client()
            client.count("persons", eps="1.5")
            with self.assertRaises(Refused) as caught:
                client.count("persons", eps=1)
            self.assertTrue(caught.exception.reply.startswith("no 40 1500000 2500000 2000000"))
            self.assertIn("an EPS of 0.5 is the greatest that fits now", str(caught.exception))
            client.count("persons", eps="0.1")
            with self.assertRaises(Refused) as caught:
                client.histogram("areas", eps="0.1")
            self.assertTrue(caught.exception.reply.startswith("no 41"))
            self.assertEqual([answer.number for answer in caught.exception.answers], [2])

    def test_paid_in_vain(self):
        """Of a mean nothing is asked where both asks don't fit."""
        with survey(budget=1_000_000, capacity=100) as place:
            client = place.client()
            with self.assertRaises(Refused) as caught:
                client.mean("persons", "age", 0, 100, charge="1.5")
            self.assertIn("none of them was asked", str(caught.exception))
            self.assertEqual(client.left().records, 0)
            client.mean("persons", "age", 0, 100, charge=1)
            self.assertEqual(client.left().left, 0)

    def test_of_names(self):
        with survey(capacity=100) as place:
            client = place.client()
            for call, said in (
                (lambda: place.client("mi"), "no analyst `mi`: is `mia` meant?"),
                (lambda: place.client("mia", "labor"), "is `labour` meant?"),
                (lambda: client.count("person", eps=1), "is `persons` meant?"),
                (lambda: client.histogram("area", eps=1), "is `areas` meant?"),
                (lambda: client.count("persons", eps=1, part=("areas", "nort")), "is `north` meant?"),
                (lambda: client.recall(7), "no number 7 was ever reserved"),
            ):
                with self.assertRaises(Refused) as caught:
                    call()
                self.assertIn(said, str(caught.exception))
            for call, said in (
                (lambda: client.count("persons"), "say either"),
                (lambda: client.count("persons", eps="1e-9"), "under 0.000001"),
                (lambda: client.sum("persons", "income", 0, 5000, charge="0.001"), "least charge is 0.005"),
                (lambda: client.mean("persons", "age", 5, 5, charge=1), "bounds are whole numbers"),
                (lambda: client.quantile("persons", "age", 1, 0, 9, charge=1), "a share is over 0 and under 1"),
                (lambda: client.crosstab("areas", eps=1), "no partition by a joint column"),
                (lambda: client.recall(7, eps=0), "under 0.000001"),
                (lambda: client.count("persons", eps=1, resume=[7]), "as a fault has them in `answers`"),
                (lambda: client.count("persons", eps=1, resume=7), "as a fault has them in `answers`"),
                (lambda: client.forecast("count", "persons", eps=1, resume=()), "count: got an unexpected keyword argument 'resume'"),
            ):
                with self.assertRaises(ValueError) as caught:
                    call()
                self.assertIsInstance(caught.exception, BadCall)
                self.assertIn(said, str(caught.exception))

    def test_of_calls(self):
        """Words that aren't a call's: they are a Fault, which says the call's words, and nothing is asked."""
        mean = "Its arguments are mean TABLE COLUMN LOW HIGH [where=] [charge=] [shares=] [part=]"
        of_each = "Its arguments are groups PARTITION mean COLUMN LOW HIGH [where=] [charge=] [shares=] [keys=]"
        part = '`part` is a partition and one of its keys, as part=("areas", "{}"), and not {}'
        with survey(capacity=100) as place:
            client = place.client()
            for call, said in (
                (lambda: client.mean("persons", "income", 0, 5000, eps=0.5), f"mean: got an unexpected keyword argument 'eps'. {mean}"),
                (lambda: client.mean("persons", "income", charge=1), f"mean: missing a required argument: 'low'. {mean}"),
                (lambda: client.mean("persons", "income", 0, 5000), f"mean: a charge is said, which is divided among its asks. {mean}"),
                (lambda: client.groups("areas", "mean", "income", charge=1), f"groups: missing a required argument: 'low'. {of_each}"),
                (lambda: client.groups("areas", "mean", "income", 0, 5000, eps=1), of_each),
                (lambda: client.groups("areas", "size persons", eps=1, part=("areas", "north")), "Its arguments are groups PARTITION PROGRAM [eps=] [charge=] "
                    "[keys=], or in PROGRAM's place"),
                (lambda: client.forecast("crosstabs", "areas", eps=1), "there is no call `crosstabs`: is `crosstab` meant?"),
                (lambda: client.count("persons", part="west", eps=1), part.format("west", "'west'")),
                (lambda: client.count("persons", part="nowhere", eps=1), part.format("north", "'nowhere'")),
                (lambda: client.count("persons", part=("areas",), eps=1), part.format("north", "('areas',)")),
                (lambda: client.count("persons", part="", eps=1), part.format("north", "''")),
                (lambda: client.count("persons", where=5, eps=1), "Its arguments are count TABLE [where=] [eps=] [charge=] [part=]"),
                (lambda: client.top("areas", "3", eps=1), "how many keys is a whole number over 0, and not '3'"),
                (lambda: client.top("areas", 3, eps=1, percent=200), "a level is over 0"),
            ):
                with self.assertRaises(Fault) as caught:
                    call()
                self.assertIsInstance(caught.exception, BadCall)
                self.assertIn(said, str(caught.exception))
            self.assertEqual(client.left().records, 0)


if __name__ == "__main__":
    unittest.main()
