"""Gateways of several machines, with stand-ins for the nodes: their doors sign, also after machines above are lost, and gateways come and go."""
import asyncio
import os
import time
import unittest

from hosted import imprint
from several import THREE, Several
from ksi_service import gateway_links
from ksi_service.carrier import batch_of
from ksi_service.desk import Minority
from ksi_service.places import Places
from ksi_service.plans import content_in, retirements_in
from ksi_service.record import Step, told

ALONE = "it measures how soon a gateway notices that machines are away"

RIGA = {**THREE, "riga": ("a3", "a4", "a5")}
BOTH = {**RIGA, "oslo": ("a6", "a7", "a8")}
PARENTS = "c0,c1,c2,a0,a1,a2,a0,a1,a2"
OF_RIGA = PARENTS[:PARENTS.index("a2,") + 2]


class Lag:
    """For how long this process was kept from running, by other programs. Bounds are longer by that."""

    def __init__(self):
        self.seconds = 0.0
        self.task = asyncio.create_task(self.run())

    async def run(self):
        while True:
            began = time.monotonic()
            await asyncio.sleep(0.02)
            self.seconds += max(0.0, time.monotonic() - began - 0.03)

    def ended(self):
        """The seconds, and some for the nodes and hosts, which are kept from running too."""
        self.task.cancel()
        return 3 * self.seconds


def rows(nodes):
    return "".join(f"machine {' '.join([name, f'{name}:7443', *its])}\n" for name, its in nodes.items())


class GatewaysTest(Several):
    def requests(self, machine):
        """The hashes that aggregators of a machine were asked to sign."""
        return [it.line.split(" ")[3] for it in told(os.path.join(self.folder, machine, "record")) if isinstance(it, Step) and (it.line or "").startswith("request ")]

    def test_the_loss_of_machines_above(self):
        async def work(machines):
            gateway = machines.hosts["riga"]
            took = await machines.sign("riga", count=30)
            await machines.sign("A", "B", "C", count=9, first=100)
            links = {name: sorted(host.peers) for name, host in machines.hosts.items()}
            # one machine above does not reach the gateway, and others do: seconds that its core leads are left out
            machines.wire.cut.update({("riga", "A"), ("A", "riga")})
            await machines.until(lambda: not gateway.peers["A"].is_there)
            gateway.desk.look()
            leaders = set()
            for turn in range(2):
                await machines.sign("riga", count=2, first=200 + 10 * turn)
                leaders.update(it.leader for it in gateway.desk.places.values())
            machines.wire.join()
            await machines.until(lambda: gateway.peers["A"].is_there)
            # a machine above is lost
            lag = Lag()
            await machines.crash("A")
            spans = []
            for turn in range(3):
                spans += await machines.sign("riga", count=1, first=300 + turn)
            lag = lag.ended()
            return took, links, leaders, [it - lag for it in spans]
        took, links, leaders, spans = self.play(work, nodes=RIGA, parents=OF_RIGA)
        self.assertEqual(links, {"A": ["B", "C", "riga"], "B": ["A", "C", "riga"], "C": ["A", "B", "riga"], "riga": ["A", "B", "C"]})
        self.assertEqual(set(self.requests("riga")) & {imprint(number + 1) for number in range(100, 109)}, set())
        self.assertEqual(leaders, {1, 2})
        # the second in which the machine was lost, and its next turn before the others know
        self.assertLess(max(spans), 8)
        self.assertLess(spans[-1], 4)

    def test_a_gateway_that_is_cut_off_refuses_and_comes_back(self):
        async def work(machines):
            gateway = machines.hosts["riga"]
            await machines.sign("riga", count=3)
            machines.wire.separate("riga")
            cut, lag = time.monotonic(), Lag()
            waiting = [asyncio.create_task(gateway.desk.sign(imprint(number))) for number in range(100, 103)]
            while True:
                try:
                    await asyncio.wait_for(gateway.desk.sign(imprint(999)), 0.05)
                except asyncio.TimeoutError:
                    continue
                except Minority:
                    break
            refused = time.monotonic() - cut
            ends = await asyncio.gather(*waiting, return_exceptions=True)
            ended, lag = time.monotonic() - cut, lag.ended()
            spans = await machines.sign("A", "B", count=4, first=20)
            machines.wire.join()
            joined = time.monotonic()
            await machines.sign("riga", count=3, first=40)
            return refused - lag, ended - lag, {type(it) for it in ends}, spans, time.monotonic() - joined - lag
        refused, ended, kinds, spans, back = self.play(work, nodes=RIGA, parents=OF_RIGA)
        self.assertLess(refused, 2.0)
        self.assertLess(ended, 3.0)
        self.assertEqual((kinds, len(spans)), ({Minority}, 4))
        self.assertLess(back, 10)

    def test_gateways_come_and_go_while_requests_are_signed(self):
        async def work(machines):
            path = os.path.join(self.folder, "machines")
            cores = [machines.hosts[it] for it in "ABC"]

            def write(nodes, more=""):
                with open(path, "w", encoding="ascii") as file:
                    file.write(rows(nodes) + more)
                for host in cores:
                    host.links.read_again()
            for host in cores:
                host.places = Places(host.places.me, host.places.addresses, host.places.nodes, path)
            await machines.sign("A", count=2)
            machines.nodes = BOTH
            await asyncio.sleep(0)
            write(BOTH)
            await machines.start("oslo")
            await machines.sign("oslo", "riga", count=12, first=10)
            # another change than of gateways is left for a restart
            write({**BOTH, "A": ("c0", "a0", "a6"), "oslo": ("a7", "a8")})
            write({name: its for name, its in BOTH.items() if name != "C"})
            names = [set(host.links.names) for host in cores]
            write(RIGA, "removed oslo a6 a7 a8\n")
            left = [(sorted(host.peers), sorted(host.outbox.queues)) for host in cores]
            await machines.until(lambda: not machines.hosts["oslo"].view.is_majority())
            await machines.sign("A", "riga", count=4, first=50)
            await machines.stop("oslo")
            await self.see_next(machines)
            return names, left
        nodes = {**RIGA}
        names, left = self.play(work, nodes=nodes, parents=PARENTS)
        self.assertEqual(names, [{"riga", "oslo"}] * 3)
        self.assertEqual(left[0], (["B", "C", "riga"], ["B", "C", "riga"]))

    async def see_next(self, machines):
        """A gateway follows the machines above it to the next plan."""
        content = machines.hosts["A"].succession.derived(int(time.time()) + 3)
        self.assertEqual(set(content.nodes), set(RIGA))
        for name in "AB":
            machines.hosts[name].succession.retire(content)
        host = machines.hosts["riga"]
        folder = await asyncio.wait_for(host.succession.over, 60)
        self.assertEqual((content_in(folder).nodes["riga"], host.last_second), (RIGA["riga"], content.plan.start - 1))
        self.assertGreaterEqual(retirements_in(folder), {"A", "B"})

    def test_a_gateway_that_sends_a_hundred_times_its_share_and_closes_no_round(self):
        """The requests of others take as long as before."""
        async def work(machines):
            riga, cores = machines.hosts["riga"], [machines.hosts[it] for it in "ABC"]
            before = await machines.sign("A", "B", "oslo", count=30, first=10)
            share = gateway_links.MESSAGES + 3 * gateway_links.MESSAGES_OF_NODE
            riga.closings.announce = lambda *_: None
            ending = asyncio.Event()

            async def flood():
                made, batch = 0, b""
                while not ending.is_set():
                    second = int(time.time())
                    batch = batch if made == second else batch_of([["line", f"a{number % 3}", f"submission {3 + number % 3} {second} {imprint(number + 1)} 0", 0, 0] for number in range(share * 5)])
                    made = second
                    for host in cores:
                        host.inbox.take("riga", batch)
                    await asyncio.sleep(0.05)
            flooding, lag = asyncio.create_task(flood()), Lag()
            await asyncio.sleep(1)
            during = await machines.sign("A", "B", "oslo", count=30, first=50)
            ending.set()
            await flooding
            lag = lag.ended()
            given = [len(host.links.given["a3"] | host.links.given.get("a4", set()) | host.links.given.get("a5", set())) for host in cores]
            return sorted(before)[15], sorted(during)[15] - lag, max(during) - lag, [host.links.dropped["riga"] for host in cores], given
        before, during, most, dropped, given = self.play(work, nodes=BOTH, parents=PARENTS)
        self.assertLess(during, before + 1.2)
        self.assertLess(most, 4)
        self.assertGreater(min(dropped), 20 * gateway_links.MESSAGES)
        self.assertLess(max(given), 20)

    def see_history(self, nodes):
        """What a hostile gateway sent is on no record of its own."""
        if "hundred" not in self.id():
            super().see_history(BOTH)


if __name__ == "__main__":
    unittest.main()
