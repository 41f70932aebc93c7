"""Queues and batches between hosts."""
import asyncio
import unittest

from carried import Wire
from ksi_service import carrier
from ksi_service.carrier import Outbox, batch_of, messages_in


class BatchTest(unittest.TestCase):
    def test_a_batch_is_one_message_a_line(self):
        messages = [["closed", "a0", 7], ["line", "c1", "synod 0 5 next 16", 3, 0]]
        self.assertEqual(batch_of(messages), b'["closed","a0",7]\n["line","c1","synod 0 5 next 16",3,0]\n')
        self.assertEqual(messages_in(batch_of(messages)), messages)
        self.assertEqual(messages_in(b""), [])

    def test_what_is_no_message_is_refused(self):
        for batch in (b"x", b"{}", b"[]", b"[1]", b"null", b'["closed"', b"\xff"):
            self.assertRaises(ValueError, messages_in, batch)


async def until(holds):
    """Waits until something holds, and until what was sent has arrived."""
    while not holds():
        await asyncio.sleep(0.01)
    await asyncio.sleep(0.02)


class OutboxTest(unittest.TestCase):
    def play(self, work):
        """Runs an outbox of machine A over a wire to machine B. Returns the batches that B received."""
        async def go():
            wire, came = Wire(), []
            here = wire.carrier("A")
            await here.begin(lambda *_: None)
            await wire.carrier("B").begin(lambda sender, batch: came.append((sender, messages_in(batch))))
            outbox = Outbox(here, ["B"])
            running = asyncio.create_task(outbox.run())
            await work(wire, outbox)
            running.cancel()
            await asyncio.gather(running, return_exceptions=True)
            return came, outbox
        return asyncio.run(go())

    def test_messages_arrive_in_order_in_batches(self):
        async def work(_, outbox):
            for number in range(carrier.MOST_AT_ONCE + 1):
                outbox.send("B", ["closed", "a0", number])
            await until(lambda: outbox.batches == 2)
        came, outbox = self.play(work)
        self.assertEqual([sender for sender, _ in came], ["A", "A"])
        self.assertEqual([it[2] for _, messages in came for it in messages], list(range(carrier.MOST_AT_ONCE + 1)))
        self.assertEqual((outbox.sent, outbox.batches, outbox.lost), (carrier.MOST_AT_ONCE + 1, 2, 0))

    def test_what_cannot_be_delivered_is_lost_and_counted(self):
        async def work(wire, outbox):
            wire.separate("A")
            outbox.send("B", ["closed", "a0", 1])
            await until(lambda: outbox.lost == 1)
            wire.join()
            outbox.send("B", ["closed", "a0", 2])
            await until(lambda: outbox.sent == 1)
        came, outbox = self.play(work)
        self.assertEqual(came, [("A", [["closed", "a0", 2]])])
        self.assertEqual((outbox.sent, outbox.lost), (1, 1))

    def test_a_queue_has_a_bound(self):
        async def work(_, outbox):
            for number in range(carrier.MOST_WAITING + 5):
                outbox.send("B", ["closed", "a0", number])
            self.assertEqual(len(outbox.queues["B"].waiting), carrier.MOST_WAITING)
        self.assertEqual(self.play(work)[1].lost, 5)

    def test_lines_of_the_vote_go_first(self):
        async def go():
            queue = carrier.Queue()
            for message in (["ask", 1, 7, "a0", "00"], ["line", "c0", "submission 1 7 00 0", 4, 0], ["closed", "a1", 7], ["line", "c0", "synod 1 7 next 16", 5, 0], ["line", "c0", "synod 1 7 voted 16", 6, 0]):
                queue.add(message)
            return [message[2] for message in queue.next_batch()], len(queue)
        self.assertEqual(asyncio.run(go()), (["synod 1 7 next 16", "synod 1 7 voted 16", 7, "submission 1 7 00 0", 7], 0))

    def test_patience_follows_what_batches_take(self):
        async def go():
            queue = carrier.Queue()
            told = []
            for usual in (0.0, 1.0, 5.0):
                queue.usual = usual
                told.append(queue.patience())
            return told
        self.assertEqual(asyncio.run(go()), [1.5, 5.0, 10.0])


if __name__ == "__main__":
    unittest.main()
