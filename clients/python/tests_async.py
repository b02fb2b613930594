#!/usr/bin/env python3
"""Tests of AsyncTask, against the server whose socket is in MACHIPC_SOCKET.

MACHIPC_CANCELLATIONS is the number of receives to cancel, 1,000 by default.
"""

import asyncio
import os
import pathlib
import random
import sys
import time
import unittest

sys.path.insert(0, str(pathlib.Path(__file__).resolve().parent))

from machipc import *  # noqa: E402,F403

SOCKET = os.environ["MACHIPC_SOCKET"]
CANCELLATIONS = int(os.environ.get("MACHIPC_CANCELLATIONS", "1000"))
LONGEST_MICROSECONDS = 3000


class OfTask(unittest.IsolatedAsyncioTestCase):
    """A test with a task in a space of its own, which has one port."""

    once = False

    async def asyncSetUp(self):
        async with await AsyncTask.connect(SOCKET, once=self.once) as first:
            space, self.port = await first.space_create(await first.allocate(), MOVE_RECEIVE)
        self.task = await AsyncTask.connect(SOCKET, space, once=self.once, patience=20.0)

    async def asyncTearDown(self):
        await self.task.space_destroy()
        await self.task.close()


class Calls(OfTask):
    async def test_names(self):
        task = self.task
        name, dead = await task.allocate(), await task.allocate(DEAD_NAME, 0x500)
        self.assertEqual(set(await task.names()), {self.port, name, dead})
        self.assertEqual(await task.type(name), type_of(RECEIVE))
        with self.assertRaises(KERN_NAME_EXISTS):
            await task.rename(name, dead)
        async with await task.allocate(PORT_SET) as port_set:
            await task.move_member(name, port_set)
            self.assertEqual(await task.get_set_status(port_set), [name])
            self.assertEqual((await task.get_receive_status(name)).set, port_set)
        with self.assertRaises(KERN_INVALID_NAME):
            await task.type(port_set)

    async def test_rights(self):
        task, port = self.task, self.port
        async with await task.make_send(port):
            self.assertEqual(await task.get_refs(port, SEND), 1)
        self.assertEqual(await task.get_refs(port, SEND), 0)
        once = await task.make_send_once(port)
        async with once:
            pass
        self.assertEqual((await task.receive(port, 0)).id, NOTIFY_SEND_ONCE)
        async with await task.allocate() as kept:
            kept.detach()
        self.assertEqual(await task.type(kept), type_of(RECEIVE))
        await task.destroy(kept)
        await task.mod_refs(port, RECEIVE, 0)
        self.assertEqual(await task.type(port), type_of(RECEIVE))

    async def test_confine(self):
        await self.task.confine()
        with self.assertRaises(KERN_NO_ACCESS):
            await self.task.attach(FIRST_SPACE)
        with self.assertRaises(MACH_RCV_TIMED_OUT):
            await self.task.receive(self.port, 0.01)

    async def test_attach(self):
        """A receive that waits in one space doesn't wait in the next."""
        space = self.task.space
        with self.assertRaises(MACH_RCV_TIMED_OUT):
            await self.task.receive(self.port, 0.01)
        name = await self.task.allocate(RECEIVE, 0x5000)
        waiting = asyncio.create_task(self.task.receive(name))
        await asyncio.sleep(0.05)
        async with await AsyncTask.connect(SOCKET, space) as other:
            await self.task.attach(FIRST_SPACE)
            await other.send(Message(name, MAKE_SEND, id=3))
            with self.assertRaises(MACH_RCV_INVALID_NAME):
                await waiting  # its wait in the other space is over, and there is no such name in this one
            with self.assertRaises(MACH_RCV_INVALID_NAME):
                await self.task.receive(name, 0.01)
            self.assertEqual((await other.receive(name, 0)).id, 3)
        await self.task.attach(space)
        self.assertEqual(await self.task.type(self.port), type_of(RECEIVE))


class Messages(OfTask):
    async def test_waits(self):
        task, port = self.task, self.port
        with self.assertRaises(TimeoutError):
            await task.receive(port, timeout=0.02)
        waiting = asyncio.create_task(task.receive(port))
        await asyncio.sleep(0.05)
        await task.send(Message(port, MAKE_SEND, id=9))
        self.assertEqual((await waiting).id, 9)
        self.assertEqual((await task.send_receive(Message(port, MAKE_SEND, id=10), port)).id, 10)
        await task.set_qlimit(port, 0)
        with self.assertRaises(MACH_SEND_TIMED_OUT):
            await task.send(Message(port, MAKE_SEND), timeout=0.02)
        sending = asyncio.create_task(task.send(Message(port, MAKE_SEND, id=11)))
        await asyncio.sleep(0.02)
        await task.set_qlimit(port, 1)
        await sending
        self.assertEqual((await task.receive(port)).id, 11)

    async def test_many_at_once(self):
        """Receives from many ports wait side by side, and two from one port get a message each."""
        ports = [await self.task.allocate() for _ in range(10)]
        receives = [asyncio.create_task(self.task.receive(it)) for it in (*ports, ports[0])]
        await asyncio.sleep(0.05)
        for id_, port in enumerate((*ports, ports[0])):
            await self.task.send(Message(port, MAKE_SEND, id=id_))
        received = await asyncio.gather(*receives)
        self.assertEqual(sorted(it.id for it in received), list(range(11)))
        self.assertEqual([it.local for it in received], [*ports, ports[0]])

    async def test_a_port_that_dies(self):
        waiting = asyncio.create_task(self.task.receive(self.port))
        await asyncio.sleep(0.05)
        await self.task.destroy(self.port)
        with self.assertRaises((MACH_RCV_PORT_DIED, MACH_RCV_INVALID_NAME)):
            await waiting

    async def taken(self, body=b""):
        """Leaves the task with a message that a cancelled receive took."""
        await self.task.send(Message(self.port, MAKE_SEND, self.port, MAKE_SEND_ONCE, id=5, body=body))
        receive = asyncio.create_task(self.task.receive(self.port))
        await asyncio.sleep(0)
        while not self.task._taken.get(self.port):  # its thread takes it while the event loop stands still
            time.sleep(0.001)
        receive.cancel()
        with self.assertRaises(asyncio.CancelledError):
            await receive
        self.assertEqual((await self.task.get_receive_status(self.port)).messages, 0)

    async def test_taken_messages_keep_the_limit(self):
        await self.taken(bytes(40))
        for large in (True, False):
            with self.assertRaises(MACH_RCV_TOO_LARGE) as raised:
                await self.task.receive(self.port, 0, limit=32, large=large)
            self.assertEqual((raised.exception.size, raised.exception.member), (64, self.port))
        self.assertEqual((await self.task.receive(self.port, 0)).id, NOTIFY_SEND_ONCE)

    async def test_taken_messages_go_with_their_port(self):
        await self.taken()
        await self.task.destroy(self.port)
        self.assertEqual(await self.task.names(), {})
        again = await self.task.allocate(RECEIVE, self.port)
        with self.assertRaises(MACH_RCV_TIMED_OUT):
            await self.task.receive(again, 0)

    async def test_close_returns_taken_messages(self):
        await self.taken()
        left = await self.task.close()
        self.assertEqual([it.id for it in left], [5])
        self.task = await AsyncTask.connect(SOCKET, self.task.space)
        self.assertEqual(await self.task.type(left[0].remote), type_of(SEND_ONCE))


class Servers(OfTask):
    async def test_handlers(self):
        task, server = self.task, AsyncMachServer(self.task, self.port)

        @server.message(500)
        async def upper(request):
            await asyncio.sleep(0)
            return request.reply(data(request.items[0].bytes.upper()))

        @server.message(501)
        def stop(request):
            server.stop()
            raise KERN_NO_SPACE

        async def ask(id_, *items):
            async with await task.allocate() as port:
                request = Message.of(self.port, MAKE_SEND, *items, id=id_, local=port, local_disposition=MAKE_SEND_ONCE)
                answer = await task.send_receive(request, port)
                return answer.id, answer.items

        serving = asyncio.create_task(server.run())
        self.assertEqual(await ask(500, data("text")), (600, [data(b"TEXT")]))
        with self.assertLogs("machipc", "ERROR"):
            self.assertEqual(await ask(500), (600, [words(MIG_REMOTE_ERROR.code)]))
        self.assertEqual(await ask(502), (602, [words(MIG_BAD_ID.code)]))
        self.assertEqual(await ask(501, Ports(MAKE_SEND, self.port)), (601, [words(KERN_NO_SPACE.code)]))
        await serving
        self.assertEqual(await task.get_refs(self.port, SEND), 0)

    async def test_cancelled(self):
        """A server that is cancelled leaves the requests that it didn't handle to the next one."""
        handled = []
        for _ in range(2):
            server = AsyncMachServer(self.task, self.port)
            server.message(1)(lambda request: handled.append(request.seqno))
            serving = asyncio.create_task(server.run())
            for _ in range(10):
                await self.task.send(Message(self.port, MAKE_SEND, id=1))
            serving.cancel()
            with self.assertRaises(asyncio.CancelledError):
                await serving
        with self.assertRaises(MACH_RCV_TIMED_OUT):
            await server.run(timeout=0)
        self.assertEqual(handled, list(range(20)))


class Cancelled(OfTask):
    async def test_random_moments(self):
        """Each message comes once, and in order, however often receives are cancelled meanwhile."""
        chance, got, cancels, kept = random.Random(5), [], 0, 0
        sender = await AsyncTask.connect(SOCKET, self.task.space)
        is_over = asyncio.Event()

        async def send():
            number = 0
            while not is_over.is_set():
                try:
                    await sender.send(Message(self.port, MAKE_SEND, id=number))
                except ConnectionError:
                    pass  # it was sent or not, and isn't sent again
                number += 1
                await asyncio.sleep(chance.uniform(0, LONGEST_MICROSECONDS / 1e6))

        sending = asyncio.create_task(send())
        while cancels < CANCELLATIONS or len(got) <= CANCELLATIONS // 20:
            receive = asyncio.create_task(self.task.receive(self.port))
            await asyncio.sleep(chance.uniform(0, LONGEST_MICROSECONDS / 1e6))
            receive.cancel()
            try:
                got.append((await receive).seqno)
            except asyncio.CancelledError:
                cancels += 1
                kept += bool(self.task._taken.get(self.port))
        is_over.set()
        await sending
        await sender.close()
        while True:
            try:
                got.append((await self.task.receive(self.port, 0)).seqno)
            except MACH_RCV_TIMED_OUT:
                break
        again = f"{self.task.repeats} calls asked again"
        print(f"{cancels} cancellations, {len(got)} messages, {kept} of cancelled receives, {again}", flush=True)
        self.assertEqual(got, list(range(len(got))))


class Once(Cancelled):
    once = True

    async def test_calls(self):
        names = [await self.task.allocate() for _ in range(20)]
        self.assertEqual(list(await self.task.names()), [self.port, *names])


if __name__ == "__main__":
    unittest.main()
