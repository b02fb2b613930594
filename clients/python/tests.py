#!/usr/bin/env python3
"""Tests of the package machipc, against the server whose socket is in MACHIPC_SOCKET."""

import contextlib
import doctest
import os
import pathlib
import socket
import struct
import sys
import tempfile
import threading
import unittest
import unittest.mock

HERE = pathlib.Path(__file__).resolve().parent
sys.path.insert(0, str(HERE))

import machipc  # noqa: E402
from machipc import *  # noqa: E402,F403

SOCKET = os.environ["MACHIPC_SOCKET"]


class OfTask(unittest.TestCase):
    """A test with a task in a space of its own, which has one port."""

    def setUp(self):
        self.patience = 20.0
        with Task(SOCKET) as first:
            port = first.allocate()
            space, self.port = first.space_create(port, MOVE_RECEIVE)
        self.task = Task(SOCKET, space)

    def tearDown(self):
        self.task.space_destroy()
        self.task.close()


def in_child(check):
    """Returns True if a check holds in a child of fork."""
    pid = os.fork()
    if pid == 0:
        status = 1
        try:
            status = not check()
        finally:
            os._exit(status)
    return os.waitpid(pid, 0)[1] == 0


class Calls(OfTask):
    def test_names(self):
        task = self.task
        name, set_name, dead = task.allocate(), task.allocate(PORT_SET), task.allocate(DEAD_NAME, 0x500)
        self.assertEqual(dead, 0x500)
        self.assertEqual(task.names()[name], type_of(RECEIVE))
        self.assertEqual(set(task.names()), {self.port, name, set_name, dead})
        task.rename(name, 0x600)
        with self.assertRaises(KERN_NAME_EXISTS):
            task.rename(0x600, dead)
        task.move_member(0x600, set_name)
        self.assertEqual(task.get_set_status(set_name), [0x600])
        self.assertEqual(task.get_receive_status(0x600).set, set_name)
        task.move_member(0x600)
        with self.assertRaises(KERN_NOT_IN_SET):
            task.move_member(0x600)
        for it in (0x600, set_name, dead):
            task.destroy(it)
        self.assertEqual(set(task.names()), {self.port})

    def test_references(self):
        task, port = self.task, self.port
        task.insert_right(port, port, MAKE_SEND)
        task.mod_refs(port, SEND, 4)
        task.deallocate(port)
        self.assertEqual(task.get_refs(port, SEND), 4)
        with self.assertRaises(KERN_INVALID_VALUE):
            task.mod_refs(port, SEND, -5)
        task.mod_refs(port, RECEIVE, -1)
        self.assertEqual(task.type(port), type_of(DEAD_NAME))

    def test_receive_rights(self):
        task, port = self.task, self.port
        task.set_qlimit(port, 2)
        task.set_mscount(port, 3)
        task.set_seqno(port, 4)
        once, type_ = task.extract_right(port, MAKE_SEND_ONCE)
        self.assertEqual((type_, task.type(once)), (MOVE_SEND_ONCE, type_of(SEND_ONCE)))
        status = task.get_receive_status(port)
        self.assertEqual((status.qlimit, status.mscount, status.seqno, status.send_once_rights), (2, 3, 4, 1))
        self.assertIs(status.has_senders, False)

    def test_notices(self):
        task, port = self.task, self.port
        watched = task.allocate()
        self.assertEqual(task.request_notification(watched, NOTIFY_DEAD_NAME, port), 0)
        self.assertTrue(task.type(watched) & DEAD_NAME_REQUEST)
        task.insert_right(watched, watched, MAKE_SEND)
        task.mod_refs(watched, RECEIVE, -1)
        notice = task.receive(port, 1)
        self.assertEqual((notice.id, notice.items[0]), (NOTIFY_DEAD_NAME, data_of(PORT_NAME, 32, struct.pack("<I", watched))))

    def test_spaces(self):
        with self.assertRaises(KERN_INVALID_TASK):
            self.task.attach(9999)
        self.assertEqual(set(self.task.names()), {self.port})
        with self.assertRaises(KERN_INVALID_TASK):
            Task(SOCKET, 9999)


    def test_confine(self):
        task, other = self.task, self.task.another()
        task.confine()
        task.confine()
        with self.assertRaises(KERN_NO_ACCESS):
            task.attach(FIRST_SPACE)
        task.attach(task.space)
        with self.assertRaises(KERN_NO_ACCESS):
            task.another().attach(FIRST_SPACE)
        # Its connection that is cut is made anew, and is confined too.
        task._socket.shutdown(socket.SHUT_RDWR)
        with self.assertRaises(ConnectionError):
            task.names()
        self.assertEqual(set(task.names()), {self.port})
        with self.assertRaises(KERN_NO_ACCESS):
            task._call(0, FIRST_SPACE)
        other.attach(FIRST_SPACE)
        other.close()

    def test_adopt(self):
        given = {"MACHIPC_SOCKET": SOCKET, "MACHIPC_SPACE": hex(self.task.space), "MACHIPC_BOOTSTRAP": str(self.port)}
        for variable, value in (("SPACE", ""), ("BOOTSTRAP", "x"), ("SOCKET", ""), ("FD", "0"), ("START", "x")):
            changed = {**given, f"MACHIPC_{variable}": value}
            with self.subTest(variable=variable), unittest.mock.patch.dict(os.environ, changed):
                self.assertRaises(ValueError, Task.adopt)
        with unittest.mock.patch.dict(os.environ, given), Task.adopt() as task:
            self.assertEqual((task.space, task.bootstrap, task.start), (self.task.space, self.port, 1))
            self.assertEqual(task.type(self.port), type_of(RECEIVE))
        with unittest.mock.patch.dict(os.environ, given, MACHIPC_START="2"), Task.adopt(once=True) as task:
            self.assertEqual((task.start, task.type(task.allocate())), (2, type_of(RECEIVE)))

    def test_fork(self):
        """A child of fork has connections of its own."""
        self.assertEqual(in_child(lambda: self.task.type(self.port) == type_of(RECEIVE)), True)
        self.assertEqual(self.task.type(self.port), type_of(RECEIVE))


class Rights(OfTask):
    def test_given_back(self):
        task, port = self.task, self.port
        with task.allocate() as name, task.allocate(PORT_SET) as port_set:
            self.assertEqual(task.type(name), type_of(RECEIVE))
            task.move_member(name, port_set)
        with task.make_send(port) as send, task.right(task.extract_right(port, MAKE_SEND)[0]):
            self.assertEqual((send, task.get_refs(port, SEND)), (port, 2))
        with task.make_send_once(port):
            pass
        self.assertEqual(task.receive(port, 0).id, NOTIFY_SEND_ONCE)
        self.assertEqual(task.names(), {port: type_of(RECEIVE)})

    def test_kept(self):
        task, port = self.task, self.port
        with task.allocate() as name:
            task.send(Message.of(port, MAKE_SEND, Ports(MOVE_RECEIVE, name.detach())))
        with task.allocate() as gone:
            task.destroy(gone)  # which is no error at the end of the block
        self.assertEqual(task.type(task.receive(port, 0).ports[0]), type_of(RECEIVE))

    def test_of_messages(self):
        """The rights of a message that was received, and of one that isn't sent, are given back."""
        task, port = self.task, self.port
        carried = task.allocate()
        items = Ports(MAKE_SEND, carried, 0), Ports(MOVE_RECEIVE, carried), Ports(COPY_SEND, port), data("text")
        task.insert_right(port, port, MAKE_SEND)
        task.send(Message.of(port, MAKE_SEND, *items, local=port, local_disposition=MAKE_SEND_ONCE))
        task.give_back(task.receive(port, 0))
        self.assertEqual(task.receive(port, 0).id, NOTIFY_SEND_ONCE)
        self.assertEqual((set(task.names()), task.get_refs(port, SEND)), ({port}, 1))
        task.request_notification(port, NOTIFY_NO_SENDERS, port, sync=5)
        task.deallocate(port)
        self.assertEqual(task.receive(port, 0).id, NOTIFY_NO_SENDERS)
        task.give_back(Message(port, MAKE_SEND_ONCE))
        self.assertEqual(task.receive(port, 0).id, NOTIFY_SEND_ONCE)


class Messages(OfTask):
    def test_forms(self):
        long = data_of(CHAR, 8, bytes(5000))
        sent = Message.of(self.port, MAKE_SEND, Ports(MAKE_SEND, self.port, 0), data(b"odd"), words(1, -1), long, id=-5)
        self.task.send(sent)
        got = self.task.receive(self.port)
        self.assertEqual(got.items[0], Ports(MOVE_SEND, self.port, 0))
        self.assertEqual(got.items[1:], sent.items[1:])
        self.assertEqual((got.id, got.ports, got.seqno), (-5, [self.port, 0], 0))
        self.assertEqual(Message.from_bytes(sent.to_bytes()), sent)

    def test_refusals(self):
        for message, refusal in [
            (Message(self.port, COPY_SEND), MACH_SEND_INVALID_DEST),
            (Message(self.port, MAKE_SEND, body=b"odd"), MACH_SEND_MSG_TOO_SMALL),
            (Message(self.port, 99), MACH_SEND_INVALID_HEADER),
            (Message(self.port, MAKE_SEND, body=bytes(8192)), MACH_SEND_NO_BUFFER),
            (Message(self.port, MAKE_SEND, 0x999, COPY_SEND), MACH_SEND_INVALID_REPLY),
            (Message.of(self.port, MAKE_SEND, Ports(COPY_SEND, 0x999)), MACH_SEND_INVALID_RIGHT),
            (Message(self.port, MAKE_SEND, body=bytes(4), has_items=True), MACH_SEND_INVALID_MEMORY),
        ]:
            with self.subTest(refusal=refusal), self.assertRaises(refusal):
                self.task.send(message)
        with self.assertRaises(ValueError):
            Message(body=b"\x01\x20\xff\x1f").items
        with self.assertRaises(ValueError):
            Message(body=b"\x01").items

    def test_too_large(self):
        self.task.send(Message(self.port, MAKE_SEND, body=bytes(40)))
        with self.assertRaises(MACH_RCV_TOO_LARGE) as raised:
            self.task.receive(self.port, limit=32, large=True)
        self.assertEqual((raised.exception.size, raised.exception.member), (64, self.port))
        self.assertEqual(self.task.receive(self.port).body, bytes(40))

    def test_waits(self):
        with self.assertRaises(TimeoutError):
            self.task.receive(self.port, timeout=0.02)
        self.task.set_qlimit(self.port, 0)
        with self.assertRaises(MACH_SEND_TIMED_OUT):
            self.task.send(Message(self.port, MAKE_SEND), timeout=0.02)
        self.task.set_qlimit(self.port, 5)

        def send_later():
            with self.task.another() as other:
                other.send(Message(self.port, MAKE_SEND, id=9))

        timer = threading.Timer(0.1, send_later)
        timer.start()
        self.assertEqual(self.task.receive(self.port).id, 9)
        timer.join()


class Servers(OfTask):
    def setUp(self):
        super().setUp()
        self.server = MachServer(self.task, self.port)
        self.client = self.task.another()
        self.reply_port = self.client.allocate()

    def tearDown(self):
        self.client.close()
        super().tearDown()

    def ask(self, id_, *items, disposition=MAKE_SEND_ONCE):
        """Returns the answer to a request, which the server handles in this thread."""
        request = Message.of(self.port, MAKE_SEND, *items, id=id_, local=self.reply_port, local_disposition=disposition)
        self.client.send(request)
        self.server.handle(self.task.receive(self.port, 1))
        return self.client.receive(self.reply_port, 1)

    def test_handlers(self):
        @self.server.message(500)
        def upper(request):
            return request.reply(data(request.items[0].bytes.upper()))

        @self.server.message(501)
        def refuse(request):
            raise KERN_NO_SPACE

        @self.server.message(502)
        def fail(request):
            return request.items[7]

        self.assertEqual(self.ask(500, data("text")).items, [data(b"TEXT")])
        self.assertEqual(self.ask(500, data("text"), disposition=MAKE_SEND).id, 600)
        with self.assertLogs("machipc", "ERROR"):
            answers = [self.ask(it, Ports(MAKE_SEND, self.reply_port)) for it in (501, 502, 503)]
        codes = [KERN_NO_SPACE.code, MIG_REMOTE_ERROR.code, MIG_BAD_ID.code]
        self.assertEqual([(it.id, it.items) for it in answers], [(601 + n, [words(it)]) for n, it in enumerate(codes)])
        self.assertEqual(self.task.get_refs(self.reply_port, SEND), 0)  # the rights of refused requests are given back
        with self.assertRaises(ValueError):
            self.server.message(500)(upper)

    def test_no_reply(self):
        kept = []
        self.server.message(7)(kept.append)
        self.client.send(Message(self.port, MAKE_SEND, self.reply_port, MAKE_SEND_ONCE, id=7))
        self.client.send(Message(self.port, MAKE_SEND, id=8))
        with self.assertRaises(MACH_RCV_TIMED_OUT):
            self.server.run(timeout=0)
        self.task.send(kept[0].reply(body=b"late"))
        self.assertEqual(self.client.receive(self.reply_port, 1).body, b"late")

    def test_stop(self):
        """A client that takes no replies and one whose request is too large don't block the server."""

        @self.server.message(1)
        def answer(request):
            self.server.stop()
            return request.reply()

        self.server.limit = 64
        self.client.set_qlimit(self.reply_port, 0)
        self.client.send(Message(self.port, MAKE_SEND, body=bytes(100)))
        self.client.send(Message(self.port, MAKE_SEND, self.reply_port, MAKE_SEND, id=1))
        self.server.run()
        self.assertEqual(self.client.get_receive_status(self.reply_port).messages, 0)
        self.assertEqual(self.task.get_refs(self.reply_port, SEND), 0)


class Cut(OfTask):
    """A server that closes connections, or sends invalid replies."""

    def answered(self, reply):
        """Starts a server that takes one connection, attaches it and gives this reply to its next frame."""
        folder = tempfile.TemporaryDirectory(dir="/tmp")
        self.addCleanup(folder.cleanup)
        path = f"{folder.name}/socket"
        listener = socket.socket(socket.AF_UNIX)
        listener.bind(path)
        listener.listen(1)

        def serve():
            with contextlib.closing(listener), listener.accept()[0] as peer:
                for answer in (struct.pack("<3I", 8, 0, 0), reply):
                    peer.recv(1 << 16)
                    peer.sendall(answer)

        thread = threading.Thread(target=serve)
        thread.start()
        self.addCleanup(thread.join)
        return Task(path)

    def test_replies(self):
        number = struct.Struct("<4I").pack
        for reply, refusal in [
            (b"", MACH_RCV_INTERRUPTED),
            (b"\x0c\0\0\0\5\0", MACH_RCV_INTERRUPTED),
            (number(3, 5, 0, 0), MACH_RCV_INTERRUPTED),
            (number(65533, 5, 0, 0), MACH_RCV_INTERRUPTED),
            (number(12, 6, 0, 0x100), MIG_REPLY_MISMATCH),
            (number(8, 5, 0, 0), MIG_REPLY_MISMATCH),
            (number(12, 5, 77, 0), UnknownCode),
        ]:
            with self.subTest(reply=reply), self.answered(reply) as task, self.assertRaises(refusal):
                task.allocate()
        with self.answered(b"") as task, self.assertRaises(ConnectionError):
            task.send(Message(1))

    def test_interrupted_read(self):
        """An exception within a call, as by a key, ends the connection, so that no later call gets its reply."""
        task = self.task

        def interrupt():
            raise KeyboardInterrupt

        task._read = interrupt
        with self.assertRaises(KeyboardInterrupt):
            task.allocate()
        del task._read
        self.assertEqual(task.type(self.port), type_of(RECEIVE))

    def test_no_server(self):
        with self.assertRaises(MACH_SEND_INTERRUPTED):
            Task("/nowhere/at/all:/nor/here")


class Paths(unittest.TestCase):
    def test_lists(self):
        for text in ("", ":", "/a:", "/a::/b", "/a\\x", "/a\\", "/1:/2:/3:/4:/5", "/" + 107 * "a"):
            with self.subTest(text=text), self.assertRaises(KERN_INVALID_ARGUMENT):
                Task(text)

    def test_escapes(self):
        with tempfile.TemporaryDirectory(prefix="a:b\\", dir="/tmp") as folder:
            path = f"{folder}/socket"
            os.symlink(SOCKET, path)
            escaped = path.replace("\\", "\\\\").replace(":", "\\:")
            for text in (escaped, f"/nowhere:{escaped}"):
                Task(text).close()
            with self.assertRaises(KERN_INVALID_ARGUMENT):
                Task(path)


class Once(OfTask):
    """Single effects, where connections may be cut at any moment."""

    def setUp(self):
        with Task(SOCKET, once=True) as first:
            port = first.allocate()
            space, self.port = first.space_create(port, MOVE_RECEIVE)
        self.task = Task(SOCKET, space, once=True)

    def test_calls(self):
        task = self.task
        names = [task.allocate() for _ in range(30)]
        self.assertEqual(list(task.names()), [self.port, *names])
        for name in names:
            task.insert_right(name, name, MAKE_SEND)
            task.mod_refs(name, SEND, 2)
            task.deallocate(name)
        for name in names:
            self.assertEqual((task.get_refs(name, SEND), task.get_receive_status(name).mscount), (2, 1))
        with self.assertRaises(KERN_INVALID_NAME):
            task.destroy(0x999)
        task.attach(task.space)
        self.assertEqual(task.allocate(), names[-1] + 1)

    def test_messages(self):
        with self.task.another() as other:
            thread = threading.Thread(target=lambda: [other.send(Message(self.port, MAKE_SEND, id=it)) for it in range(60)])
            thread.start()
            received = [self.task.receive(self.port) for _ in range(60)]
            thread.join()
        self.assertEqual([(it.id, it.seqno) for it in received], [(it, it) for it in range(60)])
        with self.assertRaises(MACH_RCV_TIMED_OUT):
            self.task.receive(self.port, timeout=0.03)
        self.task.send(Message(self.port, MAKE_SEND, body=bytes(40)))
        with self.assertRaises(MACH_RCV_TOO_LARGE):
            self.task.receive(self.port, limit=32)
        self.assertEqual(self.task.send_receive(Message(self.port, MAKE_SEND, id=7), self.port).id, 7)

    def test_overtaken(self):
        """A second program that numbers its calls in the same space, against the rule: the first one's next call fails."""
        with Task(SOCKET, self.task.space, once=True) as other:
            names = [other.allocate() for _ in range(3)]
        with self.assertRaises(MACH_RCV_INTERRUPTED):
            self.task.destroy(names[0])
        self.task.destroy(names[0])

    def test_fork(self):
        """A child of fork doesn't number its parent's calls, and doesn't make them without numbers either."""

        def check():
            for call in (self.task.allocate, self.task.names, lambda: self.task.attach(self.task.space)):
                with self.assertRaises(KERN_FAILURE):
                    call()
            return True

        self.assertTrue(in_child(check))
        self.assertEqual(self.task.type(self.task.allocate()), type_of(RECEIVE))

    def test_used_numbers(self):
        """A space that has used up its numbers can't be used so any more."""
        self.task._numbers.last = 0xFFFFFFFD
        self.assertEqual(self.task.allocate(name=0x700), 0x700)
        with self.assertRaises(KERN_INVALID_ARGUMENT):
            Task(SOCKET, self.task.space, once=True)
        self.assertEqual(self.task.allocate(name=0x701), 0x701)
        with self.assertRaises(KERN_RESOURCE_SHORTAGE):
            self.task.allocate()


def load_tests(loader, tests, pattern):
    page = {"SOCKET": SOCKET, "__name__": "page"}
    options = doctest.IGNORE_EXCEPTION_DETAIL
    tests.addTests(doctest.DocFileSuite(str(HERE / "README.md"), module_relative=False, globs=page, optionflags=options))
    return tests


if __name__ == "__main__":
    assert machipc.FIRST_SPACE == 1
    unittest.main()
