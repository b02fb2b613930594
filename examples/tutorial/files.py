#!/usr/bin/env python3
"""files.py FOLDER: a service of files. To open a file is to get a right to a port that reads and writes it.

The ports outlive this program: if it is killed and started again in its space, the rights that clients have lead to the
same files. The name of a file's port is computed from the file's name, so the folder is all that the service has to
know.
"""

import os
import pathlib
import sys

from common import *

FOLDER = pathlib.Path(sys.argv[1])
SERVICE, ALL = 0x3FFFFFF0, 0x3FFFFFF1

task = begin()


def make(right, name):
    """Makes a port or a set with this name, unless it exists."""
    try:
        task.allocate(right, name)
    except KERN_NAME_EXISTS:
        pass


def port_of(file):
    """Returns the port of a file. It is a member of the set from which this program receives."""
    port = name_for(file.name)
    make(RECEIVE, port)
    task.move_member(port, ALL)
    return port


def file_at(port):
    """Returns the file that belongs to a port."""
    for file in FOLDER.iterdir():
        if name_for(file.name) == port:
            return file
    raise KERN_INVALID_NAME


make(PORT_SET, ALL)
make(RECEIVE, SERVICE)
task.move_member(SERVICE, ALL)
sweep(task, {task.bootstrap, ALL, SERVICE, *map(port_of, FOLDER.iterdir())})
server = MachServer(task, ALL)


@server.message(OPEN)
def open_file(request):
    if request.local != SERVICE:
        raise KERN_NO_ACCESS  # a right to one file opens no others
    text = text_of(request.items[0])
    if not text.isalnum():
        raise KERN_INVALID_VALUE
    file = FOLDER / text
    file.touch()
    return request.reply(Ports(MAKE_SEND, port_of(file)))


@server.message(READ)
def read(request):
    return request.reply(data(file_at(request.local).read_bytes()))


@server.message(WRITE)
def write(request):
    file = file_at(request.local)
    new = FOLDER.with_name(FOLDER.name + ".new")
    new.write_text(text_of(request.items[0]))
    os.replace(new, file)  # so that a file is the old one or the new one, whatever is killed
    return request.reply(words(0))


ask(task, task.bootstrap, CHECK_IN, data("files"), Ports(MAKE_SEND, SERVICE))
say("files", os.getpid())
server.run()
