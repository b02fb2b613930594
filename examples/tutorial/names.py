#!/usr/bin/env python3
"""A name service: services check in under a name, and clients look them up.

The space is its table: the name of a service's send right is computed from the service's name. So a service that
checked in is still known after the name service was killed and started again.
"""

import os

from common import *

task = begin()
server = MachServer(task, task.bootstrap)
sweep(task, [it for it in task.names() if it == task.bootstrap or it & 0x40000000])


@server.message(CHECK_IN)
def check_in(request):
    text, right = request.items
    given, name = right.names[0], name_for(text_of(text))
    if given != name:
        if given & 0x40000000:
            raise KERN_RIGHT_EXISTS  # the service is known under another name
        try:
            task.destroy(name)  # a service that was there before
        except KERN_INVALID_NAME:
            pass
        task.rename(given, name)
    return request.reply(words(0))


@server.message(LOOK_UP)
def look_up(request):
    name = name_for(text_of(request.items[0]))
    if task.type(name) & type_of(DEAD_NAME):
        task.destroy(name)
        raise KERN_INVALID_NAME  # the service is gone
    return request.reply(Ports(COPY_SEND, name))


say("names", os.getpid())
server.run()
