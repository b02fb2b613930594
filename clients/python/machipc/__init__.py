"""Mach 3 IPC over the socket of a server: ports, rights and messages, as in Loepere, Mach 3 Kernel Interfaces (1992).

A Task is a connection in one space; its methods are Mach's calls. A Message is built of ports and bytes, sent and
received. A call that is refused raises an exception that has the name of its code in Mach's headers. AsyncTask is a Task
for asyncio, and MachServer serves the requests of a port. README.md of the client has examples.
"""

from . import constants, errors
from .aio import AsyncRight, AsyncTask
from .constants import *  # noqa: F401,F403
from .errors import *  # noqa: F401,F403
from .messages import Data, Item, Message, Ports, data, data_of, words
from .ports import PortStatus
from .rights import Right
from .server import AsyncMachServer, Handler, MachServer
from .task import Task

__version__ = "0.1.0"

__all__ = [
    "AsyncMachServer",
    "AsyncRight",
    "AsyncTask",
    "Data",
    "Handler",
    "Item",
    "MachServer",
    "Message",
    "PortStatus",
    "Ports",
    "Right",
    "Task",
    "data",
    "data_of",
    "words",
]

# Tracebacks name the package, whichever module has a class.
for _name in (*__all__, *errors.__all__):
    if isinstance(globals()[_name], type):
        globals()[_name].__module__ = __name__
del _name

__all__ += constants.__all__
__all__ += errors.__all__
