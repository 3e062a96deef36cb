"""The hub: a process that serves one store to many clients of the machine, over a Unix socket. docs/HUB.md goes through it.

It is not proved. What is proved of the program holds of the one stream of commands that the hub makes of its clients'
streams: whatever the order is that they come in, the replies are those of a dictionary of versions, and a change that
was acknowledged is in the file.
"""

from __future__ import annotations

import argparse
import asyncio
import contextlib
import re
import resource
import signal
import sys
import warnings
from typing import Dict, List, Optional

from . import __version__, errors, hubsocket, terminal
from .errors import CastleError, Ended
from .frames import Limits
from .hubclient import Client
from .hubexchange import NO_TAG, SIZE, Exchange
from .process import LIMIT, Process
from .store import Store

MODE = 0o600
CLIENTS = 256
CLIENTS_MAX = 100000
READING = 3.0  # seconds that clients have to read what is theirs at the end, and one too many to ask something
FILES = 64  # open files that are no client's, at most
SIGNALS = signal.SIGTERM, signal.SIGINT, signal.SIGHUP


class Hub:
    """One run of the hub, from the first client that may come to the last one that goes."""

    def __init__(self, store: Store, listening: hubsocket.Listening, clients_max: int) -> None:
        self._path = store.path
        self._limits: Optional[Limits] = None
        with contextlib.suppress(errors.NotAStore):  # of a program that only pretends
            self._limits = store.limits()
        process = store._program.process  # with which the store itself speaks no more before its end
        assert isinstance(process, Process)
        self._process = process
        self._listening = listening
        self._clients_max = clients_max
        self._clients: Dict[Client, "asyncio.Task[None]"] = {}

    async def run(self) -> Optional[Ended]:
        """Serves until a signal comes, or until the program ends, which this tells.

        What was passed on to the program before a signal is answered. A second signal kills the program.
        """
        self._exchange = Exchange(self._process, self._limits)
        self._stopping = asyncio.Event()
        for number in SIGNALS:
            if signal.getsignal(number) is not signal.SIG_IGN:
                asyncio.get_running_loop().add_signal_handler(number, self._stop)
        server = await asyncio.start_unix_server(self._meet, sock=self._listening.socket)
        with contextlib.suppress(OSError):
            print(f"castle-hub: {self._path} is served at {hubsocket.PREFIX}{self._listening.path}", flush=True)
        stopping = asyncio.ensure_future(self._stopping.wait())
        await asyncio.wait({stopping, self._exchange.ended}, return_when=asyncio.FIRST_COMPLETED)
        self._stopping.set()
        server.close()
        for client in self._clients:
            client.stop()
        await self._exchange.idle()
        end = self._ended() if self._exchange.ended.done() else None
        self._exchange.stop()
        await self._part()
        return end

    def _stop(self) -> None:
        if self._stopping.is_set():
            self._process.kill(signal.SIGKILL)
            for client in self._clients:
                client.drop()
        self._stopping.set()

    async def _meet(self, reader: asyncio.StreamReader, writer: asyncio.StreamWriter) -> None:
        """Serves a new client, or refuses it where there are as many as may be."""
        task = asyncio.current_task()
        if task is None or self._stopping.is_set():
            writer.close()
        elif len(self._clients) >= self._clients_max:
            await _refuse(reader, writer)
        else:
            client = Client(self._exchange, reader, writer)
            self._clients[client] = task
            try:
                await client.serve()
            finally:
                del self._clients[client]

    def _ended(self) -> Ended:
        """Tells those that wait how the program ended."""
        fault = self._exchange.ended.result()
        status = self._process.finish(LIMIT)
        self._exchange.refuse_rest(shell_status(status))
        if fault:
            return Ended(f"the program was ended, since {fault}", "Start the hub with the program of this build.", file=self._path)
        return errors.ended(status, self._path, "")

    async def _part(self) -> None:
        """Waits until clients have read what is theirs, and then drops those that don't read."""
        for wait in (READING, 1.0):
            if self._clients:
                await asyncio.wait(set(self._clients.values()), timeout=wait)
            for client in self._clients:
                client.drop()


async def _refuse(reader: asyncio.StreamReader, writer: asyncio.StreamWriter) -> None:
    """Refuses a client that is one too many, once it has asked something, so that it looks for an answer."""
    with contextlib.suppress(OSError, asyncio.TimeoutError):
        await asyncio.wait_for(reader.read(1), READING)
    body = NO_TAG + bytes([errors.HubFull.status])
    writer.write(SIZE.pack(len(body)) + body)
    writer.close()


def shell_status(status: int) -> int:
    """The exit status that a shell would tell: 128 and the number of a signal, which is negative here."""
    return status if status >= 0 else 128 - status


def opened(path: str) -> Store:
    """Opens the store of a file that may be written, and has its names be of versions that there are."""
    if hubsocket.path_of(path) is not None:
        raise errors.NotOverHub("a hub serves no other hub", "Give the store's own file.", file=path)
    with warnings.catch_warnings():
        warnings.simplefilter("ignore", errors.NamesWarning)  # it is told below
        store = Store(path)
    try:
        if store.read_only:
            raise errors.ReadOnly("the file can't be written, and a hub serves no copy", "Mend its permissions.", file=path)
        if store.names.warning:
            print(f"castle-hub: {store.names.warning}", file=sys.stderr)
        store.names.forget_strays()  # before a clone gets such a number, which the hub does not look for
    except BaseException:
        store.close()
        raise
    return store


def serve(path: str, socket_path: str, mode: int, clients_max: int) -> int:
    """Serves a store until a signal comes, and gives the exit status."""
    store = opened(path)
    end: Optional[Ended] = None
    try:
        with contextlib.closing(hubsocket.Listening(socket_path, mode)) as listening:
            end = asyncio.run(Hub(store, listening, clients_max).run())
    finally:
        try:
            store.close()
        except Ended as error:
            end = end or error
    if end is None:
        return 0
    print(f"castle-hub: {end}", file=sys.stderr)
    return shell_status(end.status) or 1


# The command line

def mode_of(text: str) -> int:
    """The mode that octal digits say."""
    if not re.fullmatch("0*[0-7]{1,3}", text):
        raise argparse.ArgumentTypeError(f"{text!r} is no mode: give octal digits up to 777, as 660")
    return int(text, 8)


def count_of(text: str) -> int:
    """How many clients there may be."""
    if not re.fullmatch("[0-9]{1,6}", text) or not 1 <= int(text) <= CLIENTS_MAX:
        raise argparse.ArgumentTypeError(f"{text!r} is no number from 1 to {CLIENTS_MAX}")
    return int(text)


def parser() -> argparse.ArgumentParser:
    """What reads the words. Wrong ones end the process with status 2."""
    parser = argparse.ArgumentParser("castle-hub", description="Serves the store in FILE to many clients, at the Unix socket SOCKET.",
                                     epilog='A client opens Store("unix:SOCKET"), or castle-shell unix:SOCKET. It is not proved.')
    parser.add_argument("file", metavar="FILE", help="the store's file, which `castle format` made")
    parser.add_argument("socket", metavar="SOCKET", help="the path of the socket, which is made")
    parser.add_argument("--mode", type=mode_of, default=MODE, help="the socket's permissions, in octal: 600 if none are given")
    parser.add_argument("--clients", type=count_of, default=CLIENTS, metavar="N",
                        help=f"how many may be connected at a time: {CLIENTS} if none are given")
    parser.add_argument("--version", action="version", version=f"castle-hub {__version__}")
    return parser


def allow_files(count: int) -> None:
    """Has the system give this process so many open files, or fails."""
    soft, hard = resource.getrlimit(resource.RLIMIT_NOFILE)
    if hard != resource.RLIM_INFINITY and hard < count:
        raise CastleError(f"the system gives a process {hard} open files at most, and {count} are needed",
                          "Take fewer clients (--clients), or raise the limit (ulimit -n).")
    if soft != resource.RLIM_INFINITY and soft < count:
        resource.setrlimit(resource.RLIMIT_NOFILE, (count, hard))


def main(arguments: Optional[List[str]] = None) -> int:
    """Runs the hub with these arguments, and gives the exit status: 0 after a signal, 1 where it can't begin, or the program's."""
    options = parser().parse_args(arguments)
    terminal.prepare_streams()  # since a path may have any bytes
    try:
        allow_files(options.clients + FILES)
        return serve(options.file, options.socket, options.mode, options.clients)
    except CastleError as error:
        print(f"castle-hub: {error}", file=sys.stderr)
    except OSError as error:
        print(f"castle-hub: {error.filename or options.file}: {error.strerror}", file=sys.stderr)
    except KeyboardInterrupt:
        return 128 + signal.SIGINT  # before it serves
    return 1


if __name__ == "__main__":
    sys.exit(main())
