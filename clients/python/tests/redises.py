"""A server of Redis of a test's own, where redis-server is installed, and the clients that speak to it."""

from __future__ import annotations

import os
import shutil
import subprocess
import tempfile
import time
import unittest
from typing import Iterator

from castle import errors, replicate
from castle.redislog import Connection


class RedisCase(unittest.TestCase):
    """A test with a server at a socket of its own, which keeps nothing."""

    def setUp(self) -> None:
        program = shutil.which("redis-server")
        if program is None:
            raise unittest.SkipTest("redis-server is not here")
        super().setUp()
        folder = tempfile.TemporaryDirectory()
        self.addCleanup(folder.cleanup)
        self.socket = os.path.join(folder.name, "redis")
        self.server = subprocess.Popen([program, "--port", "0", "--unixsocket", self.socket, "--save", "", "--dir", folder.name],
                                       stdout=subprocess.DEVNULL)
        self.addCleanup(self.stop)
        self.url = f"redis+unix://{self.socket}"
        for _ in range(200):
            try:
                Connection(self.url).forget()
                return
            except errors.NoRedis:
                time.sleep(0.05)
        self.fail("the server does not start")

    def stop(self) -> None:
        """Ends the server."""
        self.server.kill()
        self.server.wait()

    def logs(self) -> Iterator[replicate.RedisLog]:
        """A stream by the client of this package, and one by that of the package `redis`, where it is installed."""
        yield replicate.RedisLog(f"{self.url}?stream=own")
        try:
            import redis  # type: ignore[import-not-found, unused-ignore]
        except ImportError:
            print("client: skipped: a stream by the package redis: it is not here", flush=True)
            return
        yield replicate.RedisLog(self.url, "package", redis.Redis(unix_socket_path=self.socket))
