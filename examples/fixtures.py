"""Fixtures of a test suite: the data is made once, and each test changes a clone of its own.

    PYTHONPATH=clients/python python3 examples/fixtures.py
"""

import os
import tempfile
import unittest

from castle import Store


class AccountsTest(unittest.TestCase):
    @classmethod
    def setUpClass(cls) -> None:
        folder = tempfile.TemporaryDirectory()
        cls.addClassCleanup(folder.cleanup)
        path = os.path.join(folder.name, "fixture.store")
        Store.format(path, mem=1024, changes=100000, versions=1000)  # so many tests, less one
        cls.store = Store(path)
        cls.addClassCleanup(cls.store.close)
        with cls.store.batch() as batch:  # many changes under way at once
            for number in range(1000):
                batch.put(0, f"account/{number:04}", "100")

    def setUp(self) -> None:
        # a clone costs the same whatever the fixture has, and nothing has to be undone behind a test
        self.accounts = self.store.at(self.store.clone(0))

    def test_a_transfer_moves_money(self) -> None:
        self.accounts["account/0000"] = b"60"
        self.accounts["account/0001"] = b"140"
        self.assertEqual(sum(map(int, self.accounts.values())), 100000)

    def test_a_closed_account_is_gone(self) -> None:
        del self.accounts["account/0000"]
        self.assertEqual(len(self.accounts), 999)

    def test_every_test_begins_with_the_fixture(self) -> None:
        self.assertEqual(set(self.accounts.values()), {b"100"})

    @classmethod
    def tearDownClass(cls) -> None:
        tests = cls.store.stat().versions - 1
        print(f"{tests} tests, {tests} clones; the fixture has {len(cls.store.at(0))} accounts of {cls.store.get(0, 'account/0000')}")


if __name__ == "__main__":
    unittest.main()
