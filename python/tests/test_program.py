"""Tries programs that are asked again and again: python3 -m unittest discover -s python/tests"""
import unittest

import nspk

LEDGER = """class Ledger packageUsing: manifest = (| private sum ::= 0. |) (
public add: n = (sum:: sum + n. ^sum)
public greet: name = (^'Hello, ', name)
public name = (^#add:)
public same: one = (^one == self)
public spin = ([true] whileTrue: [])
public wrong = (^sum foo)
public main: platform args: args = (^self)
)
"""


def opened(**how):
    return nspk.Program.open("Ledger.ns", {"Ledger.ns": LEDGER}, **{"steps": 10_000, "cells": 10_000, **how})


class Programs(unittest.TestCase):
    def test_keeps_what_it_was_asked(self):
        with opened() as ledger:
            plugin = ledger.value
            self.assertEqual([ledger.ask(plugin, "add:", n) for n in (3, 4, -10)], [3, 7, -3])
            self.assertEqual(ledger.value, -3)

    def test_takes_plain_values_texts_and_handles(self):
        with opened() as ledger:
            plugin = ledger.value
            self.assertEqual(ledger.ask(plugin, "greet:", "Ada").text, b"Hello, Ada")
            self.assertEqual(ledger.ask(plugin, "name").text, b"add:")
            self.assertIs(ledger.ask(plugin, "same:", plugin), True)
            self.assertEqual([ledger.ask(plugin, "same:", one) for one in (None, True, False, 0, "", b"\xff")], [False] * 6)

    def test_refuses_handles_of_others(self):
        with opened() as one, opened() as other:
            with self.assertRaisesRegex(nspk.Refused, "OtherProgram"):
                one.ask(other.value, "add:", 1)
            with self.assertRaisesRegex(nspk.Refused, "MayNotAsk"):
                one.ask(nspk.Handle(6, 9999, one.value.program), "add:", 1)
            self.assertEqual(one.ask(one.value, "add:", 1), 1)

    def test_refuses_what_may_not_be_asked(self):
        with opened() as ledger:
            plugin = ledger.value
            for selector, arguments in (("open:", (1,)), ("add:", ()), ("add:", (1, 2)), ("", ())):
                with self.assertRaisesRegex(nspk.Refused, "MayNotAsk"):
                    ledger.ask(plugin, selector, *arguments)

    def test_goes_on_in_turns_within_its_limits(self):
        with opened() as ledger:
            plugin = ledger.value
            self.assertIsNone(ledger.ask(plugin, "spin", steps=100))
            self.assertTrue(ledger.goes_on)
            with self.assertRaisesRegex(nspk.Refused, "MayNotAsk"):
                ledger.ask(plugin, "add:", 1)
            with self.assertRaisesRegex(nspk.Ended, "limit: steps"):
                ledger.turn()
            self.assertEqual(ledger.counters.steps, 10_000)

    def test_charges_texts(self):
        with opened(cells=200) as ledger:
            plugin, before = ledger.value, ledger.counters.cells
            self.assertIs(ledger.ask(plugin, "same:", "x" * 80), False)
            self.assertEqual(ledger.counters.cells, before + 11)
            with self.assertRaisesRegex(nspk.Refused, "limit: cells"):
                ledger.ask(plugin, "same:", "x" * 8000)

    def test_ends_in_an_error(self):
        with opened() as ledger, self.assertRaisesRegex(nspk.Ended, "NotUnderstood Integer foo"):
            ledger.ask(ledger.value, "wrong")

    def test_goes_back_to_what_was_kept(self):
        with opened() as ledger:
            plugin = ledger.value
            ledger.ask(plugin, "add:", 5)
            again = nspk.Program.at(ledger.state)
            self.assertEqual(ledger.ask(plugin, "add:", 1), 6)
            self.assertEqual(again.value, 5)
            with self.assertRaisesRegex(nspk.Refused, "NotAProgram"):
                nspk.Program.at(ledger.state[:-1])

    def test_tells_what_was_printed_once(self):
        source = "class Loud packageUsing: m = (| private c |) (\npublic say: t = (c printLine: t. ^nil)\npublic main: platform args: args = (c:: platform console. c printLine: 'up'. ^self)\n)\n"
        with nspk.Program.open("Loud.ns", {"Loud.ns": source}, console=True) as loud:
            self.assertEqual((loud.printed(), loud.printed()), (b"up\n", b""))
            plugin = loud.value
            loud.ask(plugin, "say:", "one")
            loud.ask(plugin, "say:", "two")
            self.assertEqual((loud.printed(), loud.printed()), (b"one\ntwo\n", b""))

    def test_refuses_sources_and_limits(self):
        with self.assertRaisesRegex(nspk.Refused, "A.ns:1:12: Syntax|A.ns"):
            nspk.Program.open("A.ns", {"A.ns": "class A = ("})
        with self.assertRaisesRegex(nspk.Refused, "BadLimits"):
            opened(steps=0)

    def test_a_closed_program_is_asked_nothing(self):
        ledger = opened()
        ledger.close()
        with self.assertRaises(ValueError):
            ledger.turn()


if __name__ == "__main__":
    unittest.main()
