"""Tries the module: python3 -m unittest discover -s python/tests"""
import threading
import unittest

import nspk

HELLO = "class Hello packageUsing: m = () (\npublic main: platform args: args = (platform console printLine: 'Hello'. ^args size)\n)\n"
SPIN = "class Spin packageUsing: m = () (\npublic main: platform args: args = ([true] whileTrue: [])\n)\n"


class Calls(unittest.TestCase):
    def test_runs(self):
        answer = nspk.run("Hello.ns", {"Hello.ns": HELLO}, ["a", "b"])
        self.assertEqual(answer, nspk.Answer(nspk.Status.DONE, b"Hello\n", b"=> 2\n", b""))
        self.assertEqual(answer.report, "=> 2")

    def test_ends_at_a_limit(self):
        answer = nspk.run("Spin.ns", {"Spin.ns": SPIN}, steps=1000)
        self.assertEqual((answer.status, answer.report), (nspk.Status.LIMIT, "limit: steps"))

    def test_refuses(self):
        self.assertEqual(nspk.check(["A.ns"], {"A.ns": "class A = ("}).status, nspk.Status.REFUSED)
        self.assertEqual(nspk.check(["A.ns"], {}).report, "A.ns: Missing")
        self.assertEqual(nspk.call([]).status, nspk.Status.REFUSED)

    def test_gives_what_is_stored(self):
        built = nspk.call(["build", "hello.img", "Hello.ns"], {"Hello.ns": HELLO})
        self.assertEqual(built.status, nspk.Status.DONE)
        answer = nspk.call(["exec", "hello.img"], {"hello.img": built.stored})
        self.assertEqual(answer, nspk.run("Hello.ns", {"Hello.ns": HELLO}))

    def test_goes_on_from_a_snapshot(self):
        whole = nspk.run("Hello.ns", {"Hello.ns": HELLO})
        snap = nspk.call(["snap", "--at=2", "hello.snap", "Hello.ns"], {"Hello.ns": HELLO})
        self.assertEqual(nspk.call(["resume", "hello.snap"], {"hello.snap": snap.stored}), whole)

    def test_asks_again_for_a_larger_room(self):
        answer = nspk.call(["sample", "1000"])
        self.assertEqual(answer.status, nspk.Status.DONE)
        loud = HELLO.replace("platform console printLine: 'Hello'", "1 to: 20000 do: [:i | platform console printLine: 'Hello']")
        self.assertEqual(nspk.run("Hello.ns", {"Hello.ns": loud}).out, b"Hello\n" * 20000)

    def test_a_word_that_is_no_text_is_not_asked(self):
        with self.assertRaises(UnicodeEncodeError):
            nspk.call(["\udcff"])

    def test_threads_call_at_the_same_time(self):
        answers = []
        threads = [threading.Thread(target=lambda: answers.append(nspk.run("Spin.ns", {"Spin.ns": SPIN}, steps=100000))) for _ in range(4)]
        for thread in threads:
            thread.start()
        for thread in threads:
            thread.join()
        self.assertEqual([answer.status for answer in answers], [nspk.Status.LIMIT] * 4)


if __name__ == "__main__":
    unittest.main()
