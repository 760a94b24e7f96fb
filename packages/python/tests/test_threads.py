"""Threads that call at the same time get their own results."""
import signal
import sys
import threading
import time
import unittest

from unicode_bidi import BidiText, displayed_text, find_paragraphs, get_display

#: Texts of one length and several lengths, so that a buffer of two threads would be seen.
TEXTS = ("אב" * 1000, "ab" * 1000, "א1" * 1000, "(א)" * 500, "a\nא" * 30, "גד" * 5)


def work_of(text):
    """Returns what a thread finds for a text."""
    return (get_display(text), BidiText(text).levels, BidiText(text).display(), BidiText(text).lines()[0].runs,
            displayed_text(text), find_paragraphs(text))


class Threads(unittest.TestCase):
    def setUp(self):
        interval = sys.getswitchinterval()
        self.addCleanup(sys.setswitchinterval, interval)
        sys.setswitchinterval(1e-6)

    def test_threads_at_once(self):
        """Each thread works on a text of its own, two and then six at once, and finds what one thread alone finds."""
        wanted = [work_of(text) for text in TEXTS]
        for count in (2, len(TEXTS)):
            wrong = []
            begin = threading.Barrier(count)

            def run(index):
                begin.wait()
                end = time.monotonic() + 1
                rounds = 0
                while time.monotonic() < end or rounds < 20:
                    rounds += 1
                    if work_of(TEXTS[index]) != wanted[index]:
                        wrong.append(index)

            threads = [threading.Thread(target=run, args=(index,)) for index in range(count)]
            for thread in threads:
                thread.start()
            for thread in threads:
                thread.join()
            self.assertEqual([], wrong)

    def test_one_object(self):
        """Threads share an object."""
        text = BidiText("אב (cd)\n" * 200)
        wanted = text.display()
        found = []
        threads = [threading.Thread(target=lambda: found.append({text.display() for _ in range(10)})) for _ in range(4)]
        for thread in threads:
            thread.start()
        for thread in threads:
            thread.join()
        self.assertEqual([{wanted}] * 4, found)

    def test_signal(self):
        """A signal handler that displays a text during a call does not change the result of that call."""
        handled = []
        text = "אב (cd) " * 20
        wanted = get_display(text)

        def handle(number, frame):
            handled.append(get_display("x" * 300))

        self.addCleanup(signal.signal, signal.SIGALRM, signal.signal(signal.SIGALRM, handle))
        self.addCleanup(signal.setitimer, signal.ITIMER_REAL, 0)
        signal.setitimer(signal.ITIMER_REAL, 0.0005, 0.0005)
        end = time.monotonic() + 0.5
        while time.monotonic() < end or len(handled) < 20:
            self.assertEqual(wanted, get_display(text))
        self.assertEqual({"x" * 300}, set(handled))


if __name__ == "__main__":
    unittest.main()
