"""Uses the installed wheel: known results, a fault, and two threads at once."""
import threading

import unicode_bidi
from unicode_bidi import get_display
from unicode_bidi.algorithm import get_base_level

KNOWN = {
    "car (מכונית) 12": "car (תינוכמ) 12",
    "שלום": "םולש",
    "(אבג) abc": "abc (גבא)",
    "abc": "abc",
    "": "",
}
for text, shown in KNOWN.items():
    assert get_display(text) == shown, text
assert get_base_level("שלום") == 1 and get_base_level("abc") == 0
assert get_display("א1", base_dir="R") == "1א"

try:
    unicode_bidi.BidiText("א", base_level=126)
except unicode_bidi.BidiError as error:
    assert type(error).__name__ == "BadBaseLevelError", error
else:
    raise AssertionError("a base level of 126 is no fault")

failures = []


def show(text, shown):
    """Displays one text many times."""
    for _ in range(20000):
        if get_display(text) != shown:
            failures.append(text)
            return


threads = [threading.Thread(target=show, args=("אבג " * 10 + letter, letter + " גבא" * 10)) for letter in "xy"]
for thread in threads:
    thread.start()
for thread in threads:
    thread.join()
assert not failures, failures
print("ok")
