"""How FriBidi and ICU display a line, and over that the rules of `bidi check`: what crates/bidi_controls/specs says, in
Python.

Both libraries are called by ctypes. A paragraph here is a line or a part of it, without a separator."""
import ctypes
import ctypes.util
import re
import unicodedata

INITIATORS = "\u2066\u2067\u2068"
POP_ISOLATE = "\u2069"
CONTROLS = "\u202A\u202B\u202C\u202D\u202E" + INITIATORS + POP_ISOLATE
CONTROLS_AND_MARKS = CONTROLS + "\u200E\u200F\u061C"
SEPARATORS = re.compile("[\n\r\x1C-\x1E\x85\u2029]")
BASES = ("ltr", "auto")  # from left to right, and the direction of the first strong character


class FriBidi:
    """FriBidi, from libfribidi.so.0. If it is not installed, `OSError` is raised."""

    DIRECTIONS = {"ltr": 0x110, "auto": 0x40}  # FRIBIDI_PAR_LTR, FRIBIDI_PAR_ON

    def __init__(self):
        self.library = ctypes.CDLL("libfribidi.so.0")
        words = ctypes.c_char_p.in_dll(self.library, "fribidi_version_info").value.split()
        self.name = f"FriBidi {words[2].decode()}"

    def placed(self, paragraph, base):
        """The characters of a paragraph as a device shows them: from left to right, and mirrored at odd levels. Each has its
        index in the paragraph before it."""
        length = len(paragraph)
        if length == 0:
            return []
        numbers, levels = ctypes.c_uint32 * length, (ctypes.c_int8 * length)()
        characters, classes, brackets = numbers(*map(ord, paragraph)), numbers(), numbers()
        direction = ctypes.c_uint32(self.DIRECTIONS[base])
        self.library.fribidi_get_bidi_types(characters, length, classes)
        self.library.fribidi_get_bracket_types(characters, length, classes, brackets)
        find_levels = self.library.fribidi_get_par_embedding_levels_ex
        if not find_levels(classes, brackets, length, ctypes.byref(direction), levels):
            raise MemoryError
        self.library.fribidi_shape_mirroring(levels, length, characters)
        order = (ctypes.c_int * length)(*range(length))
        if not self.library.fribidi_reorder_line(0, classes, length, 0, direction, levels, characters, order):
            raise MemoryError
        return [(index, chr(character)) for index, character in zip(order, characters)]


class Icu:
    """ICU, from libicuuc. If it is not installed, `OSError` is raised."""

    DIRECTIONS = {"ltr": 0, "auto": 0xFE}  # UBIDI_LTR, UBIDI_DEFAULT_LTR

    def __init__(self):
        path = ctypes.util.find_library("icuuc")
        if path is None:
            raise OSError("libicuuc is not installed")
        self.library = ctypes.CDLL(path)
        self.version = path.rpartition(".")[2]  # it is a part of the names of ICU's functions
        self.name = f"ICU {self.version}"
        self.call("ubidi_open", ctypes.c_void_p)
        self.call("ubidi_getLevels", ctypes.POINTER(ctypes.c_uint8))
        self.lines = ctypes.c_void_p(self.call("ubidi_open")())

    def call(self, name, result=None):
        function = getattr(self.library, f"{name}_{self.version}")
        if result:
            function.restype = result
        return function

    def placed(self, paragraph, base):
        """The same by ICU, for code units of UTF-16. U+FFFD is in place of each code unit of a character past U+FFFF."""
        units = paragraph.encode("utf-16-le", "surrogatepass")
        length = len(units) // 2
        if length == 0:
            return []
        numbers = (ctypes.c_uint16 * length).from_buffer_copy(units)
        order, error = (ctypes.c_int32 * length)(), ctypes.c_int(0)
        direction = ctypes.c_uint8(self.DIRECTIONS[base])
        self.call("ubidi_setPara")(self.lines, numbers, length, direction, None, ctypes.byref(error))
        levels = self.call("ubidi_getLevels")(self.lines, ctypes.byref(error))
        self.call("ubidi_getVisualMap")(self.lines, order, ctypes.byref(error))
        if error.value > 0:
            raise MemoryError
        mirrored = self.call("u_charMirror")
        shown = [mirrored(numbers[index]) if levels[index] % 2 else numbers[index] for index in order]
        return [(index, "\uFFFD" if 0xD800 <= unit <= 0xDFFF else chr(unit)) for index, unit in zip(order, shown)]


def installed():
    """The libraries that are installed, ICU first: where they differ, FriBidi 1.0.8 joins two isolates of one level."""
    found = []
    for library in (Icu, FriBidi):
        try:
            found.append(library())
        except OSError:
            pass
    return found


def shown(library, paragraph, base):
    """The characters of a paragraph as a device shows them."""
    return "".join(c for _, c in library.placed(paragraph, base))


def visible_ascii(text):
    return "".join(c for c in text if "!" <= c <= "~")


# ---- placeholder isolates

# The steps of the machine that reads the content of an isolate: for each state, the next state for each kind of character.
# A state without an entry for a kind refuses it.
STEPS = {
    "before": {"space": "before", "wide": "before", "digit": "number", "%": "percent", "$": "dollar", "{": "brace"},
    "number": {"digit": "number", "space": "after", "wide": "after"},
    "percent": {"digit": "percent number", ".": "precision", "letter": "word", "@": "after"},
    "percent number": {"digit": "percent number", "$": "position", ".": "precision", "letter": "word",
                       "space": "after", "wide": "after"},
    "position": {"digit": "position", ".": "precision", "letter": "word", "@": "after"},
    "precision": {"digit": "precision", "letter": "word"},
    "word": {"letter": "word", "digit": "word", "space": "after", "wide": "after"},
    "dollar": {"digit": "number", "letter": "dollar word", "{": "brace", "(": "parenthesis"},
    "dollar word": {"letter": "dollar word", "digit": "dollar word", "$": "after", "space": "after", "wide": "after"},
    "brace": {"space": "brace", "digit": "brace number", "letter": "brace name", "$": "brace sign", "-": "brace sign"},
    "brace number": {"digit": "brace number", "space": "brace end", "}": "after"},
    "brace sign": {"letter": "brace name"},
    "brace name": {"letter": "brace name", "digit": "brace name", "-": "brace hyphen", "space": "brace end", "}": "after"},
    "brace hyphen": {"letter": "brace name", "digit": "brace name"},
    "brace end": {"space": "brace end", "}": "after"},
    "parenthesis": {"letter": "parenthesis name", "digit": "parenthesis name"},
    "parenthesis name": {"letter": "parenthesis name", "digit": "parenthesis name", ")": "after"},
    "after": {"space": "after", "wide": "after"},
}
ACCEPTING = {"number", "percent number", "word", "dollar word", "after"}


def kind_of(c):
    if c >= "\x80":
        return "wide"
    if c.isdigit():
        return "digit"
    if c.isalpha() or c == "_":
        return "letter"
    return "space" if c == " " else c


def contents(characters, length):
    """All contents of placeholder isolates that have at most this number of these characters."""
    found = [("", "before")]
    for _ in range(length):
        found = [(content + c, STEPS[state][kind_of(c)])
                 for content, state in found for c in characters if kind_of(c) in STEPS[state]]
        yield from (content for content, state in found if state in ACCEPTING)


def placeholder_isolates(paragraph):
    """The indexes of the controls of placeholder isolates: an initiator, one placeholder or number, and the PDI."""
    indexes, start, state = set(), None, None
    for index, c in enumerate(paragraph):
        if c in INITIATORS:
            start, state = index, "before"
        elif c in CONTROLS_AND_MARKS:
            if c == POP_ISOLATE and state in ACCEPTING:
                indexes |= {start, index}
            state = None
        elif state:
            state = STEPS[state].get(kind_of(c))
    return indexes


# ---- the rule

def plain(paragraph, keeps_placeholders=True):
    """A paragraph without its controls and marks but those of placeholder isolates."""
    kept = placeholder_isolates(paragraph) if keeps_placeholders else set()
    return "".join(c for index, c in enumerate(paragraph) if c not in CONTROLS_AND_MARKS or index in kept)


def displays_as_read(library, paragraph, base):
    return visible_ascii(shown(library, paragraph, base)) == visible_ascii(paragraph)


def is_displayed_differently(library, paragraph, keeps_placeholders=True):
    """Whether the ASCII that is shown is neither what is read nor what is shown of the plain paragraph."""
    def differs(base):
        displayed = visible_ascii(shown(library, paragraph, base))
        as_plain = visible_ascii(shown(library, plain(paragraph, keeps_placeholders), base))
        return displayed not in (visible_ascii(paragraph), as_plain)

    return any(c in CONTROLS_AND_MARKS for c in paragraph) and any(map(differs, BASES))


def is_moved_by_letters(library, paragraph):
    """Whether letters and numbers from right to left alone make a paragraph display otherwise than it reads."""
    return (any(unicodedata.bidirectional(c) in ("R", "AL", "AN") for c in paragraph)
            and not is_displayed_differently(library, paragraph)
            and not all(displays_as_read(library, paragraph, base) for base in BASES))
