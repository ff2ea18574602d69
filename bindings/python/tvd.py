"""What the program tvdlg does with files, done with texts in memory, and descriptions at work, by the shared library libtvd.so.1.

>>> check(b"tvd 1\\nscreen 40\\n")
Told(status=1, out=b'', err=b'tvdlg: form: syntax at line 2\\n')

>>> with Form(QUESTION) as form:
...     form.line("key Esc"), form.log()
(6, b'end ask cancel\\n')

The library is $LIBTVD, or libtvd.so.1 beside this module or where the system finds it. Calls keep nothing, so several threads may
be in them at once.
"""
import ctypes
import os
import pathlib
import typing

DONE, FAULTY, USAGE, FAILED, LEFT = range(5)

# What a form answers: tvd.h says when.
FORM_DONE, FORM_EVENT, FORM_REFUSED, FORM_NO_MEMORY, FORM_NO_ROOM, FORM_LEFT, FORM_OVER, FORM_UNSOUND, FORM_REFRESH = range(9)

# A description to try.
QUESTION = b"""\
tvd 1
screen 40 12
start ask
dialog ask 4 2 32 8 "Delete notes.txt?" ends cancel yes
button yes 2 5 12 "~D~elete" yes
button no 16 5 12 "Do~n~'t" cancel
end
"""


class Told(typing.NamedTuple):
    """The status of tvdlg, and what it writes on standard output and standard error."""

    status: int
    out: bytes
    err: bytes


def _found():
    beside = pathlib.Path(__file__).resolve().parent / "libtvd.so.1"
    return os.environ.get("LIBTVD") or (str(beside) if beside.exists() else "libtvd.so.1")


_library = ctypes.CDLL(_found())
_tell = _library.tvd_tell
_tell.restype = ctypes.c_uint8
_tell.argtypes = [ctypes.c_char_p, ctypes.c_size_t] * 5 + [ctypes.c_char_p, ctypes.c_size_t, ctypes.POINTER(ctypes.c_size_t)] * 2


def _bytes(text):
    return text.encode() if isinstance(text, str) else bytes(text)


def tell(words, *files):
    """Does what `tvdlg WORDS` does. Each of the files, two at most, is its name and its text."""
    if len(files) > 2:
        raise ValueError("two files at most")
    words = [_bytes(word) for word in words]
    if any(b"\0" in word for word in words):
        raise ValueError("a word has no NUL")
    given = [b"".join(word + b"\0" for word in words), *(_bytes(part) for file in files for part in file)]
    given += [b""] * (5 - len(given))
    read = [part for text in given for part in (text, len(text))]
    out_size = err_size = 4096
    while True:
        out, err = ctypes.create_string_buffer(out_size + 1), ctypes.create_string_buffer(err_size + 1)
        out_used, err_used = ctypes.c_size_t(), ctypes.c_size_t()
        status = _tell(*read, out, out_size, ctypes.byref(out_used), err, err_size, ctypes.byref(err_used))
        if out_used.value <= out_size and err_used.value <= err_size:
            return Told(status, out.raw[: out_used.value], err.raw[: err_used.value])
        out_size, err_size = max(out_size, out_used.value), max(err_size, err_used.value)


def check(text):
    """The certificate of a description, or its faults."""
    return tell(["check", "form"], ("form", text))


def explain(text, beside=None, json=False):
    """Explains the faults of a description, or of a script or a certificate beside it."""
    words = ["explain", *["--json"] * json, "form"]
    return tell(words, ("form", text)) if beside is None else tell([*words, "beside"], ("form", text), ("beside", beside))


def accept(text, certificate):
    """Whether the certificate is that of the description."""
    return tell(["accept", "form", "certificate"], ("form", text), ("certificate", certificate))


def run(text, script):
    """Performs a script on a description."""
    return tell(["run", "form", "script"], ("form", text), ("script", script))


def picture(text, script):
    """The screen that a script leaves, as SVG."""
    return tell(["picture", "form", "script"], ("form", text), ("script", script))


def fill(text, answers):
    """A description whose fields begin with answers."""
    return tell(["fill", "form", "answers"], ("form", text), ("answers", answers))


def answer(text, answers):
    """Gives answered dialogs their ends without a user."""
    return tell(["answer", "form", "answers"], ("form", text), ("answers", answers))


_STATUS, _BYTES, _PAUSE, _LINE, _COMMAND, _LOG, _SCREEN, _SHAPE, _FOCUS, _RECORD = range(10)

_library.tvd_size.restype = ctypes.c_size_t
_library.tvd_open.restype = None
_library.tvd_open.argtypes = [ctypes.c_void_p, ctypes.c_char_p, ctypes.c_size_t]
_library.tvd_do.restype = ctypes.c_uint8
_library.tvd_do.argtypes = [ctypes.c_void_p, ctypes.c_uint32, ctypes.c_char_p, ctypes.c_size_t, ctypes.c_char_p, ctypes.c_size_t]
_library.tvd_do.argtypes += [ctypes.POINTER(ctypes.c_size_t)]
_library.tvd_close.restype = None
_library.tvd_close.argtypes = [ctypes.c_void_p]


class Cell(typing.NamedTuple):
    """A character of the screen, and its colours: 4 bits of the character's, 3 of those behind it."""

    character: str
    colours: int


class Form:
    """A description at work. One thread at a time uses it. `ValueError` says that it can't be opened, or that it is closed."""

    def __init__(self, text):
        self._room = self._at = None
        text = _bytes(text)
        # malloc aligns by 16, and a buffer of Python's may not.
        self._room = ctypes.create_string_buffer(_library.tvd_size() + 16)
        self._at = (ctypes.addressof(self._room) + 15) & ~15
        _library.tvd_open(self._at, text, len(text))
        answer, _ = self._do(_STATUS)
        if answer != FORM_DONE:
            self.close()
            raise MemoryError if answer == FORM_NO_MEMORY else ValueError("no sound description: explain says why")

    def close(self):
        """Ends the run. A second time does nothing."""
        at, self._at = self._at, None
        if at is not None:
            _library.tvd_close(at)

    def __enter__(self):
        return self

    def __exit__(self, *_):
        self.close()

    def __del__(self):
        self.close()

    def _do(self, asked, given=b"", room=b"", size=0):
        if self._at is None:
            raise ValueError("the form is closed")
        used = ctypes.c_size_t()
        return _library.tvd_do(self._at, asked, given, len(given), room, size, ctypes.byref(used)), used.value

    def _text(self, asked, given=b""):
        size = 4096
        while True:
            room = ctypes.create_string_buffer(size + 1)
            answer, used = self._do(asked, given, room, size)
            if answer == FORM_NO_MEMORY:
                raise MemoryError
            if answer != FORM_NO_ROOM:
                return room.raw[:used] if answer == FORM_DONE else None
            size = used

    def line(self, line):
        """Performs the one event of a script's line."""
        return self._do(_LINE, _bytes(line))[0]

    def bytes(self, sent):
        """Takes bytes of a terminal, up to the first with which something is done: the answer, and how many were taken."""
        return self._do(_BYTES, _bytes(sent))

    def pause(self):
        """Takes notice that for a tenth of a second no byte came."""
        return self._do(_PAUSE)[0]

    def command(self, number):
        """Gives a command, as if the user had chosen it."""
        return self._do(_COMMAND, bytes([number]))[0]

    def log(self):
        """The log of the last event, or of the start."""
        return self._text(_LOG)

    def shape(self):
        """The columns and rows of the screen."""
        return tuple(self._text(_SHAPE))

    def screen(self):
        """The rows of the screen, each a list of cells."""
        columns, _ = self.shape()
        bytes_ = self._text(_SCREEN)
        cells = [Cell(chr(int.from_bytes(bytes_[at : at + 3], "little")), bytes_[at + 3]) for at in range(0, len(bytes_), 4)]
        return [cells[at : at + columns] for at in range(0, len(cells), columns)]

    def focus(self):
        """The name of the control that has the focus, empty where none has."""
        return self._text(_FOCUS)

    def record(self, dialog):
        """The fields with which a dialog opens next, as they are logged at an end; None where no dialog has the name."""
        return self._text(_RECORD, _bytes(dialog))
