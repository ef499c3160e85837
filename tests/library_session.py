"""A session of the library for the tests: its calls as they are, with kinds and depths."""
import ctypes
from ctypes import POINTER, c_bool, c_char_p, c_int64, c_size_t, c_uint32, c_void_p

MEMORY = 4
NO_TEXT = c_size_t(-1).value


class Handle(ctypes.Structure):
    """What the library keeps in its caller's memory."""

    _fields_ = [('is_open', c_bool), ('held', c_void_p), ('beside', c_void_p)]


class Refusal(ctypes.Structure):
    """The condition that is false, and the value that goes with it."""

    _fields_ = [('number', c_uint32), ('value', c_uint32)]


class Point(ctypes.Structure):
    """Three coordinates."""

    _fields_ = [('x', c_int64), ('y', c_int64), ('z', c_int64)]


# By call of the kernel: what it returns, and what it takes after the handle.
CALLS = {'open': (c_bool, []), 'close': (None, []), 'line': (c_uint32, [c_char_p, c_size_t]), 'reply': (c_size_t, [c_char_p, c_size_t]),
         'depth': (c_size_t, []), 'ahead': (c_size_t, [])}
READERS = ('reply', 'depth', 'ahead')


class Session:
    """A handle, open or not."""

    def __init__(self, library):
        self.library, self.handle = library, Handle()

    def open(self):
        return self.library.gwb_open(self.handle)

    def close(self):
        self.library.gwb_close(self.handle)

    def line(self, line):
        """The kind of the answer."""
        return self.library.gwb_line(self.handle, line, len(line))

    def reply(self, room):
        """The text of the last answer as far as there is room, and its length."""
        buffer = ctypes.create_string_buffer(room + 1)
        buffer[room] = b'!'
        length = self.library.gwb_reply(self.handle, buffer, room)
        assert buffer[room] == b'!', 'written past the room'
        return buffer.raw[:min(length, room)], length

    def text(self):
        """The whole text of the last answer; None where memory for it is refused."""
        text, length = self.reply(256)
        if length != NO_TEXT and length > len(text):
            text, length = self.reply(length)
        return None if length == NO_TEXT else text

    def depths(self):
        """How many commands can be undone, and how many redone."""
        return self.library.gwb_depth(self.handle), self.library.gwb_ahead(self.handle)


def loaded(path):
    """The library with the types of its calls."""
    library = ctypes.PyDLL(path)
    for name, (result, words) in CALLS.items():
        function = getattr(library, ('gwb_lent_' if name in READERS else 'gwb_') + name)
        function.restype, function.argtypes = result, [POINTER(Handle), *words]
        setattr(library, 'gwb_' + name, function)
    return library
