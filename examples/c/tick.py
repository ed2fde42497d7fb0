"""Writes a stream of events to a file: python3 tick.py LIBRARY FILE COUNT, with libtracepipe.so as LIBRARY."""

import ctypes
import sys

OK, MORE = 0, 13


class Handle(ctypes.Structure):
    _fields_ = [("at", ctypes.c_void_p), ("live", ctypes.c_bool)]


class Info(ctypes.Structure):
    _fields_ = [
        ("date", ctypes.c_uint16 * 8),
        ("sync", ctypes.c_uint64),
        ("frequency", ctypes.c_uint64),
        ("pointer_size", ctypes.c_uint32),
        ("process_id", ctypes.c_uint32),
        ("processors", ctypes.c_uint32),
        ("rate", ctypes.c_uint32),
    ]


class Definition(ctypes.Structure):
    _fields_ = [
        ("keywords", ctypes.c_uint64),
        ("id", ctypes.c_uint32),
        ("version", ctypes.c_uint32),
        ("level", ctypes.c_uint32),
    ]


class EventHead(ctypes.Structure):
    _fields_ = [
        ("thread", ctypes.c_uint64),
        ("stamp", ctypes.c_uint64),
        ("activity", ctypes.c_uint8 * 16),
        ("related", ctypes.c_uint8 * 16),
        ("event", ctypes.c_uint32),
    ]


def sized(data):
    """The data and its length in bytes, as two arguments."""
    return ctypes.c_char_p(data), ctypes.c_size_t(len(data))


def text(words):
    """A text in UTF-16 and its length in units, as two arguments."""
    data = words.encode("utf-16-le")
    return ctypes.c_char_p(data), ctypes.c_size_t(len(data) // 2)


def main(library, path, count):
    tracepipe = ctypes.CDLL(library)
    handle, number, taken = Handle(), ctypes.c_uint32(), ctypes.c_size_t()
    date = (ctypes.c_uint16 * 8)(1970, 1, 4, 1, 0, 0, 0, 0)
    info = Info(date, 0, 1_000_000_000, 8, 1, 1, 0)
    none = (None, ctypes.c_size_t(0))

    def call(function, *words):
        code = function(ctypes.byref(handle), *words)
        if code not in (OK, MORE):
            raise RuntimeError(f"{function.__name__} answered {code}")
        return code

    call(tracepipe.tp_begin, ctypes.byref(info))
    definition = Definition(0, 7, 1, 4)
    call(
        tracepipe.tp_define,
        ctypes.byref(definition),
        *text("My-Python-Program"),
        *text("Tick"),
        *none,
        *none,
        ctypes.byref(number),
    )
    for index in range(1, count + 1):
        event = EventHead(thread=1, stamp=index * 100, event=number.value)
        call(tracepipe.tp_event, ctypes.byref(event), *none, *sized(index.to_bytes(4, "little")))
    call(tracepipe.tp_point, ctypes.c_uint64(count * 100 + 1))
    room = ctypes.create_string_buffer(65536)
    with open(path, "wb") as file:
        more = True
        while more:
            code = call(tracepipe.tp_end, room, ctypes.c_size_t(len(room)), ctypes.byref(taken))
            more = code == MORE
            file.write(room.raw[: taken.value])


if __name__ == "__main__":
    main(sys.argv[1], sys.argv[2], int(sys.argv[3]))
