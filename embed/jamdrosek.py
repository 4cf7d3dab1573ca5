"""The calls of libjamdrosek.so, by ctypes: only what these programs use."""
import ctypes as c
import os


class Reader(c.Structure):
    _fields_ = [("at", c.c_void_p), ("is_open", c.c_bool)]


class Step(c.Structure):
    _fields_ = [("taken", c.c_size_t), ("has_frame", c.c_bool)]


class Spot(c.Structure):
    _fields_ = [("segment", c.c_size_t), ("word", c.c_size_t), ("field", c.c_uint32)]


class Bytes(c.Structure):
    _fields_ = [("at", c.c_void_p), ("len", c.c_size_t)]


class Limits(c.Structure):
    _fields_ = [(name, c.c_uint32) for name in ("nesting", "traversal", "segments", "frame_words")]


class Message(c.Structure):
    _fields_ = [("kind", c.c_uint32), ("id", c.c_uint32), ("interface", c.c_uint64), ("method", c.c_uint16), ("releases", c.c_bool), ("count", c.c_uint32)]


class Connection(c.Structure):
    _fields_ = [("at", c.c_void_p), ("is_open", c.c_bool)]


class Cap(c.Structure):
    _fields_ = [("kind", c.c_uint32), ("number", c.c_uint32), ("fields", c.c_size_t), ("path", c.c_uint16 * 16)]


class Origin(c.Structure):
    _fields_ = [("is_own", c.c_bool), ("number", c.c_uint32)]


class Method(c.Structure):
    _fields_ = [("interface", c.c_uint64), ("method", c.c_uint16)]


class Event(c.Structure):
    _fields_ = [("kind", c.c_uint32), ("object", c.c_uint32), ("origin", Origin), ("ticket", c.c_uint64), ("interface", c.c_uint64), ("method", c.c_uint16)]
    _fields_ += [(name, c.c_uint32) for name in ("question", "outcome", "exception")] + [("caps", c.c_size_t)]


STANDARD = Limits(64, 8388608, 512, 8388608)
OUT_OF_RANGE, NO_FRAME = 2, 3

library = c.CDLL(os.environ.get("LIBJAMDROSEK", "./libjamdrosek.so"))


def call(name, result, *arguments):
    function = getattr(library, name)
    function.restype, function.argtypes = result, arguments
    return function


pointer, size, number = c.POINTER, c.c_size_t, c.c_uint32
reader_open = call("jd_reader_open", number, pointer(Reader), c.c_bool, pointer(Limits))
reader_next = call("jd_reader_next", number, pointer(Reader), c.c_char_p, size, pointer(Step))
reader_end = call("jd_reader_end", number, pointer(Reader))
reader_message = call("jd_reader_message", number, pointer(Reader), pointer(Message), pointer(Spot))
reader_check = call("jd_reader_check", number, pointer(Reader), pointer(Spot))
reader_write = call("jd_reader_write", number, pointer(Reader), c.c_bool, pointer(Bytes))
reader_close = call("jd_reader_close", None, pointer(Reader))
connection_open = call("jd_connection_open", number, pointer(Connection), c.c_bool, pointer(Limits), c.c_bool, number)
connection_receive = call("jd_connection_receive", number, pointer(Connection), c.c_char_p, size, pointer(size))
connection_outgoing = call("jd_connection_outgoing", number, pointer(Connection), pointer(Bytes))
connection_wrote = call("jd_connection_wrote", number, pointer(Connection), size)
connection_next = call("jd_connection_next", number, pointer(Connection), pointer(Event))
connection_content = call("jd_connection_content", number, pointer(Connection), pointer(Bytes))
connection_reason = call("jd_connection_reason", number, pointer(Connection), pointer(Bytes))
connection_bootstrap = call("jd_connection_bootstrap", number, pointer(Connection), pointer(number))
connection_call = call("jd_connection_call", number, pointer(Connection), pointer(Cap), pointer(Method), c.c_char_p, size, pointer(Cap), size, pointer(number))
connection_finish = call("jd_connection_finish", number, pointer(Connection), number)
connection_close = call("jd_connection_close", None, pointer(Connection))
line_of = call("jd_text", size, number, pointer(Spot), c.c_char_p, size)


def text(code, spot=Spot()):
    line = c.create_string_buffer(256)
    line_of(code, spot, line, len(line))
    return line.value.decode()
