"""idc as calls: the program in docs/play/index.html, as C that wasm2c made of its module, by ctypes.

    import idc
    idc.run("def main(n: int): int = n * n;", ["n=5"])     # Answer(status=0, out='answer 25\\n', err='')
    idc.call(["graph", "a.id"], {"a.id": "def main(): int = 1;"})

A call is one run of the program, and leaves nothing to the next. The library is what setup.py builds of idc.c, or
libidc.so beside this file: cc -O1 -w -shared -fPIC -o libidc.so idc.c -lm
"""
import collections, ctypes, importlib.util, os

Answer = collections.namedtuple("Answer", "status out err")


class _File(ctypes.Structure):
    _fields_ = [("name", ctypes.c_char_p), ("bytes", ctypes.c_char_p), ("length", ctypes.c_size_t)]


class _Answer(ctypes.Structure):
    _fields_ = [("status", ctypes.c_int), ("out", ctypes.c_void_p), ("out_length", ctypes.c_size_t)]
    _fields_ += [("err", ctypes.c_void_p), ("err_length", ctypes.c_size_t)]


def _load():
    beside = os.path.join(os.path.dirname(os.path.abspath(__file__)), "libidc.so")
    found = None if os.path.exists(beside) else importlib.util.find_spec("_idc")
    library = ctypes.CDLL(found.origin if found else beside)
    library.idc_of.restype = ctypes.c_char_p
    words, files = ctypes.POINTER(ctypes.c_char_p), ctypes.POINTER(_File)
    library.idc_call.argtypes = [words, ctypes.c_size_t, files, ctypes.c_size_t, ctypes.POINTER(_Answer)]
    library.idc_free.argtypes = [ctypes.POINTER(_Answer)]
    return library


_library = _load()
of = _library.idc_of().decode()  # what the module is made of


def _bytes(text):
    return text.encode() if isinstance(text, str) else bytes(text)


def call(words, files=None):
    """What `idc WORDS` answers where these files, {name: text}, are all that there is."""
    given = [_bytes(word) for word in words]
    there = [(_bytes(name), _bytes(text)) for name, text in (files or {}).items()]
    if any(0 in it for it in given + [name for name, _ in there]):
        raise ValueError("a word or a name has no byte 0")
    as_words = (ctypes.c_char_p * len(given))(*given)
    as_files = (_File * len(there))(*(_File(name, text, len(text)) for name, text in there))
    answer = _Answer()
    if _library.idc_call(as_words, len(given), as_files, len(there), ctypes.byref(answer)):
        raise MemoryError("idc")
    try:
        out, err = ctypes.string_at(answer.out, answer.out_length), ctypes.string_at(answer.err, answer.err_length)
        return Answer(answer.status, out.decode(), err.decode())
    finally:
        _library.idc_free(ctypes.byref(answer))


def run(text, words=()):
    """What `idc run text.id WORDS` answers, where the text stands in text.id."""
    return call(["run", "text.id", *words], {"text.id": text})
