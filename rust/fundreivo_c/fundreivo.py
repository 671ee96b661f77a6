"""The auction from Python: `fundreivo.run(b"0,viewuser,0\\n", "--workers", "2")`."""

import ctypes
import os
from pathlib import Path

_AT = Path(__file__).resolve()
# Beside this file, and where rust/build has it, or cargo in an archive.
_PLACES = (_AT.parent, _AT.parents[1] / "out/target/release", _AT.parents[1] / "target/release")
_BUILT = (place / "libfundreivo_c.so" for place in _PLACES)
_LIBRARY = ctypes.CDLL(os.environ.get("FUNDREIVO") or str(next(filter(Path.exists, _BUILT), "libfundreivo_c.so")))
_RUN, _FREE = _LIBRARY.fundreivo_run, _LIBRARY.fundreivo_free
_TEXTS, _TEXT = ctypes.POINTER(ctypes.c_char_p), ctypes.POINTER(ctypes.c_char)
_SIZE = ctypes.c_size_t
_RUN.argtypes = (_TEXTS, _SIZE, ctypes.c_char_p, _SIZE, ctypes.POINTER(_TEXT), ctypes.POINTER(_SIZE))
_FREE.argtypes, _FREE.restype = (_TEXT, _SIZE), None


class Fault(ValueError):
    """Why nothing was answered: its text, with the record if one is at fault, and the status of the program."""

    def __init__(self, text: str, status: int) -> None:
        super().__init__(text)
        self.status = status


def run(data: bytes, *words: str) -> bytes:
    """What `rubis_auction WORDS` writes for an input."""
    if any("\0" in word for word in words):
        raise ValueError("a word has a zero")
    texts = (ctypes.c_char_p * len(words))(*(word.encode() for word in words))
    output, size = _TEXT(), _SIZE()
    status = _RUN(texts, len(words), data, len(data), ctypes.byref(output), ctypes.byref(size))
    text = ctypes.string_at(output, size.value)
    _FREE(output, size)
    if status:
        raise Fault(text.decode("utf-8", "replace").strip(), status)
    return text
