"""The library that build.sh makes, in this process: the ranges and the text of a bundle's listing."""
import ctypes
import os

PATH = os.path.join(os.path.dirname(os.path.abspath(__file__)), "../../target/usage/libface.so")
U64, U32 = ctypes.c_uint64, ctypes.c_uint32


class Library:
    def __init__(self, path=PATH):
        self.lib = ctypes.CDLL(path)
        self.lib.face_bundle.restype = self.lib.face_text.restype = U64
        self.words, self.index, self.ledger = (U64 * 4096)(), (U32 * 10240)(), (U64 * 8192)()
        self.out, self.text_out = (U64 * (3 * 16384))(), ctypes.create_string_buffer(1 << 16)

    def ranges(self, data, new, room=None):
        """The ranges, or the number that refuses; of a buffer of `room` words."""
        n = self.lib.face_bundle(data, U64(len(data)), U64(new), self.words, self.index, self.out, U64(len(self.out) if room is None else room))
        if n > 2 ** 64 - 1001:
            return n - (2 ** 64 - 1001)
        flat = self.out[:3 * n]
        return list(zip(flat[::3], flat[1::3], flat[2::3]))

    def text(self, data, new):
        """The listing, as objclist prints it."""
        while True:
            n = self.lib.face_text(data, U64(len(data)), U64(new), self.words, self.index, self.ledger, self.text_out, U64(len(self.text_out)))
            if n <= len(self.text_out):
                return self.text_out.raw[:n]
            self.text_out = ctypes.create_string_buffer(2 * n)
