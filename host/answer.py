"""Answers a book from Python, by the installed shared object: answer.py BOOK. Prints what the listing program prints."""
import ctypes
import sys

library = ctypes.CDLL("libdoughpillar.so.0")
library.doughpillar_answer.argtypes = [ctypes.c_char_p, ctypes.c_size_t, ctypes.c_char_p, ctypes.c_size_t]
library.doughpillar_answer.restype = ctypes.c_uint32
library.doughpillar_atoms.argtypes = [ctypes.c_char_p, ctypes.c_size_t]
library.doughpillar_atoms.restype = ctypes.c_uint32

with open(sys.argv[1], "rb") as file:
    book = file.read()
room = ctypes.create_string_buffer(2048)  # long enough for every book
packed = library.doughpillar_answer(book, len(book), room, len(room))
if packed != 0:
    print("refused", packed // 10000000, packed // 1000000 % 10, packed % 1000000)
else:
    atoms = library.doughpillar_atoms(book, len(book))
    print("answers", atoms)
    for atom in range(atoms):
        print(atom, ("undefined", "true", "false")[room.raw[atom]])
