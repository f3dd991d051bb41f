"""A grader's view of a page, in Python: the story of examples/grader.c, and the same lines.

The page is loaded, aged and given back, and no stale entry answers for it. Then its directory's word goes, and the global root is broken,
to show where walks stop.

Build and run, from the root of the repository:
    tools/staticlib
    gcc -shared -Wl,--whole-archive target/staticlib/libmmu_c.a -Wl,--no-whole-archive -o target/libmmu_c.so
    python3 examples/grader.py target/libmmu_c.so
It prints what it saw, one line a step: examples/grader.lines.
"""

import os
import sys
from ctypes import CDLL, POINTER, c_bool, c_size_t, c_uint8, c_uint32, c_uint64
from types import SimpleNamespace

# The types of the calls. Each run is handed over as its bytes and their number.
RUN = [POINTER(c_uint8), c_size_t]
ACCESS = [c_uint32, c_bool, c_bool, c_uint32]  # address, user, write, draw
CALLS = {
    "mmu_start": 2 * RUN,
    "mmu_guarded_setting": RUN + [c_uint32, c_uint32],  # number, value
    "mmu_raw_access": 2 * RUN + ACCESS,
    "mmu_served_access": 3 * RUN + ACCESS,
    "mmu_table_store": 3 * RUN + [c_uint32, c_uint32],  # index, value
}

# Names of include/mmu.h, without their MMU_: the library has none of them.
REGISTER_BYTES, BUFFER_BYTES, TABLE_BYTES_MAX = 44, 512, 65536
PAGE_BYTES, DIRECTORY_WORDS, TABLE_WORDS, GLOBAL_ROOT = 8192, 512, 1024, 63
CTRL, ENABLE, CONTEXT = 1, 2, 5
WE_EXC, ACC_EXC, INV_EXC = 1, 2, 4
AT_SELECT, AT_TLB_HI, AT_CAUSE = 24, 28, 40
PRESENT, VALID, WE = 0x80000000, 0x40000000, 0x10000000

# The root of program 5 names directory 1, whose word for page 1 names table 1, which has the page's leaf.
PROGRAM, DIRECTORY, TABLE, PAGE, FRAME, NO_PROGRAM = 5, 1, 1, 1, 0x123, 63
DIRECTORY_INDEX = DIRECTORY_WORDS * DIRECTORY + PAGE // TABLE_WORDS
LEAF_INDEX = TABLE_WORDS * TABLE + PAGE % TABLE_WORDS
LEAF = PRESENT | VALID | WE | FRAME
ADDRESS = PAGE_BYTES * PAGE + 0xABC
DRAW = 2


def load(path):
    """The library, with the types of its calls: without them an answer would be cut to 32 bits."""
    library = CDLL(os.path.abspath(path))
    for name, types in CALLS.items():
        getattr(library, name).argtypes = types
        getattr(library, name).restype = c_uint64
    return library


def parts(answer):
    """The parts of an answer, as the header's readers give them."""
    return SimpleNamespace(
        address=answer & 0xFFFFFFFF,
        emptied=answer & 0xFFFFFFFF,
        kind=answer >> 32 & 0xFF,
        level=answer >> 40 & 15,
        in_global_tree=answer >> 44 & 1,
        loads=answer >> 48 & 15,
        has_address=answer >> 52 & 1,
        interrupts=answer >> 53 & 1,
        refusal=answer >> 56,
    )


def get_word(run, at):
    return int.from_bytes(run[at:at + 4], "big")


def put_word(run, at, word):
    run[at:at + 4] = word.to_bytes(4, "big")


def access_text(answer):
    if answer.refusal:
        return f"refused {answer.refusal}"
    if answer.has_address:
        return f"at {answer.address:08X}, loads {answer.loads}"
    level = f" at level {answer.level}" if answer.level else ""
    tree = " of the global tree" if answer.in_global_tree else ""
    interrupts = ", interrupts" if answer.interrupts else ""
    return f"fault {answer.kind}{level}{tree}, loads {answer.loads}{interrupts}"


class Unit:
    """A memory unit: its three runs, which live as long as it does and go into every call."""

    def __init__(self, library):
        self.library = library
        self.registers = (c_uint8 * REGISTER_BYTES)()
        self.buffer = (c_uint8 * BUFFER_BYTES)()
        self.tables = (c_uint8 * TABLE_BYTES_MAX)()
        self.runs = [self.registers, self.buffer, self.tables]

    def call(self, name, runs, *arguments):
        lent = [part for run in runs for part in (run, len(run))]
        return parts(getattr(self.library, name)(*lent, *arguments))

    def set_up(self):
        put_word(self.tables, 4 * PROGRAM, PRESENT | DIRECTORY)
        put_word(self.tables, 4 * DIRECTORY_INDEX, PRESENT | TABLE)
        put_word(self.tables, 4 * LEAF_INDEX, LEAF)
        self.accepted("start", self.call("mmu_start", [self.registers, self.buffer]))
        self.accepted("CONTEXT 5", self.set(CONTEXT, PROGRAM))
        self.accepted("CTRL 7", self.set(CTRL, INV_EXC | ACC_EXC | WE_EXC))
        self.accepted("ENABLE 1", self.set(ENABLE, 1))

    def accepted(self, step, answer):
        print(f"{step}: refusal {answer.refusal}")
        if answer.refusal:
            sys.exit(1)

    def set(self, number, value):
        return self.call("mmu_guarded_setting", [self.registers], number, value)

    def served(self, step, write=False):
        """A user's access of the page, served."""
        print(f"{step}: {access_text(self.call('mmu_served_access', self.runs, ADDRESS, True, write, DRAW))}")

    def raw(self, step):
        """A user's read of the page by the buffer alone, on a copy of the registers: the unit stays as it is."""
        copy = type(self.registers)(*self.registers)
        print(f"{step}: {access_text(self.call('mmu_raw_access', [copy, self.buffer], ADDRESS, True, False, DRAW))}")

    def store(self, step, index, word):
        answer = self.call("mmu_table_store", self.runs, index, word)
        print(f"{step}: refusal {answer.refusal}, slots emptied {answer.emptied}")

    def short_store(self):
        """A buffer of the wrong length, in a store that would have brought the page back."""
        short = (c_uint8 * (BUFFER_BYTES - 1)).from_buffer(self.buffer)
        return self.call("mmu_table_store", [self.registers, short, self.tables], LEAF_INDEX, LEAF)

    def refused(self, step, call):
        """What a refused call says, and whether it left the unit as it was before."""
        before = [bytes(run) for run in self.runs]
        answer = call()
        same = before == [bytes(run) for run in self.runs]
        print(f"{step}: refusal {answer.refusal}, bytes {'as before' if same else 'changed'}")

    def cause(self, step):
        page, program = divmod(get_word(self.registers, AT_TLB_HI), 64)
        value, write = divmod(get_word(self.registers, AT_CAUSE), 2)
        slot = get_word(self.registers, AT_SELECT)
        print(f"{step}: page {page}, program {program}, value {value}, {'write' if write else 'read'}, slot {slot}")


def main(path):
    unit = Unit(load(path))
    unit.set_up()
    unit.refused("CONTEXT 63", lambda: unit.set(CONTEXT, NO_PROGRAM))
    unit.served("first read, a miss")
    unit.served("second read, a hit")
    unit.served("write", write=True)
    unit.raw("raw read")
    unit.store("page aged, valid 0", LEAF_INDEX, LEAF & ~VALID)
    unit.served("read of the aged page")
    unit.cause("cause")
    unit.served("read again")
    unit.store("page touched, valid 1", LEAF_INDEX, LEAF)
    unit.served("write to it", write=True)
    unit.store("page given back, present 0", LEAF_INDEX, LEAF & ~PRESENT)
    unit.served("read of the page given back")
    unit.raw("raw read")
    unit.refused("store with a buffer of 511 bytes", unit.short_store)
    unit.served("read after it")
    unit.store("directory without a table", DIRECTORY_INDEX, 0)
    unit.served("read under it")
    unit.store("global root with number 0", GLOBAL_ROOT, PRESENT)
    unit.served("read after that")


if __name__ == "__main__":
    if len(sys.argv) != 2:
        sys.exit("use: python3 examples/grader.py LIBRARY, the shared library of mmu_c")
    main(sys.argv[1])
