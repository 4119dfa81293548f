"""Descriptor tables for the guest `registers`, byte for byte as `register_image` prints them."""
import collections
import os
import re
import struct

import asking

HERE = os.path.dirname(os.path.abspath(__file__))
with open(os.path.join(HERE, 'guest', 'layout.h')) as file:
    LAYOUT = {name: int(value, 0) for name, value in re.findall(r'#define (\w+) (\w+)', file.read())}
BASE = LAYOUT['BASE']
TABLES = BASE + LAYOUT['TABLES']
TSS, IDT, MAP = TABLES + 0x1000, TABLES + 0x2000, TABLES + 0x1000 + 104
HANDLERS = BASE + LAYOUT['GUEST'] + 0x10000             # 16 bytes for each vector
RING0 = TABLES + 0x11000                                # the end of the stack of ring 0
STACKS = [TABLES + 0x21000 + 0x1000 * n for n in range(7)]
PORTS = (0x80, 0xe9)                                    # those that ring 3 may use, of the first 256

# A gate: the least privileged ring, the stack from 1 on, whether interrupts are off, and whether it is present.
Gate = collections.namedtuple('Gate', 'ring stack off present', defaults=(0, 0, 1, 1))
GATES = {
    3: Gate(ring=3, off=0), 6: Gate(stack=7), 8: Gate(stack=1), 11: Gate(stack=3), 12: Gate(stack=4), 14: Gate(stack=2),
    0x80: Gate(ring=3), 0x90: Gate(present=0),
}
Selectors = collections.namedtuple('Selectors', 'code data user_data user_code given task')
Tables = collections.namedtuple('Tables', 'selectors gdt gdtr idtr tss map idt')


def map_of_ports():
    """A bit for each port, which is set if ring 3 may not use it, and the byte that ends the map."""
    bits = bytearray(b'\xff' * 33)
    for port in PORTS:
        bits[port // 8] &= ~(1 << port % 8)
    return bytes(bits)


def questions(given, gates):
    """What is asked for the tables with a descriptor that is given, and with gates beside those of GATES."""
    gates = {**{vector: Gate() for vector in range(256)}, **GATES, **gates}
    every = [number for vector, gate in gates.items() for number in (vector, HANDLERS + 16 * vector, *gate)]
    return [
        asking.spelled('gdt', TABLES, given, TSS, MAP, MAP - TSS, RING0, *STACKS, *map_of_ports()),
        asking.spelled('idt', IDT, 8, *every),
    ]


def made(program, given, gates):
    """The tables."""
    lines = [line.split() for line in asking.asked(program, questions(given, gates))]
    found = {words[0]: asking.numbers(words[1:]) for words in lines}
    idt = b''.join(bytes(asking.numbers(words[1:])) for words in lines if words[0] == 'gate')
    parts = [bytes(found[name]) for name in ('gdtr', 'idtr', 'tss')]
    return Tables(Selectors(*found['selectors']), found['gdt'], *parts, map_of_ports(), idt)


def packed(tables):
    """The tables as the guest has them."""
    selectors = tables.selectors
    return b''.join([
        tables.gdtr.ljust(16, b'\0'), tables.idtr.ljust(16, b'\0'), struct.pack('<3Q', selectors.code, selectors.data, selectors.task),
        struct.pack('<8Q', *tables.gdt), tables.tss, tables.map.ljust(40, b'\0'), tables.idt,
    ])
