"""Cases of the guest `walk`: a memory with page tables, registers, and probes with what is wanted of each. They are given to
the guest, and what it found is compared."""
import collections
import struct

import qemu

CASE, RESULTS = 0x6d6d75, 0x20000000        # as the guest has them
ALL = 2**64 - 1
SLOT = 421                                  # the slot of the root table that is the guest's own
TABLES = 0x0e000000                         # from here on memory is the guest's
ACCESSES = ('read', 'write', 'fetch')
RESERVED = 8                                # the bit of a fault's code that says that a reserved bit was set
ACCESSED, DIRTY = 0x20, 0x40
MARKS = ACCESSED | DIRTY

# An access to a byte, the place of it by the walk (or None), and what is wanted: ('byte', value), or None for any value,
# ('fault', code) or ('not canonical', None). `cr2` is what CR2 holds then; `ac` whether RFLAGS.AC is set.
Probe = collections.namedtuple('Probe', 'address access user place wanted cr2 ac', defaults=[False])
# `marked` has entries that granted accesses mark, by their places, with what they are then; None if it is not known.
Case = collections.namedtuple('Case', 'name memory frames registers probes marked', defaults=[None])
Found = collections.namedtuple('Found', 'vector error cr2 rip cs plain tagged')


def is_canonical(address):
    return address >> 47 in (0, 0x1ffff)


def sign_extended(address):
    address &= 2**48 - 1
    return address | 0xffff << 48 if address >> 47 else address


def may_probe(address, access):
    """Whether the guest can: its own slot is not the case's, and QEMU 7.2 ends at an instruction in the last byte of all."""
    return address >> 39 & 511 != SLOT and not (access == 'fetch' and address == ALL)


def tag_of(number):
    return number * 37 % 251 + 1


def packed(case):
    if case.frames << 12 > TABLES:
        raise ValueError(f'{case.name}: the guest lies at {TABLES:#x}')
    parts = [struct.pack('<9Q', CASE, case.frames, *case.registers, len(case.memory), len(case.probes))]
    parts += [struct.pack('<QQ', *word) for word in sorted(case.memory.items())]
    for number, probe in enumerate(case.probes):
        access = ACCESSES.index(probe.access) + (4 if probe.user else 0) + (8 if probe.ac else 0)
        parts.append(struct.pack('<4Q', probe.address, ALL if probe.place is None else probe.place, access, tag_of(number)))
    return b''.join(parts)


def is_right(probe, found, tag):
    """Whether the processor did what is wanted."""
    kind, value = probe.wanted
    if found.cr2 != probe.cr2:
        return False
    if kind == 'fault':
        return (found.vector, found.error) == (14, value)
    if kind == 'not canonical':
        return (found.vector, found.error) == (13, 0)
    if probe.access == 'fetch':
        return (found.vector, found.rip, found.cs) == (3, (probe.address + 1) & ALL, 0x23 if probe.user else 8)
    done = found.vector == (0x80 if probe.user else 0x100) and found.tagged == tag
    return done and (probe.access == 'write' or value is None or found.plain == value)


def is_known(probe, found):
    """Whether this is how QEMU 7.2 differs from the manual: of a fault at a reserved bit its code lacks bit 0 ("present")."""
    kind, value = probe.wanted
    return kind == 'fault' and value & RESERVED and (found.vector, found.error, found.cr2) == (14, value & ~1, probe.cr2)


class Tally:
    """How many agree, how many differ as QEMU is known to, how many entries are marked, and each disagreement as a line."""

    def __init__(self):
        self.agree, self.known, self.marked, self.wrong = 0, 0, 0, []

    def note_marks(self, case, changes):
        """Each entry is dirty if and only if a granted access makes it so, or it was; and accessed if one does. The processor may
        mark as accessed what a denied access went by, too."""
        after = {place: word for place, _, word in changes}
        for place in {*after, *case.marked}:
            was = case.memory.get(place, 0)
            wanted, found = case.marked.get(place, was) | was, after.get(place, was)
            if (wanted ^ found) & DIRTY or wanted & ~found & ACCESSED:
                self.wrong.append(f'{case.name}: the entry at {place:#x} was {was:#x}, is {found:#x}, wanted {wanted:#x}')
            self.marked += wanted != was

    def note(self, case, probe, found, tag):
        kind, value = probe.wanted
        who = ('user' if probe.user else 'supervisor') + (' with AC' if probe.ac else '')
        if is_right(probe, found, tag):
            self.agree += 1
        elif is_known(probe, found):
            self.known += 1
        else:
            wanted = kind if value is None else f'{kind} {value:#x}'
            place = 'nowhere' if probe.place is None else f'{probe.place:#x}'
            self.wrong.append(
                f'{case.name}: {probe.access} {probe.address:#x} by the {who}: wanted {wanted} at {place}, CR2 {probe.cr2:#x};'
                f' the processor has vector {found.vector:#x}, code {found.error:#x}, CR2 {found.cr2:#x}, RIP {found.rip:#x},'
                f' CS {found.cs:#x}, byte {found.plain:#x}, then {found.tagged:#x} where {tag:#x} was put')


def judge(file, case, tally):
    """Compares what was found of a case, which stands in the file next."""
    magic, not_memory, cr0, cr3, cr4, efer, probes, changed = struct.unpack('<8Q', file.read(64))
    if magic != CASE or probes != len(case.probes):
        raise qemu.Stopped(f'the guest stopped before {case.name}')
    # CR0 reads with ET, which is always set.
    wanted = (case.registers[0] | 0x10, *case.registers[2:])
    if (cr0, cr3, cr4, efer) != wanted:
        tally.wrong.append(f'{case.name}: CR0, CR3, CR4, EFER are {cr0:#x} {cr3:#x} {cr4:#x} {efer:#x}, wanted {wanted}')
    if not_memory:
        tally.wrong.append(f'{case.name}: {not_memory} words do not read as they were written')
    for number, probe in enumerate(case.probes):
        tally.note(case, probe, Found(*struct.unpack('<7Q', file.read(56))), tag_of(number))
    return [struct.unpack('<3Q', file.read(24)) for _ in range(changed)]


def compare(guest, cases, may_mark=False):
    """Has the processor make all probes of the cases. No word of a memory changes, but for marks in entries if it may."""
    tally = Tally()
    with qemu.memory_after(guest, b''.join(map(packed, cases))) as file:
        file.seek(RESULTS)
        for case in cases:
            changes = judge(file, case, tally)
            if case.marked is not None:
                tally.note_marks(case, changes)
            for place, before, after in changes:
                is_mark = may_mark and before & 1 and not (before ^ after) & ~MARKS
                if not is_mark:
                    tally.wrong.append(f'{case.name}: the word at {place:#x} was {before:#x} and is {after:#x}')
    return tally


def told(guest, cases, what, may_mark=False):
    """Compares, prints what is wrong and a last line with counts, and answers the status."""
    tally = compare(guest, cases, may_mark)
    for line in tally.wrong[:40]:
        print('WRONG', line)
    total = tally.agree + tally.known + len(tally.wrong)
    known = f', {tally.known} known differences of QEMU' if tally.known else ''
    marked = f'; {tally.marked} entries are marked as wanted' if tally.marked and not tally.wrong else ''
    print(f'{len(cases)} {what}: {total} probes, {tally.agree} agree, {len(tally.wrong)} disagree{known}{marked}')
    return 1 if tally.wrong or not tally.agree else 0
