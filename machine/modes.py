"""Random raw page tables in each mode of a processor: CR0.WP, EFER.NXE, CR4.SMEP and CR4.SMAP, each access with RFLAGS.AC and without,
and bit 8 of root entries where it is ignored. What is wanted is what the library for emulators says, by the program `translate`."""
import collections
import itertools
import random
import subprocess

import cases
import raw

WP, NXE, SMEP, SMAP, IGNORES_BIT_8 = 1, 2, 4, 8, 32     # as limzhur_guest.h has them
MODES = [sum(bits) for bits in itertools.product((0, WP), (0, NXE), (0, SMEP), (0, SMAP), (0, IGNORES_BIT_8))]
WHO = [(user, ac) for user in (False, True) for ac in (False, True)]
MEMORIES = 21                               # of each mode

# What the library says of an access, and the entries on its way: their places, with what is written back.
Access = collections.namedtuple('Access', 'address access user ac place code way')


class Tables(raw.Tables):
    """Tables whose root entries may have bit 8, if it is ignored."""

    def __init__(self, draw, kind, mode):
        super().__init__(draw, kind)
        self.mode = mode

    def entry(self, level):
        entry, table = super().entry(level)
        return (entry | self.draw.choice([0, 0x100]) if level == 4 and self.mode & IGNORES_BIT_8 else entry), table


def registers(mode):
    """CR0, CR2, CR3, CR4 and EFER."""
    cr0 = 0x80000001 | (1 << 16 if mode & WP else 0)
    cr4 = 0x20 | (1 << 20 if mode & SMEP else 0) | (1 << 21 if mode & SMAP else 0)
    return [cr0, 0, raw.ROOT, cr4, 0x500 | (1 << 11 if mode & NXE else 0)]


def answers(program, mode, memory, addresses):
    """What the program says of the accesses to each address."""
    numbers = [mode, raw.WIDTH, raw.FRAMES, raw.ROOT, len(memory), *(number for word in memory.items() for number in word), *addresses]
    text = ' '.join(f'{number:x}' for number in numbers)
    done = subprocess.run([program], input=text, stdout=subprocess.PIPE, check=True, text=True)
    for address, line in zip(addresses, done.stdout.splitlines(), strict=True):
        told, *words = line.split()
        if int(told, 16) != address:
            raise ValueError(f'{program} answers for {told}, and not for {address:#x}')
        way = [tuple(int(part, 16) for part in word.split(':')) for word in words[12:]]
        for ((user, ac), access), word in zip(itertools.product(WHO, cases.ACCESSES), words[:12], strict=True):
            fault = word.startswith('fault:')
            yield Access(address, access, user, ac, None if fault else int(word, 16), int(word[6:], 16) if fault else None, way)


def may_probe(it):
    """A page of 1 GiB holds tables, and the guest too."""
    return cases.may_probe(it.address, it.access) and (it.place is None or raw.FIRST_PAGE << 12 <= it.place < cases.TABLES)


def probes_of(memory, asked):
    """The probes, and which entries granted ones mark, with what they are then."""
    probes, marked, cr2 = [], {}, 0
    for it in filter(may_probe, asked):
        cr2 = cr2 if it.code is None else it.address
        wanted = ('byte', raw.byte_at(memory, it.place)) if it.code is None else ('fault', it.code)
        probes.append(cases.Probe(it.address, it.access, it.user, it.place, wanted, cr2, it.ac))
        for place, after_read, after_write in it.way if it.code is None else ():
            marked[place] = marked.get(place, 0) | (after_write if it.access == 'write' else after_read)
    return probes, marked


def case_of(program, mode, number):
    kind = list(raw.KINDS)[number % len(raw.KINDS)]
    draw = random.Random(f'mode {mode} {number}')
    tables, found = Tables(draw, kind, mode), []
    for _ in range(60):
        address = tables.grow()
        found += [address, address ^ 1 << draw.randrange(12, 47)]
    memory = tables.memory
    for frame in range(raw.FIRST_PAGE, raw.FRAMES, 7):
        memory[frame << 12 | draw.randrange(512) << 3] = draw.getrandbits(64)
    asked = list(answers(program, mode, memory, [address for address in dict.fromkeys(found) if cases.is_canonical(address)]))
    draw.shuffle(asked)
    return cases.Case(f'mode {mode}, {kind}, {number}', memory, raw.FRAMES, registers(mode), *probes_of(memory, asked))


def all_cases(program):
    return [case_of(program, mode, n * MEMORIES + k) for n, mode in enumerate(MODES) for k in range(MEMORIES)]
