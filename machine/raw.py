"""Random raw page tables, of kinds that no other program of the repository makes: well formed ones with any bits that a
processor ignores, and odd ones. What is wanted of each access is what `walk_image` says of the words."""
import random
import subprocess

import cases

FRAMES, ROOT = 2048, 0x1000
WIDTH = 40                                  # the bits of a physical address of QEMU's processor `max`
FIRST_PAGE, LAST_PAGE = 64, 512             # frames of pages; tables are below, large pages behind
IGNORED = 0x18 | 7 << 9 | 0x7f << 52        # PWT, PCD, and the bits for software
KINDS = {
    'plain': 6, 'page of 1 GiB': 2, 'page of 1 GiB, askew': 1, 'PAT of a large page': 1, 'large page, askew': 2, 'bit 7 in the root': 1,
    'address beyond the width': 2, 'page beyond the memory': 1, 'table beyond the memory': 1, 'table that is met twice': 1,
}


class Tables:
    """Tables that grow by walks of random addresses."""

    def __init__(self, draw, kind):
        self.draw, self.kind = draw, kind
        self.memory, self.below, self.free = {}, {}, draw.sample(range(2, FIRST_PAGE), FIRST_PAGE - 2)
        self.tables = {4: [ROOT], 3: [], 2: [], 1: []}
        self.slots = draw.sample([k for k in range(512) if k != cases.SLOT], 3) + [0, 511]

    def rights(self):
        draw = self.draw
        bits = 1 | draw.choice([2, 2, 2, 0]) | draw.choice([4, 4, 4, 0]) | draw.choice([0, 0, 0, 1 << 63])
        return bits | draw.getrandbits(64) & IGNORED | draw.choice([0, 0x20]) | draw.choice([0, 0x40])

    def page(self):
        # Bit 7 is PAT here.
        return self.draw.randrange(FIRST_PAGE, LAST_PAGE) << 12 | self.draw.choice([0, 0x80]) | self.draw.choice([0, 0x100])

    def large_page(self):
        askew = self.draw.choice([1 << 13, 1 << 20]) if self.kind == 'large page, askew' else 0
        pat = 1 << 12 if self.kind == 'PAT of a large page' else 0
        return self.draw.choice([512, 1024, 1536]) << 12 | 0x80 | pat | askew | self.draw.choice([0, 0x100])

    def table(self, level):
        """A table of the level, new or not."""
        known = self.tables[level]
        again = 0.15 if self.kind == 'table that is met twice' else 0
        if known and (not self.free or self.draw.random() < again):
            return self.draw.choice(known)
        known.append(self.free.pop() << 12)
        return known[-1]

    def entry(self, level):
        """An entry of a table that is `level` steps from a page, and the table to which it leads, if it does."""
        draw, kind, rights = self.draw, self.kind, self.rights()
        beyond = FRAMES + draw.randrange(1000) << 12
        if draw.random() < 0.08:
            return draw.getrandbits(64) & ~1, None
        if kind == 'address beyond the width' and draw.random() < 0.3:
            rights |= 1 << draw.randrange(WIDTH, 52)
        if level == 1:
            return (beyond if kind == 'page beyond the memory' else self.page()) | rights, None
        if level == 2 and draw.random() < 0.3:
            return self.large_page() | rights, None
        if level == 3 and kind.startswith('page of 1 GiB') and draw.random() < 0.5:
            return rights | 0x80 | draw.choice([0, 0x100, 0x1000]) | (1 << draw.randrange(13, 30) if 'askew' in kind else 0), None
        if kind == 'table beyond the memory' and level == 2:
            return beyond | rights, None
        if kind == 'bit 7 in the root' and level == 4 and draw.random() < 0.5:
            rights |= 0x80
        table = self.table(level - 1)
        return table | rights, table

    def grow(self):
        """The indices of a random walk, along which entries are made, as an address."""
        table, address = ROOT, 0
        for level in (4, 3, 2, 1):
            index = self.draw.choice(self.slots) if level == 4 else self.draw.choice([0, 1, 2, 511, self.draw.randrange(512)])
            address = address << 9 | index
            if table is not None:
                place = table + 8 * index
                if place not in self.memory:
                    self.memory[place], self.below[place] = self.entry(level)
                table = self.below[place]
        return cases.sign_extended(address << 12 | self.draw.choice([0, 0xfff, self.draw.randrange(4096)]))


def answers(program, memory, addresses):
    """What the program says of the accesses to each address: the physical address of the byte and None, or None and the code of
    the fault."""
    numbers = [WIDTH, FRAMES, ROOT, len(memory), *(number for word in memory.items() for number in word), *addresses]
    text = ' '.join(f'{number:x}' for number in numbers)
    done = subprocess.run([program], input=text, stdout=subprocess.PIPE, check=True, text=True)
    for address, line in zip(addresses, done.stdout.splitlines(), strict=True):
        told, *words = line.split()
        if int(told, 16) != address:
            raise ValueError(f'{program} answers for {told}, and not for {address:#x}')
        for (user, access), word in zip([(user, access) for user in (False, True) for access in cases.ACCESSES], words, strict=True):
            fault = word.startswith('fault:')
            yield address, access, user, None if fault else int(word, 16), int(word[6:], 16) if fault else None


def case_of(program, kind, number):
    draw = random.Random(f'{kind} {number}')
    tables, found = Tables(draw, kind), []
    for _ in range(60):
        address = tables.grow()
        found += [address, address ^ 1 << draw.randrange(12, 47)]
    memory = tables.memory
    for frame in range(FIRST_PAGE, FRAMES, 7):
        memory[frame << 12 | draw.randrange(512) << 3] = draw.getrandbits(64)
    asked = list(answers(program, memory, [address for address in dict.fromkeys(found) if cases.is_canonical(address)]))
    draw.shuffle(asked)
    probes, cr2 = [], 0
    for address, access, user, place, code in asked:
        # A page of 1 GiB holds tables, and the guest too.
        if cases.may_probe(address, access) and (place is None or FIRST_PAGE << 12 <= place < cases.TABLES):
            cr2 = cr2 if code is None else address
            wanted = ('byte', byte_at(memory, place)) if code is None else ('fault', code)
            probes.append(cases.Probe(address, access, user, place, wanted, cr2))
    return cases.Case(f'{kind}, {number}', memory, FRAMES, [0x80010001, 0, ROOT, 0x20, 0xd00], probes)


def byte_at(memory, place):
    """The byte at a place; None behind the memory of the case, where another case may have left any."""
    return memory.get(place & ~7, 0) >> 8 * (place & 7) & 255 if place < FRAMES << 12 else None


def all_cases(program):
    return [case_of(program, kind, number) for kind, count in KINDS.items() for number in range(count)]
