"""Whether a wrong word would be found: after the program answered, a bit is flipped in an entry on the way to a page. Each such
change has to be found, but for those that change nothing for a processor."""
import random

import cases
import scripts

BITS = (0, 1, 2, 5, 6, 12, 13, 20, 38, 63)
PRESENT, WRITE, USER, ACCESSED, DIRTY = 1, 2, 4, 0x20, 0x40


def pages_from(memory, table, level=4, start=0, rights=(True, True, True), way=()):
    """What walks find below a table: of each page its first address, the bits of the address that it leaves, its frame and
    rights, and whether a processor would mark an entry; and the places of the entries on the way to it."""
    for index in range(512):
        place = table + 8 * index
        entry = memory.get(place, 0)
        if not entry & PRESENT or level == 4 and index == cases.SLOT:
            continue
        write, user, fetch = rights
        mine = write and bool(entry & WRITE), user and bool(entry & USER), fetch and not entry >> 63
        address, bits = start | index << 12 + 9 * (level - 1), 12 + 9 * (level - 1)
        is_last = level == 1 or level == 2 and entry & scripts.LARGE
        marks = not entry & ACCESSED or is_last and mine[0] and not entry & DIRTY
        if is_last:
            # A large page has PAT in bit 12, and the rest of its low address bits are reserved.
            frame, reserved = entry & scripts.FRAME & -1 << bits, entry & scripts.FRAME & (1 << bits) - 1 & ~0x1000
            yield (address, bits, frame, reserved, mine, marks), (*way, place)
        else:
            for (*page, marked), places in pages_from(memory, entry & scripts.FRAME, level - 1, address, mine, (*way, place)):
                yield (*page, marked or marks), places


def planted(case, draw):
    """The case with a bit flipped, and how many were tried that change nothing."""
    root = case.registers[2]
    before = list(pages_from(case.memory, root))
    pages, places = {page for page, _ in before}, sorted({place for _, way in before for place in way})
    silent = 0
    while places:
        place, bit = draw.choice(places), draw.choice(BITS)
        memory = {**case.memory, place: case.memory[place] ^ 1 << bit}
        if {page for page, _ in pages_from(memory, root)} != pages:
            return case._replace(memory=memory, name=f'{case.name}, bit {bit} of the entry at {place:#x}'), silent
        silent += 1
    return None, silent


def told(guest, found_cases):
    """Looks for two wrong words in each case, prints those that are not found and a last line with counts, and answers the status."""
    draw = random.Random(1)
    found = missed = silent = 0
    for case in found_cases:
        for _ in range(2):
            wrong, quiet = planted(case, draw)
            silent += quiet
            if wrong is None:
                continue
            if cases.compare(guest, [wrong]).wrong:
                found += 1
            else:
                missed += 1
                print('WRONG not found:', wrong.name)
    print(f'{found + missed} flipped bits, {found} found, {missed} missed, beside {silent} that change nothing')
    return 1 if missed or not found else 0
