"""Cases from scripts of calls: the program serves them, and says of each probe what it answers and where its walk arrives. A
script is looked at where it ends, and in its middle."""
import glob
import os
import random
import subprocess

import cases

SAMPLE = 24                                 # addresses around the bounds of regions
PRESENT, LARGE, FRAME = 1, 0x80, 0x000ffffffffff000
SIX = [(access, user) for access in cases.ACCESSES for user in (False, True)]


class Image:
    """What the program prints of a machine."""

    def __init__(self, program, words, lines):
        text = ''.join(line + '\n' for line in lines)
        done = subprocess.run([program, *words], input=text, stdout=subprocess.PIPE, check=True, text=True)
        self.lines = done.stdout.splitlines()
        found = [line.split() for line in self.lines]
        self.regions = [tuple(int(x, 0) for x in line[1].split('+')) for line in found if line[0] == 'region']
        self.registers = next([int(x, 0) for x in line[1:]] for line in found if line[0] == 'registers')
        self.frames = next(int(line[1]) for line in found if line[0] == 'memory')
        self.memory = {int(line[1], 0): int(line[2], 0) for line in found if line[0] == 'word'}


def read_script(path):
    """The words and the lines of a script; a line '# heap WORDS..' has the words."""
    with open(path, encoding='ascii') as file:
        lines = file.read().splitlines()
    words = [line.split()[2:] for line in lines if line.startswith('# heap')]
    return words[0] if words else [], [line for line in lines if not line.startswith('#')]


def edges(draw, regions):
    """Addresses at and around the bounds of regions and of slots of 2 MiB, and far from all."""
    found = []
    for start, pages in regions:
        end = start + 4096 * pages
        found += [start, end - 1, start - 1, start - 4096, end, end + draw.randrange(2**21)]
        found += [start ^ 1 << draw.choice([21, 25, 30, 35, 39, 46])]
        slots = range(start >> 21, (end - 1 >> 21) + 1)
        for slot in draw.sample(slots, min(2, len(slots))):
            found += [slot << 21, (slot << 21) - 1, slot << 21 | draw.randrange(2**21)]
    found = draw.sample(found, min(SAMPLE, len(found)))
    found += [0, 4095, 2**47 - 1, cases.ALL, 0xffff800000000000, draw.randrange(2**47), cases.sign_extended(draw.randrange(2**48))]
    found += [2**47, draw.randrange(2**47, 2**63), 0xffff7fffffffffff]
    return [address & cases.ALL for address in found]


def is_in_large_page(memory, table, address):
    """Whether the walk of an address ends at an entry of a large page."""
    for level in (39, 30, 21):
        entry = memory.get(table + 8 * (address >> level & 511), 0)
        if not entry & PRESENT:
            return False
        table = entry & FRAME
    return bool(entry & LARGE)


def accesses(draw, image):
    """Each access at an address of every page of 4 KiB and of every large page, of the other pages in it one."""
    found = [(address, *kind) for address in edges(draw, image.regions) for kind in SIX]
    for start, pages in image.regions:
        for page in range(start, start + 4096 * pages, 4096):
            is_inner = page % 2**21 and is_in_large_page(image.memory, image.registers[2], page)
            address = page + draw.randrange(4096)
            found += [(address, *kind) for kind in ([draw.choice(SIX)] if is_inner else SIX)]
    draw.shuffle(found)
    return [it for it in found if cases.may_probe(it[0], it[1])]


def probe_of(access, answer, walk):
    """The probe with what the program answers."""
    address, kind, user = access
    _, cr2, _, place = walk.split()
    word, *rest = answer.split()
    if word == 'byte':
        wanted = 'byte', int(rest[0], 16)
    elif word == 'fault':
        wanted = 'fault', int(rest[0], 16)
    else:
        wanted = 'not canonical' if answer == 'refused not-canonical' else answer, None
    return cases.Probe(address, kind, user, None if place == 'none' else int(place, 16), wanted, int(cr2, 16))


def case_of(program, draw, name, words, lines):
    """The machine that the lines leave, with probes."""
    before = Image(program, words, lines)
    wanted = accesses(draw, before)
    asked = [f'probe {address:#x} {kind}{" user" if user else ""}' for address, kind, user in wanted]
    image = Image(program, words, lines + asked)
    walks = [n for n, line in enumerate(image.lines) if line.startswith('cr2 ')][len(walks_of(before)):]
    probes = [probe_of(access, image.lines[n - 1], image.lines[n]) for access, n in zip(wanted, walks, strict=True)]
    registers = list(image.registers)
    registers[1] = before.registers[1]
    return cases.Case(name, image.memory, image.frames, registers, probes)


def walks_of(image):
    return [line for line in image.lines if line.startswith('cr2 ')]


def all_cases(program, folder):
    """Each script, at a third, at two thirds and at its end."""
    found = []
    for path in sorted(glob.glob(os.path.join(folder, '*.txt'))):
        words, lines = read_script(path)
        name = os.path.basename(path)[:-4]
        draw = random.Random(name)
        ends = sorted({len(lines) // 3, 2 * len(lines) // 3, len(lines)} - {0})
        found += [case_of(program, draw, f'{name} after {end} calls', words, lines[:end]) for end in ends]
    return found
