"""Descriptor tables and values of registers: the guest `registers` has the processor use them, and what it raises is compared."""
import collections
import os
import re
import struct

import asking
import events
import qemu
import tables
import values

CASE, RESULTS = 0x726567, tables.LAYOUT['RESULTS']      # as the guest has them
SELECTOR, PAGE_FAULT = (10, 11, 12, 13), 14             # the exceptions whose codes are those of x86_tables
WITH_CODE = (8, 17, 21, 29, 30)                         # others that have a code
BUSY, ACCESSED = 1 << 41, 1 << 40                       # what the processor marks in descriptors
# Which accesses a breakpoint stops, a bit each: a read and a write of its first byte, of its last one, and of the byte behind;
# a fetch; a port.
STOPPED = {'fetch': 0b01000000, 'write': 0b00001010, 'port': 0b10000000, 'access': 0b00001111}

with open(os.path.join(tables.HERE, 'guest', 'pieces.S')) as file:
    PIECES = re.findall(r'^ +piece (\w+)', file.read(), re.M)

# What an event raised, where the interrupted code and the handler then were, and RAX.
Outcome = collections.namedtuple('Outcome', 'vector code cr2 rip cs rsp rflags rax')


class Trial:
    """A case with its tables, and with the numbers of its events."""

    def __init__(self, program, case, breakpoints=()):
        self.case, self.breakpoints = case, list(breakpoints)
        given = asking.numbers_named(program, [f'descriptor {case.descriptor}'])[0] if case.descriptor else 0
        self.tables = tables.made(program, given, case.gates)
        asked = [f'{name} {getattr(event, name)}' for event in case.events for name in ('cr0', 'cr4', 'efer') if getattr(event, name)]
        self.registers = dict(zip(asked, asking.numbers_named(program, asked))) if asked else {}

    def packed(self, made):
        """The case as the guest has it, over these tables."""
        case = self.case
        parts = [struct.pack('<Q', CASE), tables.packed(made), struct.pack('<QQ', len(case.events), len(self.breakpoints))]
        for event in case.events:
            registers = [self.registers.get(f'{name} {getattr(event, name)}', 0) for name in ('cr0', 'cr4', 'efer')]
            parts.append(struct.pack('<7Q', PIECES.index(event.piece), event.user, event.argument, event.rflags, *registers))
        parts += [struct.pack('<3Q', point.dr7, point.number, point.bytes) for point in self.breakpoints]
        return b''.join(parts)

    def read(self, file):
        """Reads what was found of it, which stands in the file next."""
        magic, self.gdtr, self.idtr, *rest = struct.unpack('<Q16s16s11Q', file.read(128))
        if magic != CASE:
            raise qemu.Stopped(f'the guest stopped before {self.case.name}')
        self.loaded, self.gdt = rest[:3], rest[3:]
        self.outcomes = [Outcome(*struct.unpack('<8Q', file.read(64))) for _ in self.case.events]
        self.stopped = [struct.unpack('<Q', file.read(8))[0] for _ in self.breakpoints]


def run(guest, trials, made=None):
    """Has the processor run the trials, over their own tables or over others."""
    every = made or [trial.tables for trial in trials]
    with qemu.memory_after(guest, b''.join(map(Trial.packed, trials, every))) as file:
        file.seek(RESULTS)
        for trial in trials:
            trial.read(file)


def meanings(program, found):
    """What x86_tables says of vectors and codes, by (vector, code)."""
    found = sorted(set(found))
    names = [' '.join(words) for words in asking.values(program, [f'exception {vector:x}' for vector, _ in found])]
    texts = {}
    for (vector, code), name in zip(found, names):
        if vector in SELECTOR or vector == PAGE_FAULT:
            command = 'page-fault' if vector == PAGE_FAULT else 'selector'
            name = ' '.join([name, *asking.values(program, [f'{command} {code:x}'])[0]])
        elif vector in WITH_CODE or code:
            name = f'{name} {code:#x}'
        texts[vector, code] = f'interrupt {vector:#x}' if name == 'none' else name
    return texts


class Tally:
    """How many are right, how many differ as QEMU is known to, and each disagreement as a line."""

    def __init__(self):
        self.right, self.known, self.wrong = 0, 0, []

    def note(self, is_right, text, is_known=False):
        if is_right:
            self.right += 1
        elif is_known:
            self.known += 1
        else:
            self.wrong.append(text)


def fits_gate(trial, event, outcome):
    """Whether the handler began as its gate says: on its stack, or on that of its ring, where five words were pushed, beside a
    code; and with interrupts off, or as they were."""
    gate = {**tables.GATES, **trial.case.gates}.get(outcome.vector, tables.Gate())
    on = bool(event.rflags & events.INTERRUPTS) and not gate.off
    if bool(outcome.rflags & events.INTERRUPTS) != on:
        return False
    if gate.stack or event.user:
        return outcome.rsp == (tables.STACKS[gate.stack - 1] if gate.stack else tables.RING0) - 40
    return outcome.rsp >= tables.HANDLERS


def is_as(event, outcome, said):
    """Whether this is what came of an event."""
    address = event.argument - 8 if event.piece == 'push' else event.argument
    return (said == event.wanted and event.result in (None, outcome.rax) and
            (outcome.vector != PAGE_FAULT or outcome.cr2 == address))


def judge_events(trial, texts, tally):
    for event, outcome in zip(trial.case.events, trial.outcomes):
        said, fits = texts[outcome.vector, outcome.code], fits_gate(trial, event, outcome)
        result = '' if event.result is None else f' with {event.result:#x}'
        found = ', '.join(f'{name} {value:#x}' for name, value in outcome._asdict().items())
        text = f'{trial.case.name}: {event.name}: wanted {event.wanted}{result}; the processor has {said}: {found}'
        known = event.qemu and is_as(event._replace(**event.qemu), outcome, said) and fits
        tally.note(is_as(event, outcome, said) and fits, text, known)


def judge_breakpoints(trial, tally):
    for point, stopped in zip(trial.breakpoints, trial.stopped):
        for bit in range(8):
            is_stopped = stopped >> bit & 1
            tally.note(is_stopped == STOPPED[point.condition] >> bit & 1, f'{point}: access {bit} is {"" if is_stopped else "not "}stopped')


def judge_registers(trial, tally):
    """Looks at what the registers say of the tables."""
    made, name = trial.tables, trial.case.name
    selectors = [made.selectors.code, made.selectors.data, made.selectors.task]
    tally.note(trial.gdtr[:10] == made.gdtr, f'{name}: SGDT stores {trial.gdtr.hex()}, wanted {made.gdtr.hex()}')
    tally.note(trial.idtr[:10] == made.idtr, f'{name}: SIDT stores {trial.idtr.hex()}, wanted {made.idtr.hex()}')
    tally.note(trial.loaded == selectors, f'{name}: CS, SS and TR are {trial.loaded}, wanted {selectors}')


def judge_marks(trial, tally):
    """Looks at what the processor marked in the global descriptor table."""
    made, accessed, given = trial.tables, trial.case.accessed, trial.tables.selectors.given >> 3
    marked = list(made.gdt)
    marked[made.selectors.task >> 3] |= BUSY
    if accessed or accessed is None and trial.gdt[given] != marked[given]:
        marked[given] |= ACCESSED
    found, wanted = ([hex(word) for word in words] for words in (trial.gdt, marked))
    tally.note(found == wanted, f'{trial.case.name}: the table has {found}, wanted {wanted}')


def judged(program, trials):
    texts = meanings(program, [outcome[:2] for trial in trials for outcome in trial.outcomes])
    tally = Tally()
    for trial in trials:
        judge_registers(trial, tally)
        judge_events(trial, texts, tally)
        judge_breakpoints(trial, tally)
    return tally


def supported_states(program, guest):
    """The states of XCR0 that the processor has: EDX and EAX of leaf 13 of CPUID."""
    trial = Trial(program, events.Case('features', [events.Event('states', 'features', argument=0xd)]))
    run(guest, [trial])
    return trial.outcomes[0].rax


def told(program, guest):
    """Compares, prints what is wrong and a last line with counts, and answers the status."""
    every = values.values(program, supported_states(program, guest))
    trials = [
        Trial(program, events.Case('exceptions', events.EXCEPTIONS)),
        *(Trial(program, case) for case in (*events.OTHER_GATES, *events.DESCRIPTORS)),
        Trial(program, events.Case('flags', events.FLAGS)),
        Trial(program, events.Case('values', every), values.breakpoints(program)),
    ]
    run(guest, trials)
    tally = judged(program, trials)
    for trial in trials:
        judge_marks(trial, tally)
    for line in tally.wrong[:40]:
        print('WRONG', line)
    print(f'{len(trials)} tables: {tally.right} right, {len(tally.wrong)} wrong, {tally.known} known differences of QEMU')
    return 1 if tally.wrong or not tally.right else 0
