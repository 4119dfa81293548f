"""Whether a wrong bit of a descriptor table would be found: after the program answered, one is flipped. Each such bit changes
what the processor does at what is tried, which has to be found; where the guest cannot go on then, that is found too."""
import events
import qemu
import registers
from tables import GATES


def gate(vector, bit):
    return 'idt', 8 * 16 * vector + bit


def word(number, bit):
    return 'gdt', 64 * number + bit


# Of gates (AMD64 manual, volume 2, section 4.8.4), of descriptors (4.7, 4.8) and of the task state segment (12.2.5).
BITS = {
    **{f'the stack of gate {vector}': gate(vector, 32) for vector in (6, 11, 14)},
    **{f'the handler of gate {vector}': gate(vector, 4) for vector in (0, 3, 6, 11, 13, 14, 0x31, 0x80)},
    **{f'the segment of gate {vector}': gate(vector, 20) for vector in (0, 13, 0x80)},
    **{f'gate {vector} is present': gate(vector, 47) for vector in (3, 6, 14, 0x31, 0x80, 0x90)},
    **{f'the kind of gate {vector}': gate(vector, 40) for vector in (3, 6, 0x80)},
    **{f'the system bit of gate {vector}': gate(vector, 44) for vector in (3, 14)},
    **{f'the ring of gate {vector}': gate(vector, 45) for vector in (3, 0x80)},
    'code of the kernel is present': word(1, 47),
    'code of the kernel is of 64 bits': word(1, 53),
    'the ring of code of the kernel': word(1, 45),
    'data of the kernel can be written': word(2, 41),
    'data of the kernel is present': word(2, 47),
    'the ring of data of the kernel': word(2, 46),
    'data of users is present': word(3, 47),
    'the ring of data of users': word(3, 45),
    'code of users is code': word(4, 43),
    'code of users is of 64 bits': word(4, 53),
    'the segment of the task is no data': word(6, 44),
    'where the segment of the task lies': word(6, 16 + 12),
    'the length of the segment of the task': word(6, 7),
    'the stack of ring 0': ('tss', 8 * 4 + 12),
    **{f'stack {GATES[vector].stack}': ('tss', 8 * (36 + 8 * (GATES[vector].stack - 1)) + 12) for vector in (6, 11, 14)},
    'where the map of ports lies': ('tss', 8 * 102 + 4),
    **{f'port {port:#x}': ('map', port) for port in (0x80, 0x81, 0xe8, 0xe9)},
    'the end of the global table': ('gdtr', 5),
    'where the interrupt table lies': ('idtr', 16 + 13),
}


def flipped(made, part, bit):
    """The tables with a bit flipped."""
    if part == 'gdt':
        words = list(made.gdt)
        words[bit // 64] ^= 1 << bit % 64
        return made._replace(gdt=words)
    changed = bytearray(getattr(made, part))
    changed[bit // 8] ^= 1 << bit % 8
    return made._replace(**{part: bytes(changed)})


def is_found(program, guest, trial, made):
    """Whether anything comes otherwise over the tables than over those of the trial."""
    try:
        registers.run(guest, [trial], [made])
    except qemu.Stopped:
        return True
    return bool(registers.judged(program, [trial]).wrong)


def told(program, guest):
    """Prints the bits that are not found and a last line with counts, and answers the status."""
    trial = registers.Trial(program, events.Case('exceptions', events.EXCEPTIONS))
    missed = [name for name, where in BITS.items() if not is_found(program, guest, trial, flipped(trial.tables, *where))]
    for name in missed:
        print('WRONG not found:', name)
    print(f'{len(BITS)} flipped bits, {len(BITS) - len(missed)} found, {len(missed)} missed')
    return 1 if missed else 0
