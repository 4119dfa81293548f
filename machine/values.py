"""Values of registers, by the names of their flags, which are written and read back; and what MXCSR and DR7 do."""
import collections
import itertools

import asking
from events import BASES, STATES, VECTORS, Event

# A breakpoint of a debug address register: DR7, what it waits for, and how many bytes it watches.
Breakpoint = collections.namedtuple('Breakpoint', 'dr7 number condition bytes')

CR0 = ['', 'WRITE_PROTECT', 'NUMERIC_ERROR', 'MONITOR_COPROCESSOR', 'EMULATE_COPROCESSOR', 'TASK_SWITCHED', 'ALIGNMENT_MASK',
       'CACHE_DISABLE', 'CACHE_DISABLE NOT_WRITE_THROUGH']
CR4 = ['', 'VIRTUAL_8086_MODE_EXTENSIONS', 'PROTECTED_MODE_VIRTUAL_INTERRUPTS', 'TIMESTAMP_DISABLE', 'DEBUGGING_EXTENSIONS',
       'PAGE_SIZE_EXTENSION', 'MACHINE_CHECK_EXCEPTION', 'PAGE_GLOBAL', 'PERFORMANCE_MONITOR_COUNTER', 'OSFXSR', 'OSXMMEXCPT_ENABLE',
       'USER_MODE_INSTRUCTION_PREVENTION', 'FSGSBASE', 'OSXSAVE', 'SUPERVISOR_MODE_EXECUTION_PROTECTION',
       'SUPERVISOR_MODE_ACCESS_PREVENTION', 'PROTECTION_KEY_USER', 'PROTECTION_KEY_SUPERVISOR']
EFER = ['', 'SYSTEM_CALL_EXTENSIONS', 'NO_EXECUTE_ENABLE']
XCR0 = ['X87', 'SSE', 'AVX', 'BNDREG', 'BNDCSR', 'OPMASK', 'ZMM_HI256', 'HI16_ZMM', 'MPK']
MASKS = 'INVALID_OPERATION_MASK DENORMAL_MASK DIVIDE_BY_ZERO_MASK OVERFLOW_MASK UNDERFLOW_MASK PRECISION_MASK'
ERRORS = ['INVALID_OPERATION', 'DENORMAL', 'DIVIDE_BY_ZERO', 'OVERFLOW', 'UNDERFLOW', 'PRECISION']
ROUNDING = ['ROUNDING_CONTROL_NEGATIVE', 'ROUNDING_CONTROL_POSITIVE', 'ROUNDING_CONTROL_ZERO']
MXCSR = ['', MASKS, *MASKS.split(), *ERRORS, *ROUNDING, 'DENORMALS_ARE_ZEROS', 'FLUSH_TO_ZERO']
KEPT = 0x400                            # the bit of DR7 that is always set
GENERAL = 'GeneralProtection null'

# 2.75 and -2.75 as integers.
ROUNDED = {'': (3, -3), 'ROUNDING_CONTROL_NEGATIVE': (2, -3), 'ROUNDING_CONTROL_POSITIVE': (3, -2), 'ROUNDING_CONTROL_ZERO': (2, -2)}
# 2^-127 times 1, and 2^-126 times 0.5: both are 2^-127, as bits.
SMALL = {'': (0x400000, 0x400000), 'DENORMALS_ARE_ZEROS': (0, 0x400000), 'FLUSH_TO_ZERO': (0, 0)}
ZERO, ONE, THREE, GREATEST, LEAST, DENORMAL = 0, 0x3f800000, 0x40400000, 0x7f7fffff, 0x00800000, 0x00400000
# What quotients are: AMD64 manual, volume 1, section 4.10.
QUOTIENTS = {
    (ONE, ONE): '', (ZERO, ZERO): 'INVALID_OPERATION', (ONE, ZERO): 'DIVIDE_BY_ZERO', (GREATEST, LEAST): 'OVERFLOW PRECISION',
    (LEAST, GREATEST): 'UNDERFLOW PRECISION', (ONE, THREE): 'PRECISION', (DENORMAL, ONE): 'DENORMAL',
}
NOT_NOTED = 'DENORMAL'                  # QEMU 7.2 does not note it


def pair(low, high):
    return low & 0xffffffff | (high & 0xffffffff) << 32


def numbers(program, register, every):
    """The number of each set of names, beside what the register holds anyway."""
    return asking.numbers_named(program, [f'{register} {BASES[register]} {names}' for names in every])


def written(program, register, every, **more):
    """Each value, written and read back."""
    return [Event(f'{register} {names or "alone"}', f'write_{register}', argument=number, result=number, **more)
            for names, number in zip(every, numbers(program, register, every))]


def states(program, supported):
    """Each set of states in XCR0: the processor takes it if the crate does, and if it has these states."""
    sets = [' '.join(names) for count in range(len(XCR0) + 1) for names in itertools.combinations(XCR0, count)]
    for names, (number, verdict) in zip(sets, asking.values(program, [f'xcr0 {names}' for names in sets])):
        number = int(number, 16)
        taken = verdict == 'written' and not number & ~supported
        more = {'result': number} if taken else {'wanted': GENERAL}
        yield Event(f'xcr0 {names}: {verdict}', 'write_xcr0', argument=number, cr4=STATES, **more)


def effects_of_mxcsr(program):
    """How numbers are rounded, small ones are taken, and errors are noted."""
    modes = numbers(program, 'mxcsr', [f'{MASKS} {names}' for names in (*ROUNDED, *SMALL)])
    wanted = [('round', pair(*both)) for both in ROUNDED.values()] + [('small', pair(*both)) for both in SMALL.values()]
    for number, names, (piece, result) in zip(modes, (*ROUNDED, *SMALL), wanted):
        yield Event(f'{piece} with {names or "no mode"}', piece, argument=number, result=result, cr4=VECTORS)
    masks, *noted = numbers(program, 'mxcsr', [MASKS, *(f'{MASKS} {names}' for names in QUOTIENTS.values())])
    for (dividend, divisor), names, number in zip(QUOTIENTS, QUOTIENTS.values(), noted):
        name = f'{dividend:#x} by {divisor:#x}: {names or "no error"}'
        qemu = {'result': masks} if names == NOT_NOTED else None
        yield Event(name, 'quotient', argument=pair(dividend, divisor), result=number, cr4=VECTORS, qemu=qemu)


def breakpoints(program):
    """Each breakpoint of each debug address register."""
    for number in range(4):
        for line in asking.asked(program, [f'dr7 {number:x}']):
            words = line.split()
            if words[0] == 'breakpoint':
                yield Breakpoint(int(words[3], 16), number, words[1], int(words[2], 16))


def values(program, supported):
    """All of them, as events."""
    dr7 = [Event(f'dr7 {point}', 'write_dr7', argument=point.dr7, result=point.dr7 | KEPT) for point in breakpoints(program)]
    return [
        *written(program, 'cr0', CR0), *written(program, 'cr4', CR4), *written(program, 'efer', EFER),
        *written(program, 'mxcsr', MXCSR, cr4=VECTORS), *dr7, *states(program, supported), *effects_of_mxcsr(program),
    ]
