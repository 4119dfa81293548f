"""What the guest `registers` tries over the descriptor tables of `tables`, and what has to come of each. Sections are those of
the AMD64 manual, volume 2."""
import collections

from tables import BASE, LAYOUT, Gate

# A piece of code of guest/pieces.S with an argument, in ring 0, or in ring 3 with flags. `wanted` is what it raises, by the
# names of x86_tables, and `result` what RAX holds then, if that is said. CR0, CR4 and EFER have the flags of these names
# meanwhile, and else those that they have. `qemu` is what QEMU 7.2 is known to do instead.
Event = collections.namedtuple(
    'Event', 'name piece wanted argument user rflags result cr0 cr4 efer qemu',
    defaults=('interrupt 0x80', 0, False, 0, None, None, None, None, None))
# Events over tables with a descriptor beside those of kernels and users, or with other gates. `accessed` tells whether the
# processor marks that descriptor; None, that it may: section 4.8.1 has that mark ignored in code of 64 bits.
Case = collections.namedtuple('Case', 'name events descriptor gates accessed', defaults=('', {}, False))

NOWHERE = 0x5000000000                  # an address of no page
NOT_CANONICAL = 0x800000000100
TRAP = BASE + LAYOUT['USER_PAGE'] + 0x1800              # code of the user, which raises interrupt 0x80
READ_ONLY, NO_EXECUTE = BASE + LAYOUT['READ_ONLY'], BASE + LAYOUT['NO_EXECUTE']
CODE, DATA, USER_DATA, GIVEN, TASK = 0x08, 0x10, 0x1b, 0x28, 0x30
RUNS = 'interrupt 0x80'
GENERAL, UNDEFINED, NO_DEVICE = 'GeneralProtection null', 'InvalidOpcode', 'DeviceNotAvailable'
INTERRUPTS, ALIGN = 1 << 9, 1 << 18      # the flags IF and AC


def user(name, piece, wanted, argument=0, **more):
    return Event(name, piece, wanted, argument, user=True, **more)


# Sections 4.8, 8.2, 8.4.1 and 12.2.5.
EXCEPTIONS = [
    Event('an undefined instruction', 'undefined', UNDEFINED),
    Event('a division by zero', 'divide', 'Division'),
    Event('INT3', 'breakpoint', 'Breakpoint'),
    Event('a selector behind the table', 'load_ds', 'GeneralProtection gdt 0xb', 0x5b),
    Event('a selector of a local table that is none', 'load_ds', 'GeneralProtection ldt 0xb', 0x5c),
    Event('the first selector of that', 'load_gs', 'GeneralProtection ldt 0x0', 4),
    Event('a code segment as a stack', 'load_ss', 'GeneralProtection gdt 0x1', CODE),
    Event('a segment of ring 3 as a stack of ring 0', 'load_ss', 'GeneralProtection gdt 0x3', USER_DATA),
    Event('a task state segment as data', 'load_ds', 'GeneralProtection gdt 0x6', TASK),
    Event('a gate that is not present', 'interrupt_90', 'SegmentNotPresent idt 0x90', qemu={'wanted': 'SegmentNotPresent idt 0x120'}),
    Event('an interrupt', 'interrupt_31', 'interrupt 0x31'),
    Event('an interrupt that ring 3 may raise', 'trap', 'interrupt 0x80'),
    Event('an address that is not canonical', 'write', GENERAL, NOT_CANONICAL),
    Event('a write of no page', 'write', 'Page CAUSED_BY_WRITE', NOWHERE),
    Event('a fetch from no page', 'jump', 'Page INSTRUCTION_FETCH', NOWHERE),
    Event('a stack of no page', 'push', 'Page CAUSED_BY_WRITE', NOWHERE),
    user('an undefined instruction of ring 3', 'undefined', UNDEFINED, rflags=INTERRUPTS),
    user('INT3 of ring 3', 'breakpoint', 'Breakpoint', rflags=INTERRUPTS),
    user('an interrupt that ring 3 may raise', 'trap', 'interrupt 0x80', rflags=INTERRUPTS),
    user('an interrupt that ring 3 may not raise', 'interrupt_31', 'GeneralProtection idt 0x31', qemu={'wanted': 'GeneralProtection idt 0x62'}),
    user('a write of no page by ring 3', 'write', 'Page CAUSED_BY_WRITE USER_MODE', NOWHERE),
    user('a write of the supervisor\'s page', 'write', 'Page PROTECTION_VIOLATION CAUSED_BY_WRITE USER_MODE', READ_ONLY),
    user('HLT of ring 3', 'halt', GENERAL),
    user('port 0x80, which ring 3 may use', 'port', RUNS, 0x80),
    user('port 0xe9, which ring 3 may use', 'port', RUNS, 0xe9),
    user('port 0x81', 'port', GENERAL, 0x81),
    user('port 0xe8', 'port', GENERAL, 0xe8),
    user('port 0x100, behind the map', 'port', GENERAL, 0x100),
    user('port 0x3f8, behind the map', 'port', GENERAL, 0x3f8),
    user('data of the kernel in ring 3', 'load_ds', 'GeneralProtection gdt 0x2', DATA),
    user('code of the kernel in ring 3', 'load_gs', 'GeneralProtection gdt 0x1', CODE),
]
# Sections 8.2.9 and 8.2.13.
OTHER_GATES = [
    Case('no gate for general protection', [Event('a selector behind the table', 'load_ds', 'Double 0x0', 0x5b)],
         gates={13: Gate(present=0)}),
    Case('a stack for general protection', [Event('a stack that is not canonical', 'push', 'Stack null', NOT_CANONICAL, qemu={'wanted': GENERAL})],
         gates={13: Gate(stack=5)}),
]

SEGMENT = 'USER_SEGMENT PRESENT'
CODE_SEGMENT = SEGMENT + ' EXECUTABLE LONG_MODE'
# Sections 4.7 and 4.8, and volume 3, MOV and RET: what may be loaded into a segment register.
DESCRIPTORS = [
    Case('data', [Event('as data', 'load_ds', RUNS, GIVEN), Event('as a stack', 'load_ss', 'GeneralProtection gdt 0x5', GIVEN),
                  user('as data of ring 3', 'load_ds', 'GeneralProtection gdt 0x5', GIVEN)], SEGMENT, accessed=True),
    Case('data to write', [Event('as a stack', 'load_ss', RUNS, GIVEN)], SEGMENT + ' WRITABLE', accessed=True),
    Case('data of users', [user('as data of ring 3', 'load_ds', RUNS, GIVEN | 3)], SEGMENT + ' DPL_RING_3', accessed=True),
    Case('data that is not there', [Event('as data', 'load_ds', 'SegmentNotPresent gdt 0x5', GIVEN),
                                    Event('as a stack', 'load_ss', 'Stack gdt 0x5', GIVEN)], 'USER_SEGMENT WRITABLE'),
    Case('no segment of code or data', [Event('as data', 'load_ds', 'GeneralProtection gdt 0x5', GIVEN)], 'PRESENT WRITABLE'),
    Case('code', [Event('as data', 'load_ds', 'GeneralProtection gdt 0x5', GIVEN), Event('as code', 'load_cs', RUNS, GIVEN),
                  user('as code of ring 3', 'load_cs', 'GeneralProtection gdt 0x5', GIVEN | 3)], CODE_SEGMENT, accessed=None),
    Case('code to read', [Event('as data', 'load_ds', RUNS, GIVEN)], CODE_SEGMENT + ' WRITABLE', accessed=True),
    Case('conforming code', [user('as code of ring 3', 'load_cs', RUNS, GIVEN | 3)], CODE_SEGMENT + ' CONFORMING', accessed=None),
]

# What the registers hold beside the flags that are tried.
BASES = {
    'cr0': 'PROTECTED_MODE_ENABLE EXTENSION_TYPE PAGING', 'cr4': 'PHYSICAL_ADDRESS_EXTENSION',
    'efer': 'LONG_MODE_ENABLE LONG_MODE_ACTIVE', 'xcr0': '', 'mxcsr': '',
}
VECTORS = BASES['cr4'] + ' OSFXSR'
STATES = BASES['cr4'] + ' OSXSAVE'


def both(event, register, flag, without, with_it, more=''):
    """An event without a flag of a register, and with it."""
    base = BASES[register] + more
    return [
        event._replace(name=f'{event.name} without {flag}', wanted=without, **{register: base}),
        event._replace(name=f'{event.name} with {flag}', wanted=with_it, **{register: f'{base} {flag}'}),
    ]


# Sections 3.1.1, 3.1.3 and 3.1.7: what a flag turns on or off.
FLAGS = [
    *both(Event('a write of a page to read', 'write', argument=READ_ONLY + 64), 'cr0', 'WRITE_PROTECT', RUNS,
          'Page PROTECTION_VIOLATION CAUSED_BY_WRITE'),
    *both(Event('FNINIT', 'float'), 'cr0', 'EMULATE_COPROCESSOR', RUNS, NO_DEVICE),
    *both(Event('FNINIT', 'float'), 'cr0', 'TASK_SWITCHED', RUNS, NO_DEVICE),
    *both(Event('XORPS', 'vector', cr4=VECTORS), 'cr0', 'EMULATE_COPROCESSOR', RUNS, UNDEFINED),
    *both(Event('XORPS', 'vector', cr4=VECTORS), 'cr0', 'TASK_SWITCHED', RUNS, NO_DEVICE),
    *both(Event('FWAIT', 'wait'), 'cr0', 'MONITOR_COPROCESSOR', RUNS, NO_DEVICE, ' TASK_SWITCHED'),
    Event('an error of the x87 unit with NUMERIC_ERROR', 'float_error', 'X87FloatingPoint', cr0=BASES['cr0'] + ' NUMERIC_ERROR'),
    user('an unaligned read of ring 3 without ALIGNMENT_MASK', 'unaligned', RUNS, rflags=ALIGN, cr0=BASES['cr0']),
    user('an unaligned read of ring 3 with ALIGNMENT_MASK', 'unaligned', 'AlignmentCheck 0x0', rflags=ALIGN,
         cr0=BASES['cr0'] + ' ALIGNMENT_MASK', qemu={'wanted': RUNS}),
    *both(user('RDTSC of ring 3', 'time', RUNS), 'cr4', 'TIMESTAMP_DISABLE', RUNS, GENERAL),
    *both(user('SGDT of ring 3', 'where_gdt', RUNS), 'cr4', 'USER_MODE_INSTRUCTION_PREVENTION', RUNS, GENERAL),
    *both(Event('XORPS', 'vector'), 'cr4', 'OSFXSR', UNDEFINED, RUNS),
    *both(Event('XGETBV', 'states'), 'cr4', 'OSXSAVE', UNDEFINED, RUNS),
    *both(Event('RDFSBASE', 'base_of_fs'), 'cr4', 'FSGSBASE', UNDEFINED, RUNS),
    *both(Event('a read of DR4', 'read_dr4'), 'cr4', 'DEBUGGING_EXTENSIONS', RUNS, UNDEFINED),
    *both(Event('a fetch from the user\'s page', 'jump', argument=TRAP), 'cr4', 'SUPERVISOR_MODE_EXECUTION_PROTECTION', RUNS,
          'Page PROTECTION_VIOLATION INSTRUCTION_FETCH'),
    *both(Event('a read of the user\'s page', 'read', argument=TRAP), 'cr4', 'SUPERVISOR_MODE_ACCESS_PREVENTION', RUNS,
          'Page PROTECTION_VIOLATION'),
    *both(Event('RDPKRU', 'keys'), 'cr4', 'PROTECTION_KEY_USER', UNDEFINED, RUNS),
    *both(Event('SYSCALL', 'system_call'), 'efer', 'SYSTEM_CALL_EXTENSIONS', UNDEFINED, RUNS),
    Event('a read of a page with NX without NO_EXECUTE_ENABLE', 'read', 'Page PROTECTION_VIOLATION MALFORMED_TABLE', NO_EXECUTE,
          efer=BASES['efer'], qemu={'wanted': 'Page MALFORMED_TABLE'}),
    Event('a read of a page with NX', 'read', RUNS, NO_EXECUTE, efer=BASES['efer'] + ' NO_EXECUTE_ENABLE'),
    Event('a fetch from a page with NX', 'jump', 'Page PROTECTION_VIOLATION INSTRUCTION_FETCH', NO_EXECUTE,
          efer=BASES['efer'] + ' NO_EXECUTE_ENABLE'),
]
