/* What the types of the crate x86_tables say of vectors, and of the codes of page faults: kernel/meanings prints this file. */
#include <stdint.h>

static const char *const exception_names[32] = {
    [0] = "Division",
    [1] = "Debug",
    [2] = "NonMaskableInterrupt",
    [3] = "Breakpoint",
    [4] = "Overflow",
    [5] = "BoundRange",
    [6] = "InvalidOpcode",
    [7] = "DeviceNotAvailable",
    [8] = "Double",
    [10] = "InvalidTss",
    [11] = "SegmentNotPresent",
    [12] = "Stack",
    [13] = "GeneralProtection",
    [14] = "Page",
    [16] = "X87FloatingPoint",
    [17] = "AlignmentCheck",
    [18] = "MachineCheck",
    [19] = "SimdFloatingPoint",
    [20] = "Virtualization",
    [21] = "ControlProtection",
    [28] = "HypervisorInjection",
    [29] = "VmmCommunication",
    [30] = "Security",
};

enum page_fault_flag {
    PROTECTION_VIOLATION = 0x1,
    CAUSED_BY_WRITE = 0x2,
    USER_MODE = 0x4,
    MALFORMED_TABLE = 0x8,
    INSTRUCTION_FETCH = 0x10,
};
static const struct { enum page_fault_flag flag; const char *name; } page_fault_flags[] = {
    {PROTECTION_VIOLATION, "PROTECTION_VIOLATION"},
    {CAUSED_BY_WRITE, "CAUSED_BY_WRITE"},
    {USER_MODE, "USER_MODE"},
    {MALFORMED_TABLE, "MALFORMED_TABLE"},
    {INSTRUCTION_FETCH, "INSTRUCTION_FETCH"},
};
