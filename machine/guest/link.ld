#include "layout.h"
ENTRY(start)
SECTIONS {
    . = GUEST;
    load_start = .;
    .boot : { *(.boot) }
    . = GUEST + 0x10000 + BASE;
    .handlers : AT(ADDR(.handlers) - BASE) { *(.handlers) }
    .text : AT(ADDR(.text) - BASE) { *(.text*) }
    .rodata : AT(ADDR(.rodata) - BASE) { *(.rodata*) }
    .data : AT(ADDR(.data) - BASE) { *(.data*) *(.got*) }
    load_end = . - BASE;
    .bss : AT(ADDR(.bss) - BASE) { *(.bss*) *(COMMON) }
    bss_end = . - BASE;
    /DISCARD/ : { *(.note*) *(.comment) *(.eh_frame*) }
}
