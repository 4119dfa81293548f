/* The kernel on page tables of its own: those of the library, in frames that it gives them. */
#ifndef PAGING_H
#define PAGING_H
#include "platform.h"

#define HEAP 0xffff900000000000ull              /* where the second heap is: no page of it is mapped at first */
#define HEAP_BYTES (16ull << 20)

/* Makes page tables in the front of the memory, maps the kernel, and has the processor use them. From then on a page of the
 * heap is mapped when it is first touched, to a cleared frame of the rest of the memory. */
void begin_paging(struct memory memory);

/* Rights that are taken away, frames that two pages lead to, refusals; and then a walk over all raw words, beside what the
 * library says. How many of these were wrong. */
uint64_t look_at_paging(void);

/* How many pages are mapped, and how many tables that takes. */
uint64_t mapped_pages(void);
uint64_t made_tables(void);

#endif
