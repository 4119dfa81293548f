/* Where the guest lies, for its code and its linker script. It leaves memory below USER_PAGE to the tables that are tested. */
#define SLOT 421                        /* the slot of the root table that is the guest's own */
#define BASE 0xffffd28000000000         /* what it maps: physical address p is at BASE + p, up to 1 GiB */
#define READ_ONLY 0x0d000000            /* a page of 2 MiB that only reads are granted in, */
#define NO_EXECUTE 0x0d200000           /* and one that has the bit NX */
#define TABLES 0x0e000000               /* descriptor tables that are tried, and their stacks */
#define USER_PAGE 0x0f000000            /* code and stack of ring 3 */
#define GUEST 0x10000000                /* the guest itself; the module lies behind it */
#define RESULTS 0x20000000              /* what it found, which the host reads from the file that is its memory */
