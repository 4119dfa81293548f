/*
 * The memory of the heap: one range of addresses, reserved without access at the first call. Pages are opened ahead of what
 * the heap has, so mlockall locks, and the system counts, what is open and no more; they are closed where the heap needs
 * them no more. The words at the end of the range, which tell grants and marks, are opened as far as the blocks need them.
 */
#ifndef LIMZHUR_PRELOAD_MEMORY_H
#define LIMZHUR_PRELOAD_MEMORY_H

#include <limzhur.h>

#include <errno.h>
#include <fcntl.h>
#include <stdbool.h>
#include <stdint.h>
#include <sys/mman.h>
#include <sys/resource.h>
#include <unistd.h>

/* The range, in bytes: the most and the least that are reserved. */
#define LARGEST ((uint64_t)1 << 36)
#define LEAST ((uint64_t)1 << 18)

#define PAGE ((uint64_t)4096)

/* The least granularity, with which the heap begins. The most keeps what is open ahead within bounds. */
#define LEAST_GRANULARITY ((uint64_t)1 << 16)
#define MOST_GRANULARITY ((uint64_t)1 << 28)

/* A granularity for which no range has room: with it the heap is granted nothing. */
#define NO_GRANTS ((uint64_t)1 << 62)

/* What a request may take besides its size and alignment, in bytes: heads, and the foot behind the last block. */
#define BESIDE ((uint64_t)1024)

/* How many bytes at the end have to fall free before their pages are closed. */
#define GIVE_BACK ((uint64_t)1 << 20)

static _Alignas(16) unsigned char room[LIMZHUR_ROOM];
static struct limzhur_heap heap = {room};

/* A chunk has its size and two bits in the word 8 bytes behind its beginning; its block begins 16 bytes behind that. A chunk
 * behind a free one begins with the size of that. The last bytes that the heap has are its foot. */
enum { IS_BEHIND_USED = 1, IS_USED = 2, HEAD = 16, LEAST_CHUNK = 32, FOOT = 80 };

static uint64_t word(uint64_t address) {
    return *(const uint64_t *)address;
}

static uint64_t size_in(uint64_t head) {
    return head & ~(uint64_t)7;
}

/* A call of the heap that answers a block. */
typedef uint64_t request(struct limzhur_heap *, uint64_t, uint64_t);

/* A part of the range: where it begins, and to where its pages are open. */
struct part {
    uint64_t begin, open;
};

/* The words for blocks, those that tell grants, and those for marks, in this order. */
static struct part blocks, grants, marks;

/* Where the words for blocks end, which is where those for grants begin. */
static uint64_t end_of_blocks;

/* No byte that the heap has lies from here on. What it has may end before. */
static uint64_t used_to;

/* No page from here on was written since it was opened. */
static uint64_t touched_to;

static uint64_t granularity = LEAST_GRANULARITY;

static uint64_t page_up(uint64_t address) {
    return (address + PAGE - 1) & ~(PAGE - 1);
}

static uint64_t page_down(uint64_t address) {
    return address & ~(PAGE - 1);
}

static uint64_t least(uint64_t one, uint64_t other) {
    return one < other ? one : other;
}

/* The bytes of addresses that the program has already, as /proc says; 0 if it does not say. */
static uint64_t taken_addresses(void) {
    char text[32] = "";
    int file = open("/proc/self/statm", O_RDONLY | O_CLOEXEC);
    if (file < 0) return 0;
    ssize_t length = read(file, text, sizeof text - 1);
    close(file);
    uint64_t pages = 0;
    for (ssize_t i = 0; i < length && text[i] >= '0' && text[i] <= '9'; i++) pages = 10 * pages + (text[i] - '0');
    return pages * PAGE;
}

/* How many bytes to reserve: at most half of the addresses that the program may still take. */
static uint64_t bytes_to_reserve(void) {
    struct rlimit limit;
    if (getrlimit(RLIMIT_AS, &limit) != 0 || limit.rlim_cur == RLIM_INFINITY) return LARGEST;
    uint64_t taken = taken_addresses();
    return taken < limit.rlim_cur ? page_down(least(LARGEST, (limit.rlim_cur - taken) / 2)) : 0;
}

/* Begins the heap over a range of so many bytes. The last words of it are those for marks, one for each 128; before them
 * two words stand for each grant of the least granularity that there is room for. */
static void begin_over(uint64_t address, uint64_t bytes) {
    uint64_t count = bytes / 8, before_marks = count - (count + 127) / 128;
    uint64_t for_grants = 2 * ((before_marks + LEAST_GRANULARITY / 8 + 1) / (LEAST_GRANULARITY / 8 + 2));
    limzhur_init_with(room, (uint64_t *)address, count, address, LEAST_GRANULARITY);
    end_of_blocks = address + 8 * (before_marks - for_grants);
    blocks = (struct part){address, address};
    grants = (struct part){end_of_blocks, page_down(end_of_blocks)};
    marks = (struct part){address + 8 * before_marks, page_down(address + 8 * before_marks)};
    used_to = touched_to = address;
}

/* Reserves a range, and begins the heap over it. False where the system gives none. */
static bool begin_heap(void) {
    for (uint64_t bytes = bytes_to_reserve(); bytes >= LEAST; bytes = page_down(bytes / 4 * 3)) {
        void *range = mmap(NULL, bytes, PROT_NONE, MAP_PRIVATE | MAP_ANONYMOUS, -1, 0);
        if (range != MAP_FAILED) {
            begin_over((uint64_t)range, bytes);
            return true;
        }
    }
    return false;
}

/* Opens the pages of a part to an address, and says whether they are open. */
static bool open_part(struct part *part, uint64_t to) {
    to = page_up(to);
    if (to <= part->open) return true;
    if (mprotect((void *)part->open, to - part->open, PROT_READ | PROT_WRITE) != 0) return false;
    part->open = to;
    return true;
}

/* Opens the words for blocks to an address, and before that those that tell of them: a bit for each 16 bytes, and two words
 * for each grant. */
static bool open_blocks(uint64_t to) {
    uint64_t bytes = to - blocks.begin;
    return open_part(&grants, grants.begin + 16 * (bytes / LEAST_GRANULARITY + 1)) &&
           open_part(&marks, marks.begin + bytes / 128 + 8) && open_part(&blocks, to);
}

static void set_granularity(uint64_t wanted) {
    if (wanted != granularity && limzhur_set_granularity(&heap, wanted)) granularity = wanted;
}

/* Sets the granularity to an eighth of what is in use, so that a block that grows is seldom moved. */
static void fit_granularity(void) {
    uint64_t wanted = LEAST_GRANULARITY;
    while (wanted < MOST_GRANULARITY && 2 * wanted <= (used_to - blocks.begin) / 8) wanted *= 2;
    set_granularity(wanted);
}

/* Asks the heap where what it has ends. */
static void look(void) {
    struct limzhur_stats stats;
    limzhur_stats(&heap, &stats);
    used_to = blocks.begin + stats.used;
    if (used_to > touched_to) touched_to = used_to;
}

/* Opens so many bytes behind what the heap has, as many as a grant may have too much, and as many for the next one; less, and
 * with the least granularity, where the system opens no more. */
static bool open_for(uint64_t bytes) {
    for (;;) {
        uint64_t most = used_to + bytes + granularity;
        if (open_blocks(least(most + granularity + LEAST_GRANULARITY, end_of_blocks)) ||
            open_blocks(least(most, end_of_blocks))) {
            return true;
        }
        if (granularity == LEAST_GRANULARITY) return false;
        set_granularity(LEAST_GRANULARITY);
    }
}

/* Opens what the heap needs for a request that it refused. Says whether it may now be granted memory for it. */
static bool open_further(uint64_t size, uint64_t align) {
    int number = errno;
    look();
    fit_granularity();
    uint64_t left = end_of_blocks - used_to;
    bool opened = size <= left && align <= left && open_for(size + align + BESIDE);
    errno = number;
    return opened;
}

/* Whether the heap touches no closed page for a request of so many bytes, whatever it is granted. */
static bool is_open_for(uint64_t size, uint64_t align) {
    uint64_t left = blocks.open - used_to;
    return size < left && align < left && size + align + BESIDE + granularity <= left;
}

/* A request of the heap that is not open for it, or was refused: at first of what the heap has, then of what it is granted
 * on further pages, and then with the least granularity, with which the end of the range may do. */
static __attribute__((noinline)) uint64_t serve_further(request *call, uint64_t one, uint64_t other, uint64_t size,
                                                        uint64_t align) {
    if (!is_open_for(size, align)) {
        limzhur_set_granularity(&heap, NO_GRANTS);
        uint64_t address = call(&heap, one, other);
        limzhur_set_granularity(&heap, granularity);
        if (address != 0 || !open_further(size, align)) return address;
        address = call(&heap, one, other);
        if (address != 0) return address;
    }
    if (granularity == LEAST_GRANULARITY) return 0;
    set_granularity(LEAST_GRANULARITY);
    return call(&heap, one, other);
}

/* Makes a request for a block of so many bytes, by a call of two arguments, and answers its address, or 0. */
static uint64_t serve(request *call, uint64_t one, uint64_t other, uint64_t size, uint64_t align) {
    uint64_t address = is_open_for(size, align) ? call(&heap, one, other) : 0;
    if (address == 0) address = serve_further(call, one, other, size, align);
    if (address + size + BESIDE > used_to || align > 16) {
        look();
        fit_granularity();
    }
    return address;
}

/* Closes the pages behind what the heap has, if it has at least so many bytes fewer than it once had. The page on which the
 * words for grants begin stays. Says whether it closed any. */
static bool give_back(uint64_t enough) {
    look();
    if (used_to + enough > touched_to) return false;
    int number = errno;
    uint64_t from = page_up(used_to), to = least(blocks.open, page_down(end_of_blocks));
    bool closed = from < to && mmap((void *)from, to - from, PROT_NONE, MAP_PRIVATE | MAP_ANONYMOUS | MAP_FIXED, -1, 0) !=
                                   MAP_FAILED;
    if (closed) {
        blocks.open = from;
        touched_to = used_to;
        fit_granularity();
    }
    errno = number;
    return closed;
}

/* How many free bytes the heap keeps at its end: as many as it is granted at once, and at least as many as go back. */
static uint64_t slack(void) {
    return granularity > GIVE_BACK ? granularity : GIVE_BACK;
}

/* Whether the top would be long if a block were free: the last chunk is the top, and the block's is the one behind it. The heap
 * trims itself too, but gives up whole granularities alone, and where it found too little it tries no more for a while. */
static bool makes_top_long(uint64_t block) {
    uint64_t last = used_to - FOOT, chunk = block - HEAD, next = chunk + size_in(word(chunk + 8));
    if (next <= chunk || next >= last || next + size_in(word(next + 8)) != last) return false;
    uint64_t before = word(chunk + 8) & IS_BEHIND_USED ? 0 : word(chunk);
    return last - chunk + before > slack() + GIVE_BACK;
}

/* Gives memory back after a block was freed, and first the end of a top that is long. */
static void settle(bool is_top_long) {
    if (is_top_long) {
        limzhur_set_granularity(&heap, LEAST_GRANULARITY);
        limzhur_trim(&heap, slack());
        limzhur_set_granularity(&heap, granularity);
    }
    give_back(GIVE_BACK);
}

#endif
