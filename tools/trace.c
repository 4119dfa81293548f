/* The heap calls of a process as lines that `heap run` reads. `tools/trace` compiles this and has the loader put it
   before the C library (LD_PRELOAD); `docs/TRACES.md` says what is recorded.

   One lock is held over each call of the C library and its line, so the lines are in an order in which the calls took
   effect. The lines go into a file that is mapped and shared: they are whole however the process ends, and no
   descriptor stays open that the program could close or meet. */
#define _GNU_SOURCE
#include <errno.h>
#include <fcntl.h>
#include <limits.h>
#include <pthread.h>
#include <stdint.h>
#include <stdlib.h>
#include <string.h>
#include <sys/mman.h>
#include <unistd.h>

extern void *__libc_malloc(size_t);
extern void *__libc_calloc(size_t, size_t);
extern void *__libc_realloc(void *, size_t);
extern void *__libc_memalign(size_t, size_t);
extern void __libc_free(void *);

/* As many bytes as `heap run` reads. The last one is no line's: it is 1 where the recording stopped early. */
#define ROOM ((size_t)1 << 30)
#define LONGEST_LINE 64
#define LEAST_ALIGN 16

/* A thread may take it again: what other code does at a fork may call the heap while the lock is held. */
#define UNLOCKED PTHREAD_RECURSIVE_MUTEX_INITIALIZER_NP
static pthread_mutex_t lock = UNLOCKED;

/* How many calls are begun: two where a signal came in the middle of one, and its handler makes another. */
static int depth;

/* Not yet begun; each call gets its line; or none does any more. */
static enum { WAITING, RECORDING, ENDED } stage;

/* Whether only one process is recorded, and not those that it forks. */
static int alone;

/* 1 in the process that records. Its page is cleared in a process that was forked, and shared after vfork: what is
   called there is called in the heap of the parent. */
static int *ours;

static void take_lock(void) { pthread_mutex_lock(&lock); }
static void leave_lock(void) { pthread_mutex_unlock(&lock); }

/* In a process that was forked, no thread of which has it. */
static void free_lock(void) { lock = (pthread_mutex_t)UNLOCKED; }

/* ---- The lines ---- */

static char *lines;
static size_t written;

static void stop_early(void) {
    lines[ROOM - 1] = 1;
    stage = ENDED;
}

static void put_text(const char *text) {
    size_t length = strlen(text);
    memcpy(lines + written, text, length);
    written += length;
}

static char *digits(uint64_t number, char *end) {
    do *--end = (char)('0' + number % 10);
    while (number /= 10);
    return end;
}

static void put_number(uint64_t number) {
    char text[24] = {0};
    put_text(digits(number, text + 23));
}

/* ---- The live blocks: a table by address, with free places, in which each is found from its home on ---- */

struct live {
    uintptr_t address; /* 0: a free place */
    uint64_t number : 63;
    uint64_t aligned : 1; /* at a greater alignment than 16 */
};

static struct live *blocks;
static unsigned bits;
static size_t count;
static uint64_t given;

static size_t places(void) { return (size_t)1 << bits; }
static size_t after(size_t place) { return (place + 1) & (places() - 1); }
static size_t home(uintptr_t address) { return (address >> 4) * 0x9E3779B97F4A7C15u >> (64 - bits); }

/* Where the block is, or the free place where it goes. */
static struct live *find(const void *block) {
    size_t place = home((uintptr_t)block);
    while (blocks[place].address && blocks[place].address != (uintptr_t)block) place = after(place);
    return &blocks[place];
}

static int make_table(unsigned wanted) {
    void *made = mmap(NULL, sizeof *blocks << wanted, PROT_READ | PROT_WRITE, MAP_PRIVATE | MAP_ANONYMOUS, -1, 0);
    if (made == MAP_FAILED) return 0;
    blocks = made;
    bits = wanted;
    return 1;
}

/* Twice the places, where half of them are taken. */
static int make_place(void) {
    struct live *old = blocks;
    size_t old_places = places();
    if (count < old_places / 2) return 1;
    if (!make_table(bits + 1)) return 0;
    for (size_t place = 0; place < old_places; place++)
        if (old[place].address) *find((void *)old[place].address) = old[place];
    munmap(old, sizeof *old * old_places);
    return 1;
}

static void remember(const void *block, uint64_t number, int aligned) {
    struct live *place = find(block);
    if (!place->address) count++;
    *place = (struct live){(uintptr_t)block, number, aligned};
}

/* Whatever stands behind moves up, unless its home is behind the place that became free. */
static void forget(struct live *gone) {
    size_t hole = (size_t)(gone - blocks), mask = places() - 1;
    for (size_t next = after(hole); blocks[next].address; next = after(next))
        if (((next - home(blocks[next].address)) & mask) >= ((next - hole) & mask)) {
            blocks[hole] = blocks[next];
            hole = next;
        }
    blocks[hole].address = 0;
    count--;
}

/* ---- The beginning, in a program and in a process that was forked ---- */

/* The program's name, as a part of a file's. */
static void put_name(char *at) {
    int file = open("/proc/self/comm", O_RDONLY | O_CLOEXEC);
    ssize_t length = file < 0 ? 0 : read(file, at, 15);
    if (file >= 0) close(file);
    at[length < 0 ? 0 : length] = 0;
    at[strcspn(at, "\n")] = 0;
    for (; *at; at++)
        if (*at == '/') *at = '_';
}

/* A file FOLDER/PROCESS.N.NAME, where N is how many the process had before, or -1. */
static int new_file(const char *folder) {
    char path[PATH_MAX], text[24] = {0};
    int file = -1;
    if (strlen(folder) + 64 > sizeof path) return -1;
    for (unsigned before = 0; file < 0; before++) {
        strcpy(path, folder);
        strcat(strcat(path, "/"), digits((uint64_t)getpid(), text + 23));
        strcat(strcat(path, "."), digits(before, text + 23));
        put_name(strcat(path, ".") + strlen(path));
        file = open(path, O_RDWR | O_CREAT | O_EXCL | O_CLOEXEC, 0600);
        if (file < 0 && errno != EEXIST) return -1;
    }
    return file;
}

/* Maps a new file for the lines, with those so far. */
static int open_lines(void) {
    int file = new_file(getenv("HEAP_TRACE_INTO"));
    void *made = MAP_FAILED;
    if (file < 0) return 0;
    if (ftruncate(file, (off_t)ROOM) == 0)
        made = mmap(NULL, ROOM, PROT_READ | PROT_WRITE, MAP_SHARED | MAP_NORESERVE, file, 0);
    close(file);
    if (made == MAP_FAILED) return 0;
    if (lines) {
        memcpy(made, lines, written);
        munmap(lines, ROOM);
    }
    lines = made;
    return 1;
}

static int open_ours(void) {
    size_t page = (size_t)sysconf(_SC_PAGESIZE);
    void *made = mmap(NULL, page, PROT_READ | PROT_WRITE, MAP_PRIVATE | MAP_ANONYMOUS, -1, 0);
    if (made == MAP_FAILED || madvise(made, page, MADV_WIPEONFORK) != 0) return 0;
    ours = made;
    *ours = 1;
    return 1;
}

static void begin(void) {
    const char *process = getenv("HEAP_TRACE_PROCESS");
    int was = errno;
    alone = process != NULL;
    if (!getenv("HEAP_TRACE_INTO") || (alone && strtol(process, NULL, 10) != getpid()))
        stage = ENDED;
    else
        stage = make_table(12) && open_ours() && open_lines() ? RECORDING : ENDED;
    errno = was;
}

/* In a process that was forked: its blocks are those of the parent, and so its lines begin with those of the parent. No
   other thread is there yet, since the first one would have called this. */
static void begin_forked(void) {
    int was = errno;
    *ours = 1;
    depth = 0;
    free_lock();
    if (stage == RECORDING && (alone || !open_lines())) stage = ENDED;
    errno = was;
}

/* Where forked processes are recorded, none is forked in the middle of a call. */
__attribute__((constructor)) static void watch_forks(void) {
    if (getenv("HEAP_TRACE_INTO") && !getenv("HEAP_TRACE_PROCESS")) pthread_atfork(take_lock, leave_lock, free_lock);
}

static void enter(void) {
    if (ours && !*ours) begin_forked();
    take_lock();
    depth++;
    if (stage == WAITING && environ) begin();
}

static void leave(void) {
    depth--;
    leave_lock();
}

/* ---- The lines of calls ---- */

/* Whether the call gets a line. One in the middle of another does not. */
static int has_line(void) {
    int was = errno;
    if (depth > 1) return 0;
    if (stage == RECORDING && (written + LONGEST_LINE >= ROOM || !make_place())) stop_early();
    errno = was;
    return stage == RECORDING;
}

static void record_new(const char *call, const void *block, size_t size, size_t align) {
    if (!block || !has_line()) return;
    put_text(call);
    put_number(size);
    if (align > LEAST_ALIGN) {
        put_text(" ");
        put_number(align);
    }
    put_text("\n");
    remember(block, given++, align > LEAST_ALIGN);
}

static void record_free(const void *block) {
    struct live *place;
    if (!has_line() || !(place = find(block))->address) return;
    put_text("free ");
    put_number(place->number);
    put_text("\n");
    forget(place);
}

/* The block has another size, and another address perhaps. One that was never seen is a new one from here on. */
static void record_size(const void *old, const void *block, size_t size) {
    struct live *place, was;
    if (!has_line()) return;
    place = find(old);
    was = *place;
    if (!was.address) {
        record_new("malloc ", block, size, LEAST_ALIGN);
        return;
    }
    put_text(was.aligned ? "c_realloc " : "realloc ");
    put_number(was.number);
    put_text(" ");
    put_number(size);
    put_text("\n");
    forget(place);
    remember(block, was.number, 0);
}

/* ---- The calls ---- */

void *malloc(size_t size) {
    enter();
    void *block = __libc_malloc(size);
    record_new("malloc ", block, size, LEAST_ALIGN);
    leave();
    return block;
}

void *calloc(size_t items, size_t size) {
    enter();
    void *block = __libc_calloc(items, size);
    record_new("calloc ", block, items * size, LEAST_ALIGN);
    leave();
    return block;
}

void free(void *block) {
    if (!block) return;
    enter();
    record_free(block);
    __libc_free(block);
    leave();
}

/* A size of 0 frees the block, and null is answered; where null is answered otherwise, the block is as it was. */
void *realloc(void *old, size_t size) {
    if (!old) return malloc(size);
    enter();
    void *block = __libc_realloc(old, size);
    if (block)
        record_size(old, block, size);
    else if (!size)
        record_free(old);
    leave();
    return block;
}

/* The C library takes the next power of two for an alignment that is none. */
void *memalign(size_t align, size_t size) {
    size_t power = LEAST_ALIGN;
    enter();
    void *block = __libc_memalign(align, size);
    while (block && power < align) power *= 2;
    record_new("malloc ", block, size, power);
    leave();
    return block;
}

void *aligned_alloc(size_t align, size_t size) { return memalign(align, size); }

int posix_memalign(void **block, size_t align, size_t size) {
    int was = errno;
    if (align % sizeof(void *) || !align || align & (align - 1)) return EINVAL;
    void *made = memalign(align, size);
    errno = was;
    if (!made) return ENOMEM;
    *block = made;
    return 0;
}

void *valloc(size_t size) { return memalign((size_t)sysconf(_SC_PAGESIZE), size); }

void *pvalloc(size_t size) {
    size_t page = (size_t)sysconf(_SC_PAGESIZE);
    if (size > SIZE_MAX - page) {
        errno = ENOMEM;
        return NULL;
    }
    return memalign(page, (size + page - 1) / page * page);
}
