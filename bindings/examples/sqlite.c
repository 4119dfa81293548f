/* SQLite with the proved heap as its allocator. */
#include <limzhur.h>
#include <sqlite3.h>
#include <stdio.h>

static _Alignas(4096) uint64_t memory[1 << 21];
static _Alignas(8) unsigned char room[LIMZHUR_ROOM];
static struct limzhur_heap heap = {room};

static void *allocate(int size) { return (void *)limzhur_malloc(&heap, size, 16); }
static void give_back(void *block) { limzhur_free(&heap, (uintptr_t)block); }
static void *resize(void *block, int size) { return (void *)limzhur_realloc(&heap, (uintptr_t)block, size); }
static int size_of(void *block) { return limzhur_usable_size(&heap, (uintptr_t)block); }
static int round_up(int size) { return (size + 15) & ~15; }
static void end(void *data) { (void)data; }
static int begin(void *data) {
    (void)data;
    limzhur_init(room, memory, sizeof memory / 8, (uintptr_t)memory);
    return SQLITE_OK;
}

static int say(void *data, int count, char **values, char **names) {
    (void)data, (void)count, (void)names;
    return printf("rows %s, sum %s\n", values[0], values[1]) < 0;
}

int main(void) {
    static const sqlite3_mem_methods methods = {allocate, give_back, resize, size_of, round_up, begin, end, NULL};
    struct limzhur_stats stats;
    sqlite3 *base;
    if (sqlite3_config(SQLITE_CONFIG_MALLOC, &methods) || sqlite3_open(":memory:", &base)) return 1;
    int status = sqlite3_exec(base,
        "create table t(a integer primary key, b text);"
        "with recursive c(n) as (select 1 union all select n + 1 from c where n < 30000) insert into t select n, hex(randomblob(20)) from c;"
        "create index i on t(b);"
        "delete from t where a % 3 = 0;"
        "select count(*), sum(a) from (select a from t order by b);", say, NULL, NULL);
    limzhur_stats(&heap, &stats);
    printf("status %d, blocks in use: %s\n", status, stats.blocks > 100 ? "over 100" : "few");
    sqlite3_close(base);
    sqlite3_shutdown();
    limzhur_stats(&heap, &stats);
    printf("blocks in the end: %d\n", (int)stats.blocks);
    return 0;
}
