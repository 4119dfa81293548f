/* Lua with the proved heap as its allocator. */
#include <lua5.4/lauxlib.h>
#include <lua5.4/lua.h>
#include <lua5.4/lualib.h>
#include <limzhur.h>
#include <stdio.h>

static _Alignas(4096) uint64_t memory[1 << 20];
static _Alignas(8) unsigned char room[LIMZHUR_ROOM];

static void *allocate(void *heap, void *block, size_t old_size, size_t size) {
    (void)old_size;
    if (size == 0) {
        if (block) limzhur_free(heap, (uintptr_t)block);
        return NULL;
    }
    return (void *)(block ? limzhur_realloc(heap, (uintptr_t)block, size) : limzhur_malloc(heap, size, 16));
}

int main(void) {
    limzhur_init(room, memory, sizeof memory / 8, (uintptr_t)memory);
    struct limzhur_heap heap = {room};
    struct limzhur_stats stats;
    lua_State *lua = lua_newstate(allocate, &heap);
    luaL_openlibs(lua);
    luaL_dostring(lua,
        "local t, sum = {}, 0 "
        "for k = 1, 100000 do t[k % 1000] = {tostring(k), k} end "  /* the last 1000 stay: 99001 to 100000 */
        "for _, pair in pairs(t) do assert(pair[1] == tostring(pair[2])) sum = sum + pair[2] end "
        "return sum, #string.rep('x', 1000000), not pcall(string.rep, 'x', 100000000)");
    printf("sum %lld, a string of %lld bytes, none of 100000000: %s\n", lua_tointeger(lua, -3), lua_tointeger(lua, -2),
        lua_toboolean(lua, -1) ? "yes" : "no");
    lua_close(lua);
    limzhur_stats(&heap, &stats);
    printf("blocks in the end: %d\n", (int)stats.blocks);
    return 0;
}
