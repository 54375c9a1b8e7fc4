/* Document 01's example in C: a pool in static arrays, with room for two pages. Then the page that was looked up is released. */
#include <inttypes.h>
#include <stdio.h>

#include "page_cache.h"

enum { SLOTS = 8 };
PC_STATIC_POOL(pool, SLOTS);

/* Carries the record out and writes its answer: code, value, passed, held, hand's key, and what left the cache. */
static void call(const char *what, struct pc_record record)
{
    const struct pc_answer answer = pc_pool_call(&pool, &record);
    printf("%-10s %s, value %" PRIu32 ", passed %" PRIu64 ", held %" PRIu32, what, pc_code_name(answer.code), answer.value,
           answer.passed, answer.held);
    if (answer.hand != PC_NO_KEY)
        printf(", hand at key %" PRIu64, answer.hand);
    for (uint32_t i = 0; i < answer.listed; i++)
        printf(", out: %" PRIu32, pool.list[i]);
    printf("\n");
}

static struct pc_record insertion(uint32_t key, uint32_t handle)
{
    return (struct pc_record){.operation = PC_OP_INSERT, .key = key, .handle = handle, .flags = PC_FLAG_LOADED};
}

static struct pc_record by_key(uint8_t operation, uint32_t key)
{
    return (struct pc_record){.operation = operation, .key = key};
}

/* Whether the memory is a cache. */
static void test(const char *what)
{
    printf("%-10s %s\n", what, pc_code_name(pc_pool_test(&pool)));
}

/* Every page of the pool in sweep order, with its use count and, if it has some, its holders. */
static void list(void)
{
    static uint64_t numbers[SLOTS][PC_PAGE_NUMBERS];
    printf("ring      ");
    if (pc_pool_list(&pool, numbers[0], SLOTS * PC_PAGE_NUMBERS) == PC_DONE)
        for (uint64_t i = 0; i < pool.head[PC_HEAD_HELD]; i++) {
            printf("%s %" PRIu64 "(%" PRIu64 ")", i == 0 ? "" : ",", numbers[i][PC_PAGE_KEY], numbers[i][PC_PAGE_USES]);
            if (numbers[i][PC_PAGE_HOLDERS] != 0)
                printf(" held %" PRIu64, numbers[i][PC_PAGE_HOLDERS]);
        }
    printf("\n");
}

int main(void)
{
    test("zeros");
    printf("create     %s\n", pc_code_name(pc_pool_create(&pool, 2)));
    test("created");
    call("insert 10", insertion(10, 100));
    call("insert 20", insertion(20, 200));
    call("get 10", by_key(PC_OP_GET, 10));
    list();
    /* 10's page has a holder, so that it is passed and 20's goes */
    call("insert 30", insertion(30, 300));
    list();
    call("get 20", by_key(PC_OP_GET, 20));
    /* one release for the one get that found its page */
    call("release 10", by_key(PC_OP_RELEASE, 10));
    call("release 10", by_key(PC_OP_RELEASE, 10));
    list();
    /* now 10's page may go too, but has a use left, which it loses */
    call("evict_one", (struct pc_record){.operation = PC_OP_EVICT_ONE});
    list();
    call("255", (struct pc_record){.operation = 255});
    pool.marks[0] ^= 1;
    test("damaged");
    call("get 10", by_key(PC_OP_GET, 10));
    return 0;
}
