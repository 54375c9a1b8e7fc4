/* SQLite's own page cache, as it ships: a fetch of a held page with its unpin, and a fetch of a new page in a full cache, which
 * recycles the page that was used longest ago. Least of several rounds, nanoseconds for one. */
#define _POSIX_C_SOURCE 199309L
#include <sqlite3.h>
#include <stdio.h>
#include <stdlib.h>
#include <time.h>

enum { ROUNDS = 15, FETCHES = 20000, PAGE = 4096, EXTRA = 128 };

static double now(void)
{
    struct timespec t;
    clock_gettime(CLOCK_MONOTONIC, &t);
    return (double)t.tv_sec * 1e9 + (double)t.tv_nsec;
}

static unsigned chance = 1;

static unsigned below(unsigned n)
{
    chance = chance * 1664525u + 1013904223u;
    return (chance >> 8) % n;
}

static void fetch(const sqlite3_pcache_methods2 *m, sqlite3_pcache *cache, unsigned key)
{
    sqlite3_pcache_page *page = m->xFetch(cache, key, 2);
    if (page == NULL) {
        fprintf(stderr, "sqlite: no page\n");
        exit(1);
    }
    m->xUnpin(cache, page, 0);
}

static void measure(const sqlite3_pcache_methods2 *m, unsigned pages)
{
    double held = 1e18, new_page = 1e18;
    static unsigned keys[FETCHES];
    for (int round = 0; round < ROUNDS; round++) {
        sqlite3_pcache *cache = m->xCreate(PAGE, EXTRA, 1);
        m->xCachesize(cache, (int)pages);
        for (unsigned key = 1; key <= pages; key++)
            fetch(m, cache, key);
        for (int i = 0; i < FETCHES; i++)
            keys[i] = 1 + below(pages);
        double start = now();
        for (int i = 0; i < FETCHES; i++)
            fetch(m, cache, keys[i]);
        double time = (now() - start) / FETCHES;
        held = time < held ? time : held;
        start = now();
        for (unsigned i = 0; i < FETCHES; i++)
            fetch(m, cache, pages + 1 + i);
        time = (now() - start) / FETCHES;
        new_page = time < new_page ? time : new_page;
        m->xDestroy(cache);
    }
    printf("| %u | %.1f | %.1f |\n", pages, held, new_page);
}

int main(void)
{
    sqlite3_pcache_methods2 m;
    if (sqlite3_initialize() != SQLITE_OK || sqlite3_shutdown() != SQLITE_OK ||
        sqlite3_config(SQLITE_CONFIG_GETPCACHE2, &m) != SQLITE_OK || sqlite3_initialize() != SQLITE_OK) {
        fprintf(stderr, "sqlite: no page cache\n");
        return 1;
    }
    printf("SQLite %s\n\n", sqlite3_libversion());
    printf("| pages | fetch and unpin of a held page (ns) | fetch and unpin of a new page in a full cache (ns) |\n|---|---|---|\n");
    const unsigned sizes[] = {256, 2000, 4096};
    for (unsigned i = 0; i < 3; i++)
        measure(&m, sizes[i]);
    return 0;
}
