/* The proved page cache, for C. Link libpage_cache_c.a, which tools/library makes, for Linux on x86-64.
 *
 * The four functions are total: any lengths and any contents of what they are lent get a defined answer, and a refusal alters
 * nothing but what its code says. What each does, to the last word, is its contract in crates/page_cache_c/specs/Exports.antt, and
 * it is proved.
 *
 * What the C program has to make sure of, since no proof can: a pointer is not null and has as many elements behind it as the
 * length beside it says, and two things that are lent to one call don't overlap.
 *
 * A pool of S slots is four arrays and a head:
 *
 *     uint64_t slots[PC_SLOT_WORDS(S)];       four words to a slot
 *     uint32_t by_key[PC_INDEX_PLACES(S)];    held slots by ascending key
 *     uint32_t by_handle[PC_INDEX_PLACES(S)]; held slots by ascending handle
 *     uint64_t marks[PC_MARK_WORDS(S)];       a bit for each free slot
 *     uint64_t head[PC_HEAD_NUMBERS];         capacity, held, hand, spill switch, estimate
 *
 * What stands in each word is drawn at the top of crates/memory/src/lib.rt. A call is lent a list for handles too. A list of S places
 * is always long enough.
 *
 * Holders are where a host can go wrong. A page that has some is never evicted, nor selected for a spill. Each PC_OP_GET or PC_OP_PEEK
 * that is done adds one to the page that it found, and it stays until a PC_OP_RELEASE of the key takes it away:
 *
 *   - Each get and each peek that was done needs a release of its own, a peek that only asked whether the key is there among them.
 *   - A release goes by key. After a PC_OP_FORCE_UPSERT, or a removal and another insertion, it takes from the page that stands there
 *     now, whose holders are those of its own record: PC_HOLDER_LIMIT if it has none.
 *   - PC_OP_WRITE_RECORD sets the holders too. A record that says fewer than there are lets a page go that is still in use: read them
 *     back first, from a pc_list.
 *   - PC_OP_DELETE, PC_OP_TRUNCATE, PC_OP_REMOVE_FRAMES and PC_OP_CLEAR don't look at holders, nor does the deletion of a stale page.
 *
 * One thread at a time: nothing here locks. The functions keep nothing between calls but what they are lent, so that each thread may
 * have a pool of its own. A pool that threads share needs a lock around each call and around what is read of its list and head. */
#ifndef PAGE_CACHE_H
#define PAGE_CACHE_H

#include <stddef.h>
#include <stdint.h>

#ifdef __cplusplus
extern "C" {
#endif

/* ---- sizes ---- */

#define PC_MAX_SLOTS 4096
#define PC_SLOT_WORDS(S) (4 * (S))
#define PC_INDEX_PLACES(S) (S)
#define PC_MARK_WORDS(S) (((S) + 63) / 64)
#define PC_HEAD_NUMBERS 5
#define PC_RECORD_BYTES 32
#define PC_ANSWER_NUMBERS 6
/* The numbers that pc_list writes for a page. */
#define PC_PAGE_NUMBERS 8

/* The places of a head's numbers. */
enum pc_head_place {
    PC_HEAD_CAPACITY = 0,     /* the most pages to hold; forced insertion may exceed it */
    PC_HEAD_HELD = 1,         /* pages held */
    PC_HEAD_HAND = 2,         /* the hand's slot, or 0 if nothing is held */
    PC_HEAD_SPILL = 3,        /* the spill switch, 0 or 1 */
    PC_HEAD_ESTIMATE = 4      /* the estimate of evictable pages */
};

/* The places of a listed page's numbers. */
enum pc_page_place {
    PC_PAGE_KEY = 0,
    PC_PAGE_HANDLE = 1,
    PC_PAGE_FLAGS = 2,        /* enum pc_flag */
    PC_PAGE_PINS = 3,
    PC_PAGE_HOLDERS = 4,      /* those that hold the page, besides the cache */
    PC_PAGE_CELLS = 5,        /* overflow cells */
    PC_PAGE_FRAME = 6,
    PC_PAGE_USES = 7          /* the use count, 0 to 3 */
};

/* The places of an answer's numbers. */
enum pc_answer_place {
    PC_ANSWER_CODE = 0,       /* enum pc_code */
    PC_ANSWER_VALUE = 1,      /* found or replaced handle, refusing key, number selected, else 0 */
    PC_ANSWER_PASSED = 2,     /* pages that sweeps passed */
    PC_ANSWER_HELD = 3,       /* pages held after the call */
    PC_ANSWER_HAND = 4,       /* the hand's key after the call, or PC_NO_KEY */
    PC_ANSWER_LISTED = 5      /* handles in the first places of the list */
};

/* The hand's key in an answer if nothing is held. */
#define PC_NO_KEY UINT64_C(4294967296)

/* ---- answer codes ---- */

/* A call that is refused leaves everything as it was, unless its code says otherwise here. */
/* made by tools/calls: codes, from docs/answers.tsv */
enum pc_code {
    PC_DONE = 0,               /* the call was done */
    PC_NOT_SOUND = 1,          /* the memory is not sound; create never gives it */
    PC_BAD_RECORD = 2,         /* the page record has flags above 31 */
    PC_SHORT_LIST = 3,         /* the list is shorter than the pages held */
    PC_ABSENT = 4,             /* the key is absent, or get found its page stale; unchanged, but a stale page is deleted */
    PC_LOCKED = 5,             /* a page that has to go is locked; the value is its key; earlier removals stand */
    PC_DIRTY = 6,              /* a page that has to go is dirty; the value is its key; earlier removals stand */
    PC_PINNED = 7,             /* a page that has to go is pinned; the value is its key; earlier removals stand */
    PC_FULL = 8,               /* no page may go, or the capacity is 0; evictions stand, and the deletion of a stale page */
    PC_KEY_EXISTS = 9,         /* the key is there with the same handle; the page was touched */
    PC_PENDING_EVICTIONS = 10, /* more pages are held than the new capacity, and none of them may go; evictions stand; the capacity
                                  is the old one */
    PC_OTHER_PAGE = 11,        /* the key is there with another handle */
    PC_HANDLE_ELSEWHERE = 12,  /* the handle stands under another key */
    PC_NO_SLOT = 13,           /* insert would answer full, and every slot is taken */
    PC_EMPTY = 14,             /* one page is to be evicted, and none is held */
    PC_TOO_LARGE = 15,         /* the capacity is above the number of slots */
    PC_BAD_LENGTHS = 16,       /* the number of slots or a lent length is wrong (create), or the head's or the answer's length (any
                                  function for C and Rust) */
    PC_BAD_REPLAY = 17,        /* the replay record's length, operation, option or tail is bad */
    PC_NOT_NEEDED = 18,        /* no spill is needed */
    PC_NONE_SELECTED = 19,     /* a spill is needed, and no page was selected */
    PC_HOLDER_LIMIT = 20       /* the page has 65,535 holders, and get or peek would add one; or it has none, and release would take
                                  one away */
};
/* end of what is made */

/* ---- records ---- */

/* What a call does, and which fields of its record it uses. */
/* made by tools/calls: operations, from docs/calls.tsv */
enum pc_operation {
    PC_OP_CREATE = 0,          /* makes a cache with this capacity; nothing is held, and spill is on (number: capacity) */
    PC_OP_INSERT = 1,          /* inserts a page under an absent or stale key, and makes room for it (key, handle, page) */
    PC_OP_FORCE_INSERT = 2,    /* inserts as insert does; if that answers full, beyond the capacity (key, handle, page) */
    PC_OP_FORCE_UPSERT = 3,    /* inserts as force_insert does, or replaces the page that is there (key, handle, page) */
    PC_OP_GET = 4,             /* looks a page up, touches it and adds a holder; a stale page is deleted, and is not found (key) */
    PC_OP_PEEK = 5,            /* looks a page up and adds a holder; touches it only if asked (key, option: touch) */
    PC_OP_DELETE = 6,          /* deletes a page that is not locked, dirty or pinned (key) */
    PC_OP_RESIZE = 7,          /* sets the capacity, and evicts while more pages are held (number: capacity) */
    PC_OP_TRUNCATE = 8,        /* deletes the pages with a key above the limit, up to the first that refuses (number: limit) */
    PC_OP_REMOVE_FRAMES = 9,   /* deletes clean tagged pages with a frame above the limit, up to the first that refuses (number:
                                  limit) */
    PC_OP_CLEAR = 10,          /* empties the cache, if no page is dirty or dirty pages may go too (option: dirty) */
    PC_OP_NOTIFY_DIRTY = 11,   /* tells that a page became dirty: one page less counts as evictable (key) */
    PC_OP_NOTIFY_SPILLED = 12, /* tells that a page was spilled: one page more counts as evictable (key) */
    PC_OP_WRITE_RECORD = 13,   /* writes the page record of a key (key, page) */
    PC_OP_CHECK_SPILL = 14,    /* selects pages to spill, up to the number asked for, if a spill is needed (number: most) */
    PC_OP_EVICT_ONE = 15,      /* evicts one page */
    PC_OP_SET_SPILL = 16,      /* turns spilling off or on (option: off or on) */
    PC_OP_RELEASE = 17         /* takes one holder of a page away (key) */
};
/* end of what is made */

enum pc_flag { PC_FLAG_LOADED = 1, PC_FLAG_LOCKED = 2, PC_FLAG_DIRTY = 4, PC_FLAG_SPILLED = 8, PC_FLAG_TAGGED = 16 };

/* What a record says. A call's page is flags, pins, holders, cells and, as number, its frame. Fields that a call does not use are
 * not looked at; the option is 0 or 1 for every call. */
struct pc_record {
    uint8_t operation;
    uint8_t flags;
    uint16_t pins;
    uint32_t key;
    uint32_t handle;
    uint16_t holders;
    uint8_t cells;
    uint8_t option;
    uint64_t number;
};

/* What an answer says. */
struct pc_answer {
    enum pc_code code;
    uint32_t value;           /* found or replaced handle, refusing key, number selected, else 0 */
    uint64_t passed;          /* pages that sweeps passed */
    uint32_t held;            /* pages held after the call */
    uint32_t listed;          /* handles in the first places of the list */
    uint64_t hand;            /* the hand's key after the call, or PC_NO_KEY */
};

/* ---- the proved functions ---- */

/* Makes a cache of any memory: every lent word and the head are set. PC_DONE; or PC_BAD_LENGTHS or PC_TOO_LARGE, and nothing is
 * altered. */
uint32_t pc_create(uint64_t *slots, size_t slots_length, uint32_t *by_key, size_t by_key_length, uint32_t *by_handle,
                   size_t by_handle_length, uint64_t *marks, size_t marks_length, uint64_t *head, size_t head_length,
                   uint64_t capacity);

/* Whether the memory is sound: PC_DONE if it is, PC_NOT_SOUND if it is not, PC_BAD_LENGTHS if the head has a wrong length. Alters
 * nothing. */
uint32_t pc_test(const uint64_t *slots, size_t slots_length, const uint32_t *by_key, size_t by_key_length,
                 const uint32_t *by_handle, size_t by_handle_length, const uint64_t *marks, size_t marks_length,
                 const uint64_t *head, size_t head_length);

/* Lists the held pages in sweep order from the hand, PC_PAGE_NUMBERS to each: key, handle, flags, pins, holders, cells, frame, use
 * count. The head says how many are held; places past them keep their values. PC_DONE; or PC_NOT_SOUND, PC_SHORT_LIST or
 * PC_BAD_LENGTHS, and the list stays as it was. */
uint32_t pc_list(const uint64_t *slots, size_t slots_length, const uint32_t *by_key, size_t by_key_length,
                 const uint32_t *by_handle, size_t by_handle_length, const uint64_t *marks, size_t marks_length,
                 const uint64_t *head, size_t head_length, uint64_t *list, size_t list_length);

/* Carries out a record of PC_RECORD_BYTES bytes: tests the memory, refuses or does what the rules say, sets the head, and writes the
 * answer, whose code is returned too. Handles that were removed, or selected for a spill, go to the first places of the list; other
 * places keep their values. If the head or the answer has a wrong length it returns PC_BAD_LENGTHS and looks at nothing. */
uint32_t pc_apply(uint64_t *slots, size_t slots_length, uint32_t *by_key, size_t by_key_length, uint32_t *by_handle,
                  size_t by_handle_length, uint64_t *marks, size_t marks_length, uint64_t *head, size_t head_length, uint32_t *list,
                  size_t list_length, const uint8_t *record, size_t record_length, uint64_t *answer, size_t answer_length);

/* ---- for convenience: not proved, and no rules of their own ---- */

/* made by tools/calls: names of codes, from docs/answers.tsv */
/* The name of a code: "done" of PC_DONE. */
static inline const char *pc_code_name(uint32_t code)
{
    switch (code) {
    case PC_DONE: return "done";
    case PC_NOT_SOUND: return "not_sound";
    case PC_BAD_RECORD: return "bad_record";
    case PC_SHORT_LIST: return "short_list";
    case PC_ABSENT: return "absent";
    case PC_LOCKED: return "locked";
    case PC_DIRTY: return "dirty";
    case PC_PINNED: return "pinned";
    case PC_FULL: return "full";
    case PC_KEY_EXISTS: return "key_exists";
    case PC_PENDING_EVICTIONS: return "pending_evictions";
    case PC_OTHER_PAGE: return "other_page";
    case PC_HANDLE_ELSEWHERE: return "handle_elsewhere";
    case PC_NO_SLOT: return "no_slot";
    case PC_EMPTY: return "empty";
    case PC_TOO_LARGE: return "too_large";
    case PC_BAD_LENGTHS: return "bad_lengths";
    case PC_BAD_REPLAY: return "bad_replay";
    case PC_NOT_NEEDED: return "not_needed";
    case PC_NONE_SELECTED: return "none_selected";
    case PC_HOLDER_LIMIT: return "holder_limit";
    default: return "no code";
    }
}
/* end of what is made */

/* The answer that these numbers are. */
static inline struct pc_answer pc_answer_of(const uint64_t numbers[PC_ANSWER_NUMBERS])
{
    struct pc_answer answer;
    answer.code = (enum pc_code)numbers[PC_ANSWER_CODE];
    answer.value = (uint32_t)numbers[PC_ANSWER_VALUE];
    answer.passed = numbers[PC_ANSWER_PASSED];
    answer.held = (uint32_t)numbers[PC_ANSWER_HELD];
    answer.listed = (uint32_t)numbers[PC_ANSWER_LISTED];
    answer.hand = numbers[PC_ANSWER_HAND];
    return answer;
}

/* A pool's arrays, and the list that its calls are lent. */
struct pc_pool {
    uint64_t *slots;
    uint32_t *by_key;
    uint32_t *by_handle;
    uint64_t *marks;
    uint32_t *list;
    size_t size;
    uint64_t head[PC_HEAD_NUMBERS];
};

#ifdef __cplusplus
#define PC_STATIC_ASSERT(condition, message) static_assert(condition, message)
#else
#define PC_STATIC_ASSERT(condition, message) _Static_assert(condition, message)
#endif

/* Static arrays for a pool of S slots, and the pool. It is no cache until pc_pool_create has made one of it. */
#define PC_STATIC_POOL(name, S)                                                                                                   \
    PC_STATIC_ASSERT((S) >= 1 && (S) <= PC_MAX_SLOTS, "a pool has 1 to PC_MAX_SLOTS slots");                                       \
    static uint64_t name##_slots[PC_SLOT_WORDS(S)], name##_marks[PC_MARK_WORDS(S)];                                                \
    static uint32_t name##_by_key[PC_INDEX_PLACES(S)], name##_by_handle[PC_INDEX_PLACES(S)], name##_list[S];                       \
    static struct pc_pool name = {name##_slots, name##_by_key, name##_by_handle, name##_marks, name##_list, (S), {0}}

/* The bytes of a record, little-endian. */
static inline void pc_pack(uint8_t bytes[PC_RECORD_BYTES], const struct pc_record *r)
{
    const uint64_t words[4] = {
        r->operation | (uint64_t)r->flags << 8 | (uint64_t)r->pins << 16 | (uint64_t)r->key << 32,
        r->handle | (uint64_t)r->holders << 32 | (uint64_t)r->cells << 48 | (uint64_t)r->option << 56,
        r->number,
        0,
    };
    for (size_t i = 0; i < PC_RECORD_BYTES; i++)
        bytes[i] = (uint8_t)(words[i / 8] >> (i % 8 * 8));
}

static inline uint32_t pc_pool_create(struct pc_pool *p, uint64_t capacity)
{
    return pc_create(p->slots, PC_SLOT_WORDS(p->size), p->by_key, p->size, p->by_handle, p->size, p->marks, PC_MARK_WORDS(p->size),
                     p->head, PC_HEAD_NUMBERS, capacity);
}

static inline uint32_t pc_pool_test(const struct pc_pool *p)
{
    return pc_test(p->slots, PC_SLOT_WORDS(p->size), p->by_key, p->size, p->by_handle, p->size, p->marks, PC_MARK_WORDS(p->size),
                   p->head, PC_HEAD_NUMBERS);
}

static inline uint32_t pc_pool_list(const struct pc_pool *p, uint64_t *list, size_t list_length)
{
    return pc_list(p->slots, PC_SLOT_WORDS(p->size), p->by_key, p->size, p->by_handle, p->size, p->marks, PC_MARK_WORDS(p->size),
                   p->head, PC_HEAD_NUMBERS, list, list_length);
}

static inline uint32_t pc_pool_apply(struct pc_pool *p, const struct pc_record *r, uint64_t answer[PC_ANSWER_NUMBERS])
{
    uint8_t bytes[PC_RECORD_BYTES];
    pc_pack(bytes, r);
    return pc_apply(p->slots, PC_SLOT_WORDS(p->size), p->by_key, p->size, p->by_handle, p->size, p->marks, PC_MARK_WORDS(p->size),
                    p->head, PC_HEAD_NUMBERS, p->list, p->size, bytes, PC_RECORD_BYTES, answer, PC_ANSWER_NUMBERS);
}

/* pc_pool_apply, with the answer as a struct. */
static inline struct pc_answer pc_pool_call(struct pc_pool *p, const struct pc_record *r)
{
    uint64_t numbers[PC_ANSWER_NUMBERS];
    pc_pool_apply(p, r, numbers);
    return pc_answer_of(numbers);
}

#ifdef __cplusplus
}
#endif

#endif
