/*
 * captable.h: the proved capability table for firmware in C and C++.
 *
 * The table is one fixed table of 64 objects with eight capabilities each. Its rules are document 01's,
 * with requests 2.1 to 2.9 of document 02, and every answer is a number of theirs: 0 for done, or why not
 * (enum captable_number).
 *
 * Link with libcaptable.a, which `tools/build` proves and writes. It needs memcpy and memset
 * and nothing else: no heap, no global state, no other call. Every call ends, whatever it is handed.
 *
 * What is proved holds as long as whoever calls keeps to these six. The library cannot see any of them
 * broken, and it does not say so when one is.
 *
 * 1. One caller at a time. During captable_step nothing else reads or writes that table: no interrupt
 *    handler, no thread, no other core. A step copies the table out and, at its end, back; a second step
 *    in between is answered 0 and then undone. On a bare machine, either turn interrupts off around the
 *    step, or let the interrupt put its request into a queue and the main loop take the step;
 *    examples/interrupts.c shows both, and what is lost otherwise. Other cores need a lock as well. The
 *    calls that take the table by value copy it before they begin: the same holds while that copy is made.
 * 2. The firmware writes the actor. Who asks is a byte of the request, and the library believes it: see
 *    "a request's bytes" below.
 * 3. A pointer points to as many bytes as its length says, and to bytes that nothing else writes during
 *    the call. With a length of 0 it may be NULL.
 * 4. A table's pointer, and the buffer of captable_confine, are never NULL. A table that is lent is
 *    aligned as the struct is and overlaps nothing else that is lent; nor does a buffer that is filled.
 * 5. There is stack enough: CAPTABLE_STACK_... below. A call on a stack that is too small writes over
 *    what lies beneath it, and returns as if all were well.
 * 6. The processor is an x86-64 with SSE2 turned on, calls follow the System V convention (so no
 *    -mabi=ms), and memcpy and memset are what C says they are.
 *
 * The archive's code, for whoever writes the interrupt handlers: it uses the registers xmm0 to xmm4, in
 * captable_chain xmm0 to xmm9, for moves, bits and whole numbers, with no floating-point arithmetic; a handler
 * that makes a call saves them first, with the other registers that a C function may change. It keeps nothing
 * below the stack pointer (no red zone), so handlers may run on the same stack without leaving 128 bytes free
 * for it.
 */
#ifndef CAPTABLE_H
#define CAPTABLE_H

/* ---- the machine ---------------------------------------------------------------------------------- */

/* Before anything else, so that this is the first thing that a compiler for another machine says. */
#if !defined(__x86_64__) || defined(__ILP32__)
#error "libcaptable.a is for x86-64 with 64-bit pointers alone"
#elif !defined(__ELF__)
#error "libcaptable.a is ELF with the System V calling convention: not for Windows, UEFI or macOS"
#elif !defined(__SSE2__) && !defined(CAPTABLE_SSE_IS_ON)
/* For code that is itself built without SSE, as a kernel is: whoever defines CAPTABLE_SSE_IS_ON says that
 * SSE is turned on when a call is made (CR4.OSFXSR), and that nobody's xmm registers are lost by it. */
#error "libcaptable.a uses SSE2 registers: build with SSE2, or turn SSE on and define CAPTABLE_SSE_IS_ON"
#endif

#include <stddef.h>
#include <stdint.h>

#ifdef __cplusplus
extern "C" {
#endif

/* An answer that nobody looks at is a refusal that nobody sees: the compiler warns of it. */
#if defined(__cplusplus) && __cplusplus >= 201703L
#define CAPTABLE_ANSWER [[nodiscard]]
#elif defined(__GNUC__)
#define CAPTABLE_ANSWER __attribute__((warn_unused_result))
#else
#define CAPTABLE_ANSWER
#endif

/* ---- version -------------------------------------------------------------------------------------- */

/* The version of the calls, 0.10.0: the first number times 65,536, the second times 256, and the third.
 * captable_version gives that of the archive. Compare the two at start. */
#define CAPTABLE_VERSION 2560

/* ---- sizes ---------------------------------------------------------------------------------------- */

#define CAPTABLE_OBJECTS 64             /* objects of a table, numbered from 0 */
#define CAPTABLE_SLOTS 8                /* slots of an object, numbered from 0 */
#define CAPTABLE_IMAGE_BYTES 1987       /* the length of an image of version 2, which captable_write writes */
#define CAPTABLE_OLDER_IMAGE_BYTES 1923 /* the length of one of version 1, the older form; that of captable_confine */
#define CAPTABLE_IMPORT_BYTES 1092      /* the longest import: 64 entities with eight capabilities each */
#define CAPTABLE_REQUEST_BYTES 22       /* the longest request: an allocate with four pairs */
#define CAPTABLE_PAIRS 4                /* the most pairs in the list of a send or an allocate */
#define CAPTABLE_ENTRIES 8              /* the most entries in the list of a test; wk alone needs none */
#define CAPTABLE_LINKS 63               /* the most links of a chain, numbers in it, and rounds of a test */
#define CAPTABLE_PRINTED 256            /* the buffer of captable_confine */

/* ---- stack ---------------------------------------------------------------------------------------- */

/*
 * The bytes of stack that each call takes on any input, and the most of them.
 *
 * Counted: everything from the return address of the call downwards, memcpy and memset with their return
 * address and no more, and for a call that takes the table by value the 2,048 bytes of it that the caller
 * pushes. The stack pointer is a multiple of 16 where the call is made, as the calling convention has it.
 *
 * Not counted, and the caller's to add: its own frames, with the place of the struct that is given back
 * (up to 2,056 bytes); what your memcpy and memset take beyond their return address; and what is pushed
 * by interrupts that run on the same stack, with all that their handlers call. A handler that takes a
 * step itself needs CAPTABLE_STACK_STEP once more. The archive has no red zone; if your own code has one,
 * 128 bytes.
 *
 * A test measures every call and holds these numbers to it (model/peer/tests/stack.rs).
 */
#define CAPTABLE_STACK_STEP 22856
#define CAPTABLE_STACK_STEP_BY_VALUE 22840
#define CAPTABLE_STACK_SOUND 4200
#define CAPTABLE_STACK_ACCESS 8328
#define CAPTABLE_STACK_ACCESS_BY_GROUPS 10904
#define CAPTABLE_STACK_TEST 8440
#define CAPTABLE_STACK_TEST_BY_GROUPS 10040
#define CAPTABLE_STACK_CHAIN 10728
#define CAPTABLE_STACK_READ 11496
#define CAPTABLE_STACK_IMPORT 6216
#define CAPTABLE_STACK_WRITE 4232
#define CAPTABLE_STACK_WRITE_OLDER 4328
#define CAPTABLE_STACK_CONFINE 12600
#define CAPTABLE_STACK_UNBORN 3112
#define CAPTABLE_STACK_VERSION 8
#define CAPTABLE_STACK_MOST 22856

/* ---- values --------------------------------------------------------------------------------------- */

/* The status of a number. A dead number is used again once a reclaim has made it unborn, and not before. */
enum captable_status { CAPTABLE_UNBORN = 0, CAPTABLE_ALIVE = 1, CAPTABLE_DEAD = 2 };

/* The kind of an object. Only an active one makes requests and can be sent to. */
enum captable_kind { CAPTABLE_PASSIVE = 0, CAPTABLE_ACTIVE = 1 };

/* Rights add up. wk is the weak right: reading that passes on nothing stronger than itself. Who holds wk alone
 * influences nobody by it, and captable_test asks for no entry for it. docs/RIGHTS.md has a row for each of the
 * sixteen values: what it may be used for, and what a fetch without rd makes of it. */
enum captable_right { CAPTABLE_RD = 1, CAPTABLE_WR = 2, CAPTABLE_WK = 4, CAPTABLE_TX = 8 };

/* The code of a request, its first byte. */
enum captable_code {
    CAPTABLE_READ = 1,
    CAPTABLE_WRITE = 2,
    CAPTABLE_FETCH = 3,
    CAPTABLE_STORE = 4,
    CAPTABLE_REVOKE = 5,
    CAPTABLE_SEND = 6,
    CAPTABLE_ALLOCATE = 7,
    CAPTABLE_DESTROY = 8,
    CAPTABLE_RECLAIM = 9
};

/* The `reply` of a send that asks for no reply slot. */
#define CAPTABLE_NO_REPLY 8

/* The `maker` of an object that was not made in a run or whose maker's number was reclaimed, and of an unborn
 * record. */
#define CAPTABLE_NO_MAKER 64

/* Every answer of every call, and of the program `confine`. Checks run in number order, among those that
 * apply, but for these: a reclaim checks 24 after 4 and before 6, and 5 does not apply to it; whoever asks for a
 * chain asks for a test first, and gets its refusals; an image and the bytes of an import are checked as captable_read
 * and captable_import say; writing the older form checks 1, 23 and 16 in turn. captable_reason says each in words. */
enum captable_number {
    CAPTABLE_DONE = 0,
    CAPTABLE_TABLE_UNSOUND = 1,         /* the table is not sound */
    CAPTABLE_FIELD_INVALID = 2,         /* a field out of range, a list too long, or bytes that are no request */
    CAPTABLE_ACTOR_UNFIT = 3,           /* the actor is not alive, or passive */
    CAPTABLE_SLOT_EMPTY = 4,            /* the slot that is used, t, is empty; one that is copied may be empty */
    CAPTABLE_TARGET_DEAD = 5,           /* the target is dead; not of a reclaim, which is for a dead one */
    CAPTABLE_RIGHT_ABSENT = 6,          /* the slot lacks the right that is needed */
    CAPTABLE_TARGET_PASSIVE = 7,        /* a send to a passive target */
    CAPTABLE_ACTOR_ITSELF = 8,          /* a destroy of the actor itself */
    CAPTABLE_NOT_IN_STOCK = 9,          /* the number or the part of an allocate is outside the actor's stock */
    CAPTABLE_MEMBERS_INVALID = 10,      /* test: no member, or one that is not alive */
    CAPTABLE_LIST_INVALID = 11,         /* test: a list too long, no list, or an entry that is no right over a born non-member */
    CAPTABLE_RIGHT_UNLISTED = 12,       /* test: a member holds a right over a non-member that is not listed; a capability with wk alone needs no entry */
    CAPTABLE_MEMBER_HELD = 13,          /* test: a non-member holds a capability naming a member */
    CAPTABLE_LENGTH_WRONG = 14,         /* reading: fewer than three bytes, or not its version's length (1,923 or 1,987), in the slice and in the length field */
    CAPTABLE_VERSION_WRONG = 15,        /* reading: the version byte is neither 1 nor 2; confine: it is not 1 */
    CAPTABLE_BUFFER_SHORT = 16,         /* writing: a buffer below 1,987 bytes, or 1,923 for the older form */
    CAPTABLE_INPUT_WRONG = 17,          /* confine: an input of wrong length; captable_confine prints it */
    CAPTABLE_OBJECT_INVALID = 18,       /* chain: the object's number is above 63, unborn or a member */
    CAPTABLE_OUTSIDE_BOUND = 19,        /* chain: the object is outside the bound */
    CAPTABLE_IMPORT_LENGTH_WRONG = 20,  /* import: below 4 bytes, another length field, or entities that end elsewhere */
    CAPTABLE_IMPORT_VERSION_WRONG = 21, /* import: the version byte is not 1 */
    CAPTABLE_IMPORT_VALUE_WRONG = 22,   /* import: a count, a target or rights out of range */
    CAPTABLE_MAKER_RECORDED = 23,       /* writing the older form: some maker is not 64, for which it has no place */
    CAPTABLE_TARGET_ALIVE = 24          /* a reclaim of a target that is alive */
};

/* Why a call was answered with the number, in plain words for a log. Never NULL. */
static inline const char *captable_reason(uint8_t number)
{
    switch (number) {
    case CAPTABLE_DONE:
        return "done";
    case CAPTABLE_TABLE_UNSOUND:
        return "the table is not sound";
    case CAPTABLE_FIELD_INVALID:
        return "a field is out of range, or the bytes are no request";
    case CAPTABLE_ACTOR_UNFIT:
        return "the actor is not alive and active";
    case CAPTABLE_SLOT_EMPTY:
        return "the slot is empty";
    case CAPTABLE_TARGET_DEAD:
        return "the target is dead";
    case CAPTABLE_RIGHT_ABSENT:
        return "the right is absent";
    case CAPTABLE_TARGET_PASSIVE:
        return "the target is passive";
    case CAPTABLE_ACTOR_ITSELF:
        return "the target is the actor itself";
    case CAPTABLE_NOT_IN_STOCK:
        return "the number or the part is outside the stock";
    case CAPTABLE_MEMBERS_INVALID:
        return "there is no member, or one is not alive";
    case CAPTABLE_LIST_INVALID:
        return "the list is too long, or an entry is invalid";
    case CAPTABLE_RIGHT_UNLISTED:
        return "a member holds a right that is not listed; a capability with wk alone needs no entry";
    case CAPTABLE_MEMBER_HELD:
        return "a non-member holds a capability naming a member";
    case CAPTABLE_LENGTH_WRONG:
        return "the image has a wrong length";
    case CAPTABLE_VERSION_WRONG:
        return "the image has a wrong version";
    case CAPTABLE_BUFFER_SHORT:
        return "the buffer is too short";
    case CAPTABLE_INPUT_WRONG:
        return "the input has a wrong length";
    case CAPTABLE_OBJECT_INVALID:
        return "the object is above 63, unborn or a member";
    case CAPTABLE_OUTSIDE_BOUND:
        return "the object is outside the bound";
    case CAPTABLE_IMPORT_LENGTH_WRONG:
        return "the import has a wrong length";
    case CAPTABLE_IMPORT_VERSION_WRONG:
        return "the import has a wrong version";
    case CAPTABLE_IMPORT_VALUE_WRONG:
        return "a count, a target or rights in the import are out of range";
    case CAPTABLE_MAKER_RECORDED:
        return "some maker is not 64, and the older form has no place for it";
    case CAPTABLE_TARGET_ALIVE:
        return "the target is alive";
    default:
        return "no answer of the table has this number";
    }
}

/* ---- structs -------------------------------------------------------------------------------------- */

/* What a slot holds: a target and rights over it. Target 0 with rights 0 is an empty slot. A filled slot of an
 * object that stays alive is emptied by a revoke and by a reclaim of the number that it names, and by nothing else; a
 * destroy takes all slots with the object. */
typedef struct captable_capability {
    uint8_t target;
    uint8_t rights;
} captable_capability;

/* An object's record. `stock` is the set of unborn numbers that it may make objects of, bit n for n.
 *
 * `maker` says who made it: the number of the object whose allocate did, or CAPTABLE_NO_MAKER, 64, for one that was
 * not made in a run, as those are that captable_import brings in or that a version 1 image has. An allocate writes
 * its actor there, a reclaim of the number that stands there makes it 64, and nothing else changes it; a dead object
 * keeps it, and an unborn record has 64. In a sound table it is 64 or a born number. It is there for service to look
 * at, and is no authority: no check but that one asks for it. */
typedef struct captable_record {
    uint8_t status;
    uint8_t kind;
    uint8_t maker;
    uint32_t word;
    uint64_t stock;
} captable_record;

/* The table. Slot j of object n is slots[n * 8 + j], see captable_slot. A new one begins as captable_unborn() gives
 * it. A table of zeros is not that one and is not sound: its unborn records have the maker 0, and every call that
 * takes it answers 1. */
typedef struct captable_table {
    captable_record records[CAPTABLE_OBJECTS];
    captable_capability slots[CAPTABLE_OBJECTS * CAPTABLE_SLOTS];
} captable_table;

/* A table and a number. */
typedef struct captable_outcome {
    captable_table table;
    uint8_t number;
} captable_outcome;

/* Potential access: rows[64 * r + x] is the set of objects over which x can come to have a right, bit n
 * for object n; r is 0 for rd, 1 for wr, 2 for wk, 3 for tx. */
typedef struct captable_relation {
    uint64_t rows[4 * CAPTABLE_OBJECTS];
    uint8_t number;
} captable_relation;

/* What the confinement test found. `bound` is the set of non-members that the members can ever
 * influence, bit n for object n; it is empty on every refusal. It is worked from the list, and not from what
 * the members hold. An entry with wk alone adds nothing to it.
 *
 * `rounds` says in how many rounds that influence spreads. Round one adds the objects one link from the stand-in,
 * which is in the place of all members and holds exactly the list; each later round adds the objects one link from
 * what is there (captable_chain says what a link is). Counted are the rounds that add an object, and after the last
 * of them the bound is there. So it is the number of links of the longest chain that captable_chain shows for the
 * objects of the bound: 0 for an empty bound and on every refusal, and at most 63 (CAPTABLE_LINKS). */
typedef struct captable_finding {
    uint64_t bound;
    uint8_t rounds;
    uint8_t number;
} captable_finding;

/* A chain of links from the stand-in to an object of the bound: its `count` object numbers in turn, the
 * stand-in left out and the object last. What follows them is zero; on every refusal there are none. */
typedef struct captable_shown {
    uint8_t numbers[CAPTABLE_LINKS];
    uint8_t count;
    uint8_t number;
} captable_shown;

/* The layout that the archive was proved for. A compiler that lays the structs out otherwise stops here. */
#define CAPTABLE_ASSERT(name, holds) typedef char captable_assert_##name[(holds) ? 1 : -1]
CAPTABLE_ASSERT(capability, sizeof(captable_capability) == 2);
CAPTABLE_ASSERT(rights, offsetof(captable_capability, rights) == 1);
CAPTABLE_ASSERT(record, sizeof(captable_record) == 16);
CAPTABLE_ASSERT(kind, offsetof(captable_record, kind) == 1);
CAPTABLE_ASSERT(maker, offsetof(captable_record, maker) == 2);
CAPTABLE_ASSERT(word, offsetof(captable_record, word) == 4);
CAPTABLE_ASSERT(stock, offsetof(captable_record, stock) == 8);
CAPTABLE_ASSERT(table, sizeof(captable_table) == 2048);
CAPTABLE_ASSERT(slots, offsetof(captable_table, slots) == 1024);
CAPTABLE_ASSERT(outcome, sizeof(captable_outcome) == 2056);
CAPTABLE_ASSERT(outcome_number, offsetof(captable_outcome, number) == 2048);
CAPTABLE_ASSERT(relation, sizeof(captable_relation) == 2056);
CAPTABLE_ASSERT(relation_number, offsetof(captable_relation, number) == 2048);
CAPTABLE_ASSERT(finding, sizeof(captable_finding) == 16);
CAPTABLE_ASSERT(finding_rounds, offsetof(captable_finding, rounds) == 8);
CAPTABLE_ASSERT(finding_number, offsetof(captable_finding, number) == 9);
CAPTABLE_ASSERT(shown, sizeof(captable_shown) == 65);
CAPTABLE_ASSERT(shown_count, offsetof(captable_shown, count) == 63);
CAPTABLE_ASSERT(shown_number, offsetof(captable_shown, number) == 64);

/* ---- a slot --------------------------------------------------------------------------------------- */

/* Neither checks anything: n is 0 to 63 and j is 0 to 7, or memory beside the table is used. */

/* What slot j of object n holds. */
static inline captable_capability captable_slot(const captable_table *table, size_t n, size_t j)
{
    return table->slots[n * CAPTABLE_SLOTS + j];
}

/* The place of slot j of object n, to fill a table before it is used. A table that has been served is
 * changed by steps alone: what is written past them is written past the rules. */
static inline captable_capability *captable_slot_at(captable_table *table, size_t n, size_t j)
{
    return &table->slots[n * CAPTABLE_SLOTS + j];
}

/* ---- calls ---------------------------------------------------------------------------------------- */

/* The version of the archive: CAPTABLE_VERSION, if it is the one that this header belongs to. */
uint32_t captable_version(void);

/* The wholly unborn table, which is sound: zeros, but for the maker of each record, which is CAPTABLE_NO_MAKER. What
 * a table begins with before it is filled; a static or cleared one has to be given this first. */
captable_table captable_unborn(void);

/* 0 for a sound table, 1 for any other. */
CAPTABLE_ANSWER uint8_t captable_sound(captable_table table);

/*
 * One request on the lent table: its reply. A refusal leaves the table as it was.
 *
 * One caller at a time: from the beginning of the step to its end nothing else reads or writes this table,
 * interrupts and other cores included. A step that an interrupt takes in the middle of another is answered
 * 0 and then undone, a revoke too. Turn interrupts off around the step, or queue requests in the interrupt
 * and take the steps in the main loop (examples/interrupts.c).
 *
 * The actor in the bytes is believed: captable_stamp, below, before the step.
 *
 * An empty copy keeps the destination. A fetch, a store, a send or an allocate copies slots, and a copy comes out
 * empty in two ways: the slot that is copied is empty; or a fetch through wk without rd weakens a slot that has
 * neither rd nor wk (rights 2, 8 or 10). Such a copy changes no slot: the destination holds what it held before.
 * The request is done all the same and answered 0, so 0 does not say that something came: look at the slot. What
 * empties a slot of an object that stays alive is a revoke, or a reclaim of the number that it names, and nothing else.
 *
 * A reclaim makes a dead number unborn, and it joins the stock of whoever asked, who can make an object of it again.
 * What firmware should know of it:
 *
 * - Every slot anywhere that names the number is emptied, of active and of passive objects, whatever its rights are.
 *   Who holds such a capability is not asked, does not keep the number from being reclaimed, and is not told: its next
 *   request through that slot is answered 4, as through any empty slot. The asker's own slot t is emptied too.
 * - Every maker that is the number becomes 64, the asker's own too. Who made those objects is not known any more.
 * - The reply goes by the asker, its slot t and the target alone. It says nothing of other holders; what firmware shows
 *   a routine beside it should say nothing of them either.
 * - The record is the whole unborn one: kind 0, maker 64. What the object was is not known any more.
 * - A number that is made again is another object. Mailboxes, queued requests, sets of members and whatever else the
 *   firmware keeps by number are the old one's: clear them when the object is destroyed or its number reclaimed.
 * - A refused reclaim leaves the table as it was, as any refusal does.
 *
 * The bytes are the code and then the documents' fields in their order, a byte each; a word is 4 bytes and
 * a part 8, the most significant first; a list is its count and then its pairs (actor's slot, destination
 * slot). The captable_put_... functions below write them. Bytes that are no request get 2.
 */
CAPTABLE_ANSWER uint8_t captable_step(captable_table *table, const uint8_t *request, size_t length);

/*
 * The same step as a question: what would this request be answered, and what would the table be after it?
 * The caller's own table is not changed; whoever wants the step done keeps the table that is given back,
 * which on a refusal is the table that was given.
 */
CAPTABLE_ANSWER captable_outcome captable_step_by_value(captable_table table, const uint8_t *request, size_t length);

/* Potential access, whole; for a table that is not sound the number 1 and no rights. */
CAPTABLE_ANSWER captable_relation captable_access(captable_table table);

/*
 * The same answer as that of captable_access, for every table, worked by groups. Objects that a held rd, wr or tx
 * joins, in either direction and through others, are one group. An object has all four rights over its group, and wk
 * alone over every born object outside of it from which links lead to it; captable_chain says what a link is, and here
 * every capability that is held in the table gives one.
 *
 * Which of the two to take: by groups it is the shorter way on every table that was measured, many times so on a full
 * one, and takes more stack. captable_access goes by document 01's rules one by one. Times are in docs/PERFORMANCE.md.
 */
CAPTABLE_ANSWER captable_relation captable_access_by_groups(captable_table table);

/*
 * The confinement test: which objects can a set of members, bit n for object n, ever influence, if over
 * non-members they hold no more than the list has, wk alone not counted, and in how many rounds does that spread?
 * Each entry of the list is two bytes: target, rights. Bytes of odd length are no list and get 11.
 *
 * What needs an entry: a member's capability to a non-member, unless its rights are exactly wk (CAPTABLE_WK, 4).
 * Every right of it has to be listed for its target, in one entry or in several, or the number is 12. Beside
 * another right wk has to be listed too: rights 5 need rd and wk, rights 6 wr and wk, rights 12 wk and tx.
 *
 * What needs none: a capability with rights exactly wk. A routine may read dozens of objects through wk alone,
 * with an empty list; the test says whom members influence, and not what they read. An entry with wk alone is
 * allowed all the same: it takes one of the eight places, and the bound is the same with it and without it.
 *
 * A capability that names a member and is held by a non-member is 13 whatever its rights are, wk alone too.
 */
CAPTABLE_ANSWER captable_finding captable_test(captable_table table, uint64_t members, const uint8_t *list,
                                               size_t length);

/*
 * The same answer as that of captable_test, for every input: the same bound, the same rounds, and the same refusals in
 * the same order, with an empty bound. Its bound is the bound by groups, where the holders are the
 * non-members and the stand-in, which is in the place of all members and holds exactly the list. It is found in one
 * walk along links from the stand-in, which counts the rounds too.
 *
 * Which of the two to take: by groups it is the shorter way for every test that was measured, and takes more stack.
 * captable_test goes round by round over all that is there. Times are in docs/PERFORMANCE.md.
 */
CAPTABLE_ANSWER captable_finding captable_test_by_groups(captable_table table, uint64_t members, const uint8_t *list,
                                                         size_t length);

/*
 * Show me the chain: how does an object come to be in the bound of that test? The answer is a shortest chain
 * of links to it from the stand-in, which is in the place of all members and holds exactly the list; among
 * chains of one length it is the one whose numbers come first, compared from the stand-in's end. A link is one
 * capability that a non-member holds or that is listed: rd, wr and tx lead either way, wk from target to holder.
 * So what a member holds without an entry, which is wk alone, is no link.
 *
 * Members and list are those of captable_test, whose refusals come first. Then the number is 18 for an object
 * above 63, unborn or a member, and 19 for one outside the bound.
 */
CAPTABLE_ANSWER captable_shown captable_chain(captable_table table, uint64_t members, const uint8_t *list,
                                              size_t length, uint8_t object);

/*
 * Reads an image; on every refusal with the wholly unborn table.
 *
 * An image is its length in 2 bytes, the most significant first, the version byte, and the 64 records. Version 2 has
 * 1,987 bytes, 31 a record with the maker last; version 1, the older form, has 1,923 bytes, 30 a record, and its
 * objects come with the maker 64 throughout. What is read of version 1 and written by captable_write_older is equal
 * byte for byte.
 *
 * The number is 14 for fewer than three bytes; then 15 for a version byte that is neither 1 nor 2, at any length; then
 * 14 if the length of that version is not `length` or is not in the length field; then 1.
 */
CAPTABLE_ANSWER captable_outcome captable_read(const uint8_t *image, size_t length);

/*
 * Brings in a take-and-grant table, such as the older rigs hold (source document 001): entities, and the
 * capabilities that they have over one another.
 *
 * The bytes are their own length in 2 bytes, the most significant first; the version byte 1; how many entities
 * there are, 0 to 64; and the entities. An entity is how many capabilities it has, 0 to 8, and for each of them
 * the target and the rights, which add up: 1 Read, 2 Write, 4 Grant, 8 Create, 16 Store. The longest import has
 * CAPTABLE_IMPORT_BYTES bytes.
 *
 * Entities are numbered from 0 as they come, and each becomes the object of its number: alive, active, with word 0,
 * no stock and the maker 64. Its capabilities go into its slots in their order. Read becomes rd, Write wr, Grant
 * tx, Store rd and wr together, Create nothing; a capability that is left with no right gives an empty slot in its
 * place. All other numbers are unborn, and since they are in no stock, no object can be made in this table. What
 * comes in is sound, and captable_test therefore judges it like any table. Entities that Store links join influence
 * each other in it.
 *
 * The number is 20 for fewer than four bytes and for a length field that is not `length`, then 21 for a version
 * byte that is not 1, then 22 for more than 64 entities. Then the entities are gone through byte by byte, and
 * the first offence decides: 22 for more than eight capabilities, a target that is no entity's number or rights
 * above 31, 20 where the bytes end before the entities do, or go on after them. On every refusal the table is
 * the wholly unborn one. So the table that is given back is always sound; the bytes are as they were.
 */
CAPTABLE_ANSWER captable_outcome captable_import(const uint8_t *bytes, size_t length);

/* Writes the table's image, of version 2, into the first CAPTABLE_IMAGE_BYTES bytes of the buffer and touches no byte
 * after them. The number is 1, then 16 for a shorter buffer; a refusal leaves every byte. */
CAPTABLE_ANSWER uint8_t captable_write(captable_table table, uint8_t *buffer, size_t length);

/* Writes the older form, an image of version 1, into the first CAPTABLE_OLDER_IMAGE_BYTES bytes in the same way: for
 * a rig that reads no other, and for captable_confine. It has no place for makers. The number is 1, then 23 if some
 * maker is not 64, a dead object's too, then 16. An object that an allocate made keeps a table from going back, until
 * its own number is reclaimed or that of its maker. */
CAPTABLE_ANSWER uint8_t captable_write_older(captable_table table, uint8_t *buffer, size_t length);

/*
 * Puts what the program `confine` prints for an input (an image of version 1, which has CAPTABLE_OLDER_IMAGE_BYTES
 * bytes, 8 bytes of members, a count byte, two bytes an entry) at the start of a buffer of CAPTABLE_PRINTED bytes,
 * leaves the rest of it, and says how many bytes that is: at most 191. There is no 0 byte after them. `printed` is
 * never NULL. An input of a wrong length is 17; then any other version byte than 1 is 15, and the rest as in
 * captable_read and captable_test.
 */
CAPTABLE_ANSWER size_t captable_confine(const uint8_t *input, size_t length, uint8_t *printed);

/* ---- a request's bytes ---------------------------------------------------------------------------- */

/*
 * The actor is who asks, and only the firmware knows who that is. The actor byte is authority: the step
 * takes the actor's slots, and a routine that fills in its own request can write any number there and speak
 * as any object. So the firmware, which knows whose mailbox it is emptying, writes the actor over whatever
 * the routine put there, and does so on a copy that the routine can no longer write.
 */

/* Stamps the actor into the bytes of a request, whatever its code. Bytes too short to have an actor are
 * left as they are; the step refuses them by 2. */
static inline void captable_stamp(uint8_t *request, size_t length, uint8_t actor)
{
    if (length > 1)
        request[1] = actor;
}

/*
 * Each captable_put_... writes a request into a buffer of CAPTABLE_REQUEST_BYTES bytes and gives its length,
 * for captable_step. `t` is the actor's slot that is used; its target is the target. Nothing is checked
 * here: the step refuses what is out of range. A list is `count` pairs of two bytes each; one that is too
 * long gives the length 0, which the step refuses by 2.
 */

static inline size_t captable_put_number(uint8_t *out, uint64_t number, size_t size)
{
    size_t k;
    for (k = 0; k < size; k++)
        out[k] = (uint8_t)(number >> (8 * (size - 1 - k)));
    return size;
}

static inline size_t captable_put_pairs(uint8_t *out, const uint8_t *pairs, uint8_t count)
{
    size_t k;
    out[0] = count;
    for (k = 0; k < 2 * (size_t)count; k++)
        out[1 + k] = pairs[k];
    return 1 + 2 * (size_t)count;
}

static inline size_t captable_put_slots(uint8_t *out, uint8_t code, uint8_t actor, uint8_t t)
{
    out[0] = code;
    out[1] = actor;
    out[2] = t;
    return 3;
}

/* The actor's word becomes the target's word. Needs rd or wk. */
static inline size_t captable_put_read(uint8_t *out, uint8_t actor, uint8_t t)
{
    return captable_put_slots(out, CAPTABLE_READ, actor, t);
}

/* The target's word becomes the word. Needs wr. */
static inline size_t captable_put_write(uint8_t *out, uint8_t actor, uint8_t t, uint32_t word)
{
    size_t at = captable_put_slots(out, CAPTABLE_WRITE, actor, t);
    return at + captable_put_number(out + at, word, 4);
}

/* The target's slot i goes to the actor's slot j, weakened if rd is absent. Needs rd or wk. A copy that comes out
 * empty leaves slot j as it was: one of an empty slot, and without rd one of rights 2, 8 or 10. */
static inline size_t captable_put_fetch(uint8_t *out, uint8_t actor, uint8_t t, uint8_t i, uint8_t j)
{
    size_t at = captable_put_slots(out, CAPTABLE_FETCH, actor, t);
    out[at] = i;
    out[at + 1] = j;
    return at + 2;
}

/* The actor's slot i goes to the target's slot j. Needs wr. If slot i is empty, slot j is left as it was. */
static inline size_t captable_put_store(uint8_t *out, uint8_t actor, uint8_t t, uint8_t i, uint8_t j)
{
    size_t at = captable_put_slots(out, CAPTABLE_STORE, actor, t);
    out[at] = i;
    out[at + 1] = j;
    return at + 2;
}

/* The target's slot j is emptied. Needs wr. But for a reclaim no other request empties a slot of an object that stays
 * alive. To empty a slot of its own, an object needs wr over itself. */
static inline size_t captable_put_revoke(uint8_t *out, uint8_t actor, uint8_t t, uint8_t j)
{
    size_t at = captable_put_slots(out, CAPTABLE_REVOKE, actor, t);
    out[at] = j;
    return at + 1;
}

/* The word and the pairs go to an active target, and then its slot `reply` gets (actor, tx) unless that is
 * CAPTABLE_NO_REPLY. Needs tx. Pairs apply left to right, and a later one to the same slot wins only if its copy is
 * not empty; a slot that gets none but empty copies is left as it was. */
static inline size_t captable_put_send(uint8_t *out, uint8_t actor, uint8_t t, uint32_t word, const uint8_t *pairs,
                                       uint8_t count, uint8_t reply)
{
    size_t at = captable_put_slots(out, CAPTABLE_SEND, actor, t);
    if (count > CAPTABLE_PAIRS)
        return 0;
    at += captable_put_number(out + at, word, 4);
    at += captable_put_pairs(out + at, pairs, count);
    out[at] = reply;
    return at + 1;
}

/* n, of the actor's stock, becomes alive with the kind, word 0, the part as its stock, the actor as its maker and the
 * copied pairs; the actor's slot i gets all rights over it. Pairs apply as in a send: the new object's slots are
 * empty, but for those where a filled copy lands. */
static inline size_t captable_put_allocate(uint8_t *out, uint8_t actor, uint8_t n, uint8_t kind, uint64_t part, uint8_t i,
                                           const uint8_t *pairs, uint8_t count)
{
    size_t at = captable_put_slots(out, CAPTABLE_ALLOCATE, actor, n);
    if (count > CAPTABLE_PAIRS)
        return 0;
    out[at] = kind;
    at += 1;
    at += captable_put_number(out + at, part, 8);
    out[at] = i;
    at += 1;
    return at + captable_put_pairs(out + at, pairs, count);
}

/* The target becomes dead: it loses its word and slots and keeps its kind and its maker, and its stock joins the
 * actor's. Its number stays in use until a reclaim. Needs wr. */
static inline size_t captable_put_destroy(uint8_t *out, uint8_t actor, uint8_t t)
{
    return captable_put_slots(out, CAPTABLE_DESTROY, actor, t);
}

/* The target, which is dead, becomes unborn, and its number joins the actor's stock. Every slot of any object that
 * names it is emptied, slot t too, and every maker that names it becomes CAPTABLE_NO_MAKER: see captable_step. Needs
 * wr, over a number that the actor need not have destroyed itself. */
static inline size_t captable_put_reclaim(uint8_t *out, uint8_t actor, uint8_t t)
{
    return captable_put_slots(out, CAPTABLE_RECLAIM, actor, t);
}

#ifdef __cplusplus
}
#endif

#endif
