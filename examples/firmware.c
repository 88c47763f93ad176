/*
 * A small main loop over the capability table: load an image, serve the mailboxes, say who made an object, show that
 * a copy of nothing clears no channel, test a newly loaded subsystem and say how it gets at an object, use the number
 * of an object again that is not needed any more, test a routine that reads more objects than a list has room for,
 * judge a table of an older rig by the same test, write the image back. An image may be of either version; what is
 * written is of version 2, for a maker has no place in version 1.
 *
 *     firmware IMAGE NEW_IMAGE
 *
 * Each object has a mailbox, and its routine puts requests there. Whose mailbox it is, is all that is known
 * of who asks; what the routine wrote of that is not believed. The requests are those of document 01's
 * examples 6, 7, 9 and 10 on its Table K, one that lies about its actor, one that is no request at all, copies
 * of empty slots, and those by which a number is used again.
 * Exit status: 0, or 1 when a file cannot be used, the table is refused, a test is not answered as it should
 * be, or the library is of another version.
 */
#include "captable.h"

#include <stdio.h>

/* The case has one table. */
static captable_table table;

/* What a routine put into its mailbox; length 0 for nothing. */
struct mailbox {
    const char *what; /* for the log */
    uint8_t bytes[CAPTABLE_REQUEST_BYTES];
    size_t length;
};

/* The mailbox of object n is the one at n. */
static struct mailbox mailboxes[CAPTABLE_OBJECTS];

/* The routines ask for the first time. */
static void ask_first(void)
{
    struct mailbox *box = mailboxes;

    box[0].what = "0 reads through slot 5";
    box[0].length = captable_put_read(box[0].bytes, 0, 5);
    box[1].what = "1 reads through slot 8";
    box[1].length = captable_put_read(box[1].bytes, 1, 8);
    box[2].what = "2 writes 7 through slot 0";
    box[2].length = captable_put_write(box[2].bytes, 2, 0, 7);
    box[4].what = "4 writes 7 through slot 0";
    box[4].length = captable_put_write(box[4].bytes, 4, 0, 7);
    box[5].what = "5 allocates 10 with part {11}";
    box[5].length = captable_put_allocate(box[5].bytes, 5, 10, CAPTABLE_ACTIVE, (uint64_t)1 << 11, 7, NULL, 0);
}

/* And once more. Slot 0 of 4 is (3, wr), so that 4 could write 3's word; 2 has no right over 3. */
static void ask_again(void)
{
    static const uint8_t nonsense[5] = {99, 4, 0, 0, 0};
    struct mailbox *box = mailboxes;
    size_t k;

    box[1].what = "1 reads through slot 0";
    box[1].length = captable_put_read(box[1].bytes, 1, 0);
    box[2].what = "2 says that it is 4 and writes 9 through slot 0";
    box[2].length = captable_put_write(box[2].bytes, 4, 0, 9);
    box[4].what = "4 puts bytes that are no request";
    for (k = 0; k < sizeof nonsense; k++)
        box[4].bytes[k] = nonsense[k];
    box[4].length = sizeof nonsense;
    box[5].what = "5 allocates 12";
    box[5].length = captable_put_allocate(box[5].bytes, 5, 12, CAPTABLE_ACTIVE, 0, 7, NULL, 0);
}

/* Takes a request out of the mailbox of `owner`, and stamps it. It is copied first: what the routine can
 * still write could change between the stamp and the step. Its length is the routine's too, so it is cut
 * to what a mailbox holds. */
static size_t take(uint8_t owner, uint8_t *request)
{
    struct mailbox *box = &mailboxes[owner];
    size_t length = box->length;
    size_t k;

    if (length > sizeof box->bytes)
        length = sizeof box->bytes;
    for (k = 0; k < length; k++)
        request[k] = box->bytes[k];
    box->length = 0;
    captable_stamp(request, length, owner);
    return length;
}

/* Whom a request destroys or reclaims, if it is done: the target of its slot t. CAPTABLE_OBJECTS for nobody. */
static size_t ended_by(const uint8_t *request, size_t length)
{
    if (length != 3 || (request[0] != CAPTABLE_DESTROY && request[0] != CAPTABLE_RECLAIM) ||
        request[2] >= CAPTABLE_SLOTS)
        return CAPTABLE_OBJECTS;
    return captable_slot(&table, request[1], request[2]).target;
}

/* Serves every mailbox once. What an object leaves in its mailbox is thrown away when it is destroyed and when its
 * number is reclaimed: whoever comes to have the number did not ask for that. */
static void serve(void)
{
    uint8_t request[CAPTABLE_REQUEST_BYTES];
    uint8_t owner, number;
    size_t length, ended;

    for (owner = 0; owner < CAPTABLE_OBJECTS; owner++) {
        length = take(owner, request);
        if (length == 0)
            continue;
        ended = ended_by(request, length);
        number = captable_step(&table, request, length);
        printf("%s: %u, %s\n", mailboxes[owner].what, number, captable_reason(number));
        if (number == CAPTABLE_DONE && ended < CAPTABLE_OBJECTS)
            mailboxes[ended].length = 0;
    }
}

/* Who made an object, for the technician. */
static void show_maker(size_t n)
{
    uint8_t maker = table.records[n].maker;

    if (maker == CAPTABLE_NO_MAKER)
        printf("%u was not made in a run\n", (unsigned)n);
    else
        printf("%u was made by %u\n", (unsigned)n, maker);
}

/* What a slot holds, for the log. */
static void show_slot(size_t n, size_t j)
{
    captable_capability held = captable_slot(&table, n, j);

    printf("slot %u of %u is ", (unsigned)j, (unsigned)n);
    if (held.target == 0 && held.rights == 0)
        printf("empty\n");
    else
        printf("target %u, rights %u\n", held.target, held.rights);
}

/* A copy that comes out empty changes no slot, though the request is done. Slot 0 of 0 is its channel to 1, whose
 * slots are all empty: 0 fetches one of them into that very slot, and can still read through it. Nor can 5 take
 * a capability back from 10 by storing an empty slot over it. A revoke does that. */
static void copy_nothing(void)
{
    struct mailbox *box = mailboxes;

    box[0].what = "0 fetches 1's empty slot 3 into its slot 0";
    box[0].length = captable_put_fetch(box[0].bytes, 0, 0, 3, 0);
    box[5].what = "5 stores its slot 0 into slot 2 of 10";
    box[5].length = captable_put_store(box[5].bytes, 5, 7, 0, 2);
    serve();
    show_slot(0, 0);
    show_slot(10, 2);
    box[0].what = "0 reads through slot 0";
    box[0].length = captable_put_read(box[0].bytes, 0, 0);
    box[5].what = "5 stores its empty slot 3 into slot 2 of 10";
    box[5].length = captable_put_store(box[5].bytes, 5, 7, 3, 2);
    serve();
    show_slot(10, 2);
    box[5].what = "5 revokes slot 2 of 10";
    box[5].length = captable_put_revoke(box[5].bytes, 5, 7, 2);
    serve();
    show_slot(10, 2);
}

/* The numbers that an object may make objects of, for the technician. */
static void show_stock(size_t n)
{
    unsigned k;

    printf("the stock of %u is", (unsigned)n);
    for (k = 0; k < CAPTABLE_OBJECTS; k++)
        if (table.records[n].stock >> k & 1)
            printf(" %u", k);
    printf("\n");
}

/* 10 is not needed any more. 5 destroys it, and its number is dead until 5 reclaims it, which it cannot do before: then
 * the number and what 10 had in its stock are in that of 5. 1 and 0 have come to hold capabilities over 10; they lose
 * them and are not told, and 5 is not told of them. What 5 makes of the number is another object, which they have no
 * right over; nor is what 10 asked for last, and too late, served in its name. */
static void use_again(void)
{
    struct mailbox *box = mailboxes;

    box[5].what = "5 stores its slot 7 into slot 4 of 1";
    box[5].length = captable_put_store(box[5].bytes, 5, 0, 7, 4);
    serve();
    box[0].what = "0 fetches 1's slot 4 into its slot 1";
    box[0].length = captable_put_fetch(box[0].bytes, 0, 0, 4, 1);
    box[5].what = "5 reclaims through slot 7";
    box[5].length = captable_put_reclaim(box[5].bytes, 5, 7);
    serve();
    show_slot(0, 1);
    show_slot(1, 4);
    box[5].what = "5 destroys through slot 7";
    box[5].length = captable_put_destroy(box[5].bytes, 5, 7);
    box[10].what = "10 reads through slot 0";
    box[10].length = captable_put_read(box[10].bytes, 10, 0);
    serve();
    box[0].what = "0 reads through slot 1";
    box[0].length = captable_put_read(box[0].bytes, 0, 1);
    box[5].what = "5 reclaims through slot 7";
    box[5].length = captable_put_reclaim(box[5].bytes, 5, 7);
    serve();
    show_slot(0, 1);
    show_slot(1, 4);
    show_slot(5, 7);
    show_stock(5);
    box[5].what = "5 allocates 10 again";
    box[5].length = captable_put_allocate(box[5].bytes, 5, 10, CAPTABLE_ACTIVE, 0, 7, NULL, 0);
    serve();
    box[0].what = "0 reads through slot 1";
    box[0].length = captable_put_read(box[0].bytes, 0, 1);
    serve();
    show_maker(10);
}

/* Reads the image into the table. */
static int load(const char *path)
{
    uint8_t image[CAPTABLE_IMAGE_BYTES + 1]; /* one more than the longer form, so that a longer file is seen as such */
    captable_outcome outcome;
    size_t length;
    FILE *file = fopen(path, "rb");

    if (file == NULL) {
        perror(path);
        return 1;
    }
    length = fread(image, 1, sizeof image, file);
    fclose(file);
    outcome = captable_read(image, length);
    if (outcome.number != CAPTABLE_DONE) {
        fprintf(stderr, "%s: image refused %u, %s\n", path, outcome.number, captable_reason(outcome.number));
        return 1;
    }
    table = outcome.table;
    return 0;
}

/* The subsystem {5, 10}, which may hold wr over 1. In round one it gets at 1; 0 has rd over 1 and 2 has wk over
 * it, and both come in round two. */
static const uint64_t members = (uint64_t)1 << 5 | (uint64_t)1 << 10;
static const uint8_t list[2] = {1, CAPTABLE_WR};

/* Tests a subsystem of a table with a list, prints the answer and gives its number. Whatever is not accepted is
 * not loaded. The rounds tell how far the influence spreads: round one adds what the list leads to, each later round
 * what is one link from what is there. Loading waits for this, so the shorter way is taken: by groups, with the answer
 * that captable_test gives. */
static uint8_t admit(const char *who, const captable_table *in, uint64_t set, const uint8_t *listed, size_t length)
{
    captable_finding finding = captable_test_by_groups(*in, set, listed, length);
    unsigned n;

    if (finding.number != CAPTABLE_DONE) {
        printf("%s refused %u, %s\n", who, finding.number, captable_reason(finding.number));
        return finding.number;
    }
    printf("%s accepted; it can influence:%s", who, finding.bound == 0 ? " nothing" : "");
    for (n = 0; n < CAPTABLE_OBJECTS; n++)
        if (finding.bound >> n & 1)
            printf(" %u", n);
    if (finding.rounds != 0)
        printf(", reached in %u round%s", finding.rounds, finding.rounds == 1 ? "" : "s");
    printf("\n");
    return CAPTABLE_DONE;
}

/* The technician sees an object in the bound and asks how it got there. */
static int explain(uint8_t object)
{
    captable_shown shown = captable_chain(table, members, list, sizeof list, object);
    unsigned k;

    if (shown.number != CAPTABLE_DONE) {
        fprintf(stderr, "no chain to %u: %u, %s\n", object, shown.number, captable_reason(shown.number));
        return 1;
    }
    printf("how it gets at %u:", object);
    for (k = 0; k < shown.count; k++)
        printf(" %u", shown.numbers[k]);
    printf("\n");
    return 0;
}

/* A maker's routine, the objects 0 to 2, reads 24 material tables, the objects 3 to 26, each through wk alone.
 * That needs no entry, so the list is empty. With rd beside wk over one of them it would need both listed. */
static int read_materials(void)
{
    static captable_table rig;
    const uint64_t routine = 7; /* bits 0, 1 and 2 */
    size_t k;

    rig = captable_unborn(); /* the zeros of a static table are not sound */
    for (k = 0; k < 27; k++) {
        rig.records[k].status = CAPTABLE_ALIVE;
        rig.records[k].kind = k < 3 ? CAPTABLE_ACTIVE : CAPTABLE_PASSIVE;
    }
    for (k = 0; k < 24; k++) {
        captable_capability *slot = captable_slot_at(&rig, k / CAPTABLE_SLOTS, k % CAPTABLE_SLOTS);
        slot->target = (uint8_t)(3 + k);
        slot->rights = CAPTABLE_WK;
    }
    if (admit("the routine with 24 material tables", &rig, routine, NULL, 0) != CAPTABLE_DONE)
        return 1;
    captable_slot_at(&rig, 2, 7)->rights = CAPTABLE_RD | CAPTABLE_WK;
    return admit("the routine with rd and wk over one", &rig, routine, NULL, 0) != CAPTABLE_RIGHT_UNLISTED;
}

/* The take-and-grant table of an older rig. */
static const uint8_t older[17] = {
    0, 17, 1, 5, /* 17 bytes, version 1, five entities */
    1, 2,  16,   /* 0 has Store over 2 */
    1, 0,  2,    /* 1, a maker's routine, has Write over 0 */
    0,           /* 2 has nothing */
    1, 2,  16,   /* 3 has Store over 2 */
    1, 2,  8     /* 4 has Create over 2, of which nothing is left here */
};

/* Brings that table in and tests its routine, which may hold wr over 0. Store links lead from 0 to 2 and on to
 * 3, so these are influenced too, one round after the other. */
static int bring_in(void)
{
    static const uint8_t entry[2] = {0, CAPTABLE_WR};
    captable_outcome outcome = captable_import(older, sizeof older);

    if (outcome.number != CAPTABLE_DONE) {
        fprintf(stderr, "import refused %u, %s\n", outcome.number, captable_reason(outcome.number));
        return 1;
    }
    return admit("the older rig's routine", &outcome.table, (uint64_t)1 << 1, entry, sizeof entry) != CAPTABLE_DONE;
}

/* Writes the image back. */
static int save(const char *path)
{
    uint8_t image[CAPTABLE_IMAGE_BYTES];
    uint8_t number = captable_write(table, image, sizeof image);
    FILE *file;
    int kept;

    if (number != CAPTABLE_DONE) {
        fprintf(stderr, "image not written: %u, %s\n", number, captable_reason(number));
        return 1;
    }
    file = fopen(path, "wb");
    if (file == NULL) {
        perror(path);
        return 1;
    }
    kept = fwrite(image, 1, sizeof image, file) == sizeof image;
    if (fclose(file) != 0 || !kept) {
        perror(path);
        return 1;
    }
    return 0;
}

int main(int count, char **words)
{
    if (count != 3) {
        fprintf(stderr, "usage: firmware IMAGE NEW_IMAGE\n");
        return 1;
    }
    if (captable_version() != CAPTABLE_VERSION) {
        fprintf(stderr, "the library is of another version than its header\n");
        return 1;
    }
    if (load(words[1]) != 0)
        return 1;
    ask_first();
    serve();
    ask_again();
    serve();
    printf("3's word is %lu\n", (unsigned long)table.records[3].word);
    show_maker(5);
    show_maker(10);
    copy_nothing();
    if (admit("subsystem", &table, members, list, sizeof list) != CAPTABLE_DONE || explain(2) != 0)
        return 1;
    use_again();
    if (read_materials() != 0 || bring_in() != 0)
        return 1;
    return save(words[2]);
}
