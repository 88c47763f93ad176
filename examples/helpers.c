/*
 * What the header itself gives: reasons, stamping, slots, version, sizes, the bytes of requests; what a table begins
 * with, and what becomes of a number that is reclaimed. Each is held to what the documents say, written out here. Exit
 * status: 0 if all is as it should be, 1 if not.
 */
#include "captable.h"

#include <stdio.h>
#include <string.h>

static int wrong;

static void check(int holds, const char *what)
{
    if (!holds) {
        fprintf(stderr, "not so: %s\n", what);
        wrong = 1;
    }
}

/* One reason for each of 0 to 24, each other than the rest, and one for all numbers that are no answer. */
static void reasons(void)
{
    unsigned a, b;

    for (a = 0; a <= 255; a++) {
        const char *reason = captable_reason((uint8_t)a);
        check(reason != NULL && strlen(reason) > 3, "every number has a reason");
        if (a > 25)
            check(strcmp(reason, captable_reason(25)) == 0, "25 and above are no answers");
    }
    for (a = 0; a <= 25; a++)
        for (b = 0; b < a; b++)
            check(strcmp(captable_reason((uint8_t)a), captable_reason((uint8_t)b)) != 0, "reasons differ");
    check(strcmp(captable_reason(0), "done") == 0, "0 is done");
    check(strcmp(captable_reason(17), "the input has a wrong length") == 0, "17 is confine's own");
    check(strcmp(captable_reason(19), "the object is outside the bound") == 0, "19 is the last of a chain");
    check(strcmp(captable_reason(20), "the import has a wrong length") == 0, "20 is an import's, and not an image's");
    check(strcmp(captable_reason(24), "the target is alive") == 0, "24 is a reclaim's");
}

/* The numbers of document 01, by name, and from 18 on those of document 02. */
static void numbers(void)
{
    check(CAPTABLE_TABLE_UNSOUND == 1 && CAPTABLE_FIELD_INVALID == 2 && CAPTABLE_ACTOR_UNFIT == 3, "1 to 3");
    check(CAPTABLE_SLOT_EMPTY == 4 && CAPTABLE_TARGET_DEAD == 5 && CAPTABLE_RIGHT_ABSENT == 6, "4 to 6");
    check(CAPTABLE_TARGET_PASSIVE == 7 && CAPTABLE_ACTOR_ITSELF == 8 && CAPTABLE_NOT_IN_STOCK == 9, "7 to 9");
    check(CAPTABLE_MEMBERS_INVALID == 10 && CAPTABLE_LIST_INVALID == 11, "10 and 11");
    check(CAPTABLE_RIGHT_UNLISTED == 12 && CAPTABLE_MEMBER_HELD == 13, "12 and 13");
    check(CAPTABLE_LENGTH_WRONG == 14 && CAPTABLE_VERSION_WRONG == 15, "14 and 15");
    check(CAPTABLE_BUFFER_SHORT == 16 && CAPTABLE_INPUT_WRONG == 17, "16 and 17");
    check(CAPTABLE_OBJECT_INVALID == 18 && CAPTABLE_OUTSIDE_BOUND == 19, "18 and 19");
    check(CAPTABLE_IMPORT_LENGTH_WRONG == 20 && CAPTABLE_IMPORT_VERSION_WRONG == 21, "20 and 21");
    check(CAPTABLE_IMPORT_VALUE_WRONG == 22 && CAPTABLE_MAKER_RECORDED == 23, "22 and 23");
    check(CAPTABLE_TARGET_ALIVE == 24, "24");
}

/* The stamp is the second byte, of any bytes that have one, and no other byte. */
static void stamps(void)
{
    uint8_t bytes[4] = {2, 4, 0, 9}, sent[4] = {2, 61, 0, 9}, one[2] = {2, 4};

    captable_stamp(bytes, sizeof bytes, 61);
    check(memcmp(bytes, sent, sizeof sent) == 0, "the actor is stamped");
    captable_stamp(one, 1, 61);
    check(one[0] == 2 && one[1] == 4, "one byte has no actor");
    captable_stamp(one, 0, 61);
    captable_stamp(NULL, 0, 61);
    check(one[0] == 2 && one[1] == 4, "no bytes have no actor");
    captable_stamp(one, 2, 61);
    check(one[0] == 2 && one[1] == 61, "two bytes have an actor");
}

/* Slot 3 of object 7 is the 59th capability after the first, and no other one changes. */
static void slots(void)
{
    static captable_table table, other;
    captable_capability held;
    size_t k;

    table = other = captable_unborn();
    captable_slot_at(&table, 7, 3)->target = 5;
    captable_slot_at(&table, 7, 3)->rights = CAPTABLE_RD | CAPTABLE_TX;
    other.slots[59].target = 5;
    other.slots[59].rights = 9;
    check(memcmp(table.slots, other.slots, sizeof table.slots) == 0, "a slot is put where the table has it");
    held = captable_slot(&table, 7, 3);
    check(held.target == 5 && held.rights == 9, "a slot is got as it was put");
    check(captable_slot_at(&table, 63, 7) == &table.slots[511], "the last slot");
    for (k = 0; k < 512; k++)
        if (k != 59)
            check(captable_slot(&table, k / 8, k % 8).rights == 0, "the other slots are empty");
}

/* A table begins wholly unborn, and goes into an image of either version: a head of three bytes, and 30 bytes a
 * record or, with the maker, 31. */
static void beginnings(void)
{
    captable_table begun = captable_unborn();
    uint8_t image[CAPTABLE_IMAGE_BYTES];
    const size_t whole = CAPTABLE_IMAGE_BYTES, older = CAPTABLE_OLDER_IMAGE_BYTES;
    size_t n;

    check(whole == 3 + 64 * 31 && older == 3 + 64 * 30, "the lengths of images");
    check(CAPTABLE_NO_MAKER == CAPTABLE_OBJECTS, "64 is no object's number");
    for (n = 0; n < CAPTABLE_OBJECTS; n++)
        check(begun.records[n].status == CAPTABLE_UNBORN && begun.records[n].maker == 64, "unborn, and made by nobody");
    check(captable_sound(begun) == CAPTABLE_DONE, "the unborn table is sound");
    check(captable_write(begun, image, whole) == CAPTABLE_DONE, "it has an image");
    check(captable_write(begun, image, whole - 1) == CAPTABLE_BUFFER_SHORT, "which needs its length");
    check(captable_write_older(begun, image, older) == CAPTABLE_DONE, "and one of the older form");
    check(captable_write_older(begun, image, older - 1) == CAPTABLE_BUFFER_SHORT, "which needs its own length");
    begun.records[9].status = CAPTABLE_DEAD;
    begun.records[9].maker = 9;
    check(captable_write_older(begun, image, 0) == CAPTABLE_MAKER_RECORDED, "but none with a maker, at any length");
}

/* A table of zeros is not sound, whoever is asked. */
static void zeros(void)
{
    static captable_table table;
    uint8_t image[CAPTABLE_IMAGE_BYTES], request[CAPTABLE_REQUEST_BYTES];
    size_t length = captable_put_read(request, 0, 0);

    check(captable_sound(table) == CAPTABLE_TABLE_UNSOUND, "zeros are not sound");
    check(captable_step(&table, request, length) == CAPTABLE_TABLE_UNSOUND, "nor for a step");
    check(captable_step_by_value(table, request, length).number == CAPTABLE_TABLE_UNSOUND, "nor for one by value");
    check(captable_access(table).number == CAPTABLE_TABLE_UNSOUND, "nor for potential access");
    check(captable_access_by_groups(table).number == CAPTABLE_TABLE_UNSOUND, "nor for the same by groups");
    check(captable_test(table, 1, NULL, 0).number == CAPTABLE_TABLE_UNSOUND, "nor for a test");
    check(captable_test_by_groups(table, 1, NULL, 0).number == CAPTABLE_TABLE_UNSOUND, "nor for one by groups");
    check(captable_chain(table, 1, NULL, 0, 0).number == CAPTABLE_TABLE_UNSOUND, "nor for a chain");
    check(captable_write(table, image, sizeof image) == CAPTABLE_TABLE_UNSOUND, "nor for an image");
    check(captable_write_older(table, image, sizeof image) == CAPTABLE_TABLE_UNSOUND, "nor for the older form");
}

/* The longest request, byte by byte in document 01's order, the three bytes of a reclaim, and lists that are too
 * long. */
static void requests(void)
{
    static const uint8_t pairs[10] = {0, 7, 1, 6, 2, 5, 3, 4, 4, 3};
    static const uint8_t longest[CAPTABLE_REQUEST_BYTES] = {7, 5, 10, 1, 0, 0, 0, 0, 0, 0, 8, 0,
                                                            7, 4, 0,  7, 1, 6, 2, 5, 3, 4};
    static const uint8_t destroy[3] = {8, 5, 7}, reclaim[3] = {9, 5, 7};
    uint8_t out[CAPTABLE_REQUEST_BYTES];

    check(captable_put_allocate(out, 5, 10, CAPTABLE_ACTIVE, 2048, 7, pairs, 4) == 22, "the longest request");
    check(memcmp(out, longest, sizeof longest) == 0, "an allocate's bytes");
    check(captable_put_allocate(out, 5, 10, CAPTABLE_ACTIVE, 0, 7, pairs, 5) == 0, "five pairs are too many");
    check(captable_put_send(out, 5, 0, 1, pairs, 5, CAPTABLE_NO_REPLY) == 0, "five pairs are too many");
    check(captable_put_send(out, 5, 0, 1, pairs, 4, CAPTABLE_NO_REPLY) == 17, "a send with four pairs");
    check(captable_put_destroy(out, 5, 7) == 3 && memcmp(out, destroy, sizeof destroy) == 0, "a destroy's bytes");
    check(captable_put_reclaim(out, 5, 7) == 3 && memcmp(out, reclaim, sizeof reclaim) == 0, "a reclaim's bytes");
}

/* What a reclaim of `dead` through slot 1 of 5 is answered, and what becomes of the number. 5 and 6 are alive, 6
 * passive; both were made by the dead object and name it, 6 through wk alone in its last slot. */
static void reclaim_of(uint8_t dead)
{
    static captable_table table, before;
    uint8_t request[CAPTABLE_REQUEST_BYTES];
    size_t length = captable_put_reclaim(request, 5, 1), n;

    table = captable_unborn();
    for (n = 5; n <= 6; n++) {
        table.records[n].status = CAPTABLE_ALIVE;
        table.records[n].maker = dead;
    }
    table.records[5].kind = CAPTABLE_ACTIVE;
    table.records[5].stock = (uint64_t)1 << 40;
    table.records[dead].status = CAPTABLE_ALIVE;
    table.records[dead].kind = CAPTABLE_ACTIVE;
    table.records[dead].maker = 6;
    captable_slot_at(&table, 5, 1)->target = captable_slot_at(&table, 6, 7)->target = dead;
    captable_slot_at(&table, 6, 7)->rights = CAPTABLE_WK;
    captable_slot_at(&table, 5, 1)->rights = CAPTABLE_RD | CAPTABLE_WK | CAPTABLE_TX;
    before = table;
    check(captable_step(&table, request, length) == CAPTABLE_TARGET_ALIVE, "it is alive, whatever the rights are");
    table.records[dead].status = before.records[dead].status = CAPTABLE_DEAD;
    check(captable_step(&table, request, length) == CAPTABLE_RIGHT_ABSENT, "a dead one needs wr");
    check(memcmp(&table, &before, sizeof table) == 0, "a refusal leaves the table");
    captable_slot_at(&table, 5, 1)->rights = CAPTABLE_WR;
    check(captable_step(&table, request, length) == CAPTABLE_DONE, "with wr it is reclaimed, though 6 names it too");
    check(table.records[dead].status == CAPTABLE_UNBORN && table.records[dead].kind == CAPTABLE_PASSIVE &&
              table.records[dead].maker == CAPTABLE_NO_MAKER && table.records[dead].stock == 0,
          "the record is an unborn one");
    check(table.records[5].stock == ((uint64_t)1 << 40 | (uint64_t)1 << dead), "the number is in the asker's stock");
    check(table.records[5].maker == 64 && table.records[6].maker == 64, "nobody made what it made");
    for (n = 0; n < sizeof table.slots / sizeof table.slots[0]; n++)
        check(table.slots[n].target == 0 && table.slots[n].rights == 0, "nobody names it");
    check(captable_step(&table, request, length) == CAPTABLE_SLOT_EMPTY, "and it is not reclaimed twice");
    length = captable_put_allocate(request, 5, dead, CAPTABLE_PASSIVE, 0, 1, NULL, 0);
    check(captable_step(&table, request, length) == CAPTABLE_DONE, "it is made again");
    check(table.records[dead].status == CAPTABLE_ALIVE && table.records[dead].maker == 5, "by who reclaimed it");
}

/* The first number, which an empty slot has as its target too, one in the middle and the last. */
static void reclaims(void)
{
    reclaim_of(0);
    reclaim_of(20);
    reclaim_of(63);
}

/* A head of four bytes, and 64 entities of a count and eight pairs each: the longest import is brought in, its
 * last capability into the last slot, and with one byte more it is not. */
static void longest_import(void)
{
    static uint8_t bytes[CAPTABLE_IMPORT_BYTES + 1];
    captable_outcome outcome;
    captable_capability held;
    size_t n;

    check(CAPTABLE_IMPORT_BYTES == 4 + 64 * (1 + 8 * 2), "the longest import");
    bytes[0] = CAPTABLE_IMPORT_BYTES / 256;
    bytes[1] = CAPTABLE_IMPORT_BYTES % 256;
    bytes[2] = 1;
    bytes[3] = CAPTABLE_OBJECTS;
    for (n = 0; n < CAPTABLE_OBJECTS; n++)
        bytes[4 + 17 * n] = CAPTABLE_SLOTS;
    bytes[1090] = 63; /* capability 7 of entity 63, the only one with a right: Grant over 63 */
    bytes[1091] = 4;
    outcome = captable_import(bytes, CAPTABLE_IMPORT_BYTES);
    check(outcome.number == CAPTABLE_DONE && outcome.table.records[63].status == CAPTABLE_ALIVE, "it is brought in");
    held = captable_slot(&outcome.table, 63, 7);
    check(held.target == 63 && held.rights == CAPTABLE_TX, "the last capability is in the last slot");
    held = captable_slot(&outcome.table, 63, 6);
    check(held.target == 0 && held.rights == 0, "the slot before it is empty");
    bytes[1] = (CAPTABLE_IMPORT_BYTES + 1) % 256;
    outcome = captable_import(bytes, CAPTABLE_IMPORT_BYTES + 1);
    check(outcome.number == CAPTABLE_IMPORT_LENGTH_WRONG && outcome.table.records[63].status == CAPTABLE_UNBORN,
          "no import is longer");
    check(captable_slot(&outcome.table, 63, 7).rights == 0, "a refusal leaves no capability");
}

/* Both ways give one answer. 0 has rd over 1 and 2 has wr over it: the three are a group. 3 has wk over 2. 4 is the
 * member, and is named by nobody. */
static void two_ways(void)
{
    static captable_table table;
    static const uint8_t list[2] = {1, CAPTABLE_WR};
    captable_relation rules, groups;
    captable_finding test, found;
    size_t n;

    table = captable_unborn();
    for (n = 0; n < 5; n++)
        table.records[n].status = CAPTABLE_ALIVE;
    captable_slot_at(&table, 0, 0)->target = 1;
    captable_slot_at(&table, 0, 0)->rights = CAPTABLE_RD;
    captable_slot_at(&table, 2, 7)->target = 1;
    captable_slot_at(&table, 2, 7)->rights = CAPTABLE_WR;
    captable_slot_at(&table, 3, 4)->target = 2;
    captable_slot_at(&table, 3, 4)->rights = CAPTABLE_WK;
    rules = captable_access(table);
    groups = captable_access_by_groups(table);
    check(groups.number == CAPTABLE_DONE && memcmp(rules.rows, groups.rows, sizeof rules.rows) == 0, "one answer");
    check(groups.rows[0] == 7 && groups.rows[64 + 1] == 7 && groups.rows[192 + 2] == 7, "all rights over the group");
    check(groups.rows[128 + 3] == 15 && groups.rows[3] == 8, "wk alone over another group");
    test = captable_test(table, (uint64_t)1 << 4, list, sizeof list);
    found = captable_test_by_groups(table, (uint64_t)1 << 4, list, sizeof list);
    check(test.number == CAPTABLE_DONE && found.number == CAPTABLE_DONE, "the test is accepted both ways");
    check(found.bound == 15 && found.rounds == 3, "the group, and 3, which reads it");
    check(test.bound == found.bound && test.rounds == found.rounds, "one bound");
    found = captable_test_by_groups(table, (uint64_t)1 << 5, list, sizeof list);
    check(found.number == CAPTABLE_MEMBERS_INVALID && found.bound == 0 && found.rounds == 0, "and one refusal");
}

int main(void)
{
    check(CAPTABLE_VERSION == 0 * 65536 + 10 * 256 + 0, "the header's version is 0.10.0");
    check(captable_version() == CAPTABLE_VERSION, "the archive has the header's version");
    reasons();
    numbers();
    stamps();
    slots();
    beginnings();
    zeros();
    requests();
    reclaims();
    longest_import();
    two_ways();
    if (!wrong)
        printf("the header's own functions do what they say\n");
    return wrong;
}
