/* The soundness of a table, clause by clause from document 01 and, for makers, from document 02, 2.7, as one
   would write it in C. It ends at the first offence. */

#include "../../include/captable.h"

static int born(const captable_table *table, uint8_t n) {
    return n < 64 && (table->records[n].status == CAPTABLE_ALIVE || table->records[n].status == CAPTABLE_DEAD);
}

/* The record without its slots and without regard to other records. */
static int record_sound(const captable_record *record) {
    if (record->status > CAPTABLE_DEAD || record->kind > 1)
        return 0;
    if (record->status == CAPTABLE_UNBORN && record->kind != 0)
        return 0;
    return record->status == CAPTABLE_ALIVE || (record->word == 0 && record->stock == 0);
}

/* A filled slot stands in an alive record, names a born target and has rights 1 to 15. */
static int slots_sound(const captable_table *table, int n) {
    for (int j = 0; j < 8; j++) {
        const captable_capability *slot = &table->slots[n * 8 + j];
        if (slot->target == 0 && slot->rights == 0)
            continue;
        if (table->records[n].status != CAPTABLE_ALIVE || slot->rights < 1 || slot->rights > 15 ||
            !born(table, slot->target))
            return 0;
    }
    return 1;
}

/* A maker is 64 or a born number, and for an unborn record 64 alone. */
static int maker_sound(const captable_table *table, const captable_record *record) {
    return record->maker == CAPTABLE_NO_MAKER || (record->status != CAPTABLE_UNBORN && born(table, record->maker));
}

/* 0 for a sound table, 1 for any other. */
uint8_t peer_scan(const captable_table *table) {
    uint64_t unborn = 0, stocked = 0;
    for (int n = 0; n < 64; n++)
        if (table->records[n].status == CAPTABLE_UNBORN)
            unborn |= UINT64_C(1) << n;
    for (int n = 0; n < 64; n++) {
        const captable_record *record = &table->records[n];
        if (!record_sound(record) || !maker_sound(table, record))
            return 1;
        if ((record->stock & stocked) != 0 || (record->stock & ~unborn) != 0)
            return 1;
        stocked |= record->stock;
        if (!slots_sound(table, n))
            return 1;
    }
    return 0;
}
