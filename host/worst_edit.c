#include "worst.h"
#include "random.h"

/* The record that is put together. */
static struct record r;

/* How many tuples the lists have: as many as fit in a record, and in so many bytes. */
enum { ATTRIBUTES = 12000, COORDINATES = 12000, SPATIALS = 6600, ASSOCIATIONS = 3900 };

static word least(word one, word other) {
    return one < other ? one : other;
}

/* Begins update record number i, from 0, which modifies the record of this kind and RCID for the i-th time. */
static void modify(int kind, word rcid, word i) {
    identified_record(&r, kind, rcid, 2 + i, MODIFY);
}

/* An information type and points. */
static void one_information(struct pile *d) {
    pile_bare(d, INFORMATION, 1, 1, INSERT);
    filled_with_points(d, rising, 0);
}

/* Modifies of information type 1, each with as many tuples as fit, even ones by the one function and odd ones by the other. Each is handed
   the number of its tuple, from 1, and how many there were in the even one. */
static void attributes_in_turn(struct pile *d, struct pile *u, void (*even)(word, word), void (*odd)(word, word)) {
    word last = 0;
    one_information(d);
    for (word i = 0; left(u) > 200; i++) {
        word n = 0;
        modify(INFORMATION, 1, i);
        field_begin(&r, "ATTR");
        while (n < (i % 2 ? last : ATTRIBUTES) && spare(u, &r) >= 8) (i % 2 ? odd : even)(++n, last);
        field_end(&r);
        if (i % 2 == 0) last = n;
        if (!piled(u, &r)) return;
    }
}

static void at_the_front(word n, word last) {
    (void)n, (void)last;
    attribute_tuple(&r, 1, 1, 0, INSERT, "");
}

static void away_from_the_front(word n, word last) {
    (void)n, (void)last;
    attribute_tuple(&r, 1, 1, 0, DELETE, "");
}

static void at_the_end(word n, word last) {
    (void)last;
    attribute_tuple(&r, 1, n, 0, INSERT, "");
}

static void away_from_the_end(word n, word last) {
    attribute_tuple(&r, 1, last + 1 - n, 0, DELETE, "");
}

static void of_another_code(word n, word last) {
    (void)last;
    attribute_tuple(&r, mixed(n - 1, 16384), 1, 0, INSERT, "");
}

static void away_by_code(word n, word last) {
    attribute_tuple(&r, mixed(last - n, 16384), 1, 0, DELETE, "");
}

static void below_the_last(word n, word last) {
    (void)last;
    attribute_tuple(&r, 1, 1, n - 1, INSERT, "");
}

/* Leads down to the innermost, and takes away the outermost with the last tuple. */
static void down_and_away(word n, word last) {
    if (n < last) attribute_tuple(&r, 1, 1, n - 1, MODIFY, "");
    else attribute_tuple(&r, 1, 1, 0, DELETE, "");
}

static void front_edits(struct pile *d, struct pile *u) {
    attributes_in_turn(d, u, at_the_front, away_from_the_front);
}

static void end_edits(struct pile *d, struct pile *u) {
    attributes_in_turn(d, u, at_the_end, away_from_the_end);
}

static void code_edits(struct pile *d, struct pile *u) {
    attributes_in_turn(d, u, of_another_code, away_by_code);
}

static void deep_edits(struct pile *d, struct pile *u) {
    attributes_in_turn(d, u, below_the_last, down_and_away);
}

/* A record of an information type with so many attributes, side by side or one in the other. */
static int attributed(struct pile *d, word rcid, word count, int deep) {
    identified_record(&r, INFORMATION, rcid, 1, INSERT);
    field_begin(&r, "ATTR");
    for (word i = 1; i <= count; i++) attribute_tuple(&r, 1, deep ? 1 : i, deep ? i - 1 : 0, INSERT, "");
    field_end(&r);
    return piled(d, &r);
}

/* As many records of many attributes as fit; how many attributes each has. */
static word attributed_dataset(struct pile *d, int deep, word *records) {
    word count = least(ATTRIBUTES, left(d) / 24);
    for (*records = 0; attributed(d, *records + 1, count, deep); ++*records);
    return count;
}

/* As many records as fit with attributes of many codes, each code twice, in another order; each is modified once. */
static void many_codes_modified(struct pile *d, struct pile *u) {
    word codes = least(ATTRIBUTES, left(d) / 24) / 2, records = 0;
    do {
        identified_record(&r, INFORMATION, records + 1, 1, INSERT);
        field_begin(&r, "ATTR");
        for (word i = 0; i < 2 * codes; i++) attribute_tuple(&r, 1 + mixed(i % codes, codes), 1 + i / codes, 0, INSERT, "");
        field_end(&r);
    } while (piled(d, &r) && ++records);
    for (word rcid = 1; rcid <= records; rcid++) pile_bare(u, INFORMATION, rcid, 2, MODIFY);
}

/* The same with attributes side by side, but below nine others. */
static void deep_siblings_modified(struct pile *d, struct pile *u) {
    word count = least(ATTRIBUTES, left(d) / 24), records = 0;
    do {
        identified_record(&r, INFORMATION, records + 1, 1, INSERT);
        field_begin(&r, "ATTR");
        for (word i = 1; i <= 9; i++) attribute_tuple(&r, 1, 1, i - 1, INSERT, "");
        for (word i = 10; i <= count; i++) attribute_tuple(&r, 1, i - 9, 9, INSERT, "");
        field_end(&r);
    } while (piled(d, &r) && ++records);
    for (word rcid = 1; rcid <= records; rcid++) pile_bare(u, INFORMATION, rcid, 2, MODIFY);
}

/* Shortest modifies of large records in turn, which change nothing but their versions. */
static void large_in_turn(struct pile *d, struct pile *u) {
    word records, i = 0;
    attributed_dataset(d, 0, &records);
    while (pile_bare(u, INFORMATION, 1 + i % records, 2 + i / records, MODIFY)) i++;
}

/* The same of one record after the other. */
static void large_one_by_one(struct pile *d, struct pile *u) {
    word records, i = 0, each = left(u) / 42;
    attributed_dataset(d, 0, &records);
    each = each / records + 1;
    while (pile_bare(u, INFORMATION, 1 + i / each, 2 + i % each, MODIFY)) i++;
}

/* Each modify sets the value of the last attribute of a large record, in one record after the other. */
static void last_value_set(struct pile *d, struct pile *u) {
    word records, i = 0, count = attributed_dataset(d, 0, &records), each = left(u) / 70 / records + 1;
    do {
        modify(INFORMATION, 1 + i / each, i % each);
        field_begin(&r, "ATTR");
        attribute_tuple(&r, 1, count, 0, MODIFY, i % 2 ? "" : "x");
        field_end(&r);
        i++;
    } while (piled(u, &r));
}

/* Modifies of as many tuples as fit, all of which set the last of many values. */
static void last_value_set_often(struct pile *d, struct pile *u) {
    word records, count = attributed_dataset(d, 0, &records);
    for (word i = 0; left(u) > 200; i++) {
        modify(INFORMATION, 1, i);
        field_begin(&r, "ATTR");
        while (spare(u, &r) >= 8) attribute_tuple(&r, 1, count, 0, MODIFY, "");
        field_end(&r);
        if (!piled(u, &r)) return;
    }
}

/* Modifies that lead down to the innermost of many attributes. */
static void led_down(struct pile *d, struct pile *u) {
    word records, count = attributed_dataset(d, 1, &records);
    for (word i = 0; left(u) > 200; i++) {
        modify(INFORMATION, 1 + i % records, i / records);
        field_begin(&r, "ATTR");
        for (word n = 1; n <= count && spare(u, &r) >= 8; n++) attribute_tuple(&r, 1, 1, n - 1, MODIFY, "");
        field_end(&r);
        if (!piled(u, &r)) return;
    }
}

/* Half of the tuples lead down, the other half set the value of the innermost. */
static void innermost_set(struct pile *d, struct pile *u) {
    word records, count = attributed_dataset(d, 1, &records);
    for (word i = 0; left(u) > 200; i++) {
        modify(INFORMATION, 1 + i % records, i / records);
        field_begin(&r, "ATTR");
        for (word n = 1; n < count / 2 && spare(u, &r) >= 8; n++) attribute_tuple(&r, 1, 1, n - 1, MODIFY, "");
        for (word n = 1; n < count / 2 && spare(u, &r) >= 8; n++) attribute_tuple(&r, 1, 1, count / 2 - 1, MODIFY, "");
        field_end(&r);
        if (!piled(u, &r)) return;
    }
}

/* Feature 1 behind points and so many multi points that it may name. */
static void one_feature(struct pile *d, word count) {
    filled_with_points(d, rising, count * BARE_LENGTH + 200);
    for (word i = 1; i <= count; i++) pile_bare(d, MULTI, i, 1, INSERT);
    identified_record(&r, FEATURE, 1, 1, INSERT);
    object_field(&r, 1);
    piled(d, &r);
}

/* Modifies of feature 1 that put in as many spatial associations as fit, and take them out again in another order. */
static void spatial_edits(struct pile *d, struct pile *u) {
    word count = least(SPATIALS, left(d) / 100), last = 0;
    one_feature(d, count);
    for (word i = 0; left(u) > 200; i++) {
        word n = 0;
        modify(FEATURE, 1, i);
        field_begin(&r, "SPAS");
        for (; n < (i % 2 ? last : count) && spare(u, &r) >= 15; n++)
            spatial_tuple(&r, MULTI, 1 + (i % 2 ? last - 1 - n : n), i % 2 ? DELETE : INSERT);
        field_end(&r);
        if (i % 2 == 0) last = n;
        if (!piled(u, &r)) return;
    }
}

/* Feature rcid with a list of so many multi points, and as many such features as fit. */
static word listed_dataset(struct pile *d, word count) {
    word records = 0;
    for (word i = 1; i <= count + 1; i++) pile_bare(d, MULTI, i, 1, INSERT);
    do {
        identified_record(&r, FEATURE, records + 1, 1, INSERT);
        object_field(&r, records + 1);
        field_begin(&r, "SPAS");
        for (word i = 1; i <= count; i++) spatial_tuple(&r, MULTI, i, INSERT);
        field_end(&r);
    } while (piled(d, &r) && ++records);
    return records;
}

/* Modifies of features with full lists that put in one more, and take it out again, in one feature after the other. */
static void spatial_single_edits(struct pile *d, struct pile *u) {
    word count = least(SPATIALS, left(d) / 120), records = listed_dataset(d, count), i = 0, each = left(u) / 75 / records + 2;
    do {
        modify(FEATURE, 1 + i / each, i % each);
        field_begin(&r, "SPAS");
        spatial_tuple(&r, MULTI, count + 1, i % each % 2 ? DELETE : INSERT);
        field_end(&r);
        i++;
    } while (piled(u, &r));
}

/* Modifies of an empty multi point that put in as many coordinate tuples as fit before the first, and take them out again. */
static void coordinate_edits(struct pile *d, struct pile *u) {
    filled_with_points(d, rising, 200);
    pile_bare(d, MULTI, 1, 1, INSERT);
    for (word i = 0; left(u) > 200; i += 2) {
        word count = least(COORDINATES, (left(u) - 180) / 8);
        modify(MULTI, 1, i);
        control_field(&r, INSERT, 1, count);
        coordinates_field(&r, "C2IL", i, count);
        if (!piled(u, &r)) return;
        modify(MULTI, 1, i + 1);
        control_field(&r, DELETE, 1, count);
        if (!piled(u, &r)) return;
    }
}

/* Modifies of large multi points that put one tuple before the first, and take it out again. */
static void coordinate_single_edits(struct pile *d, struct pile *u) {
    word count = least(COORDINATES, left(d) / 24), records = 0, i = 0, each;
    do {
        identified_record(&r, MULTI, records + 1, 1, INSERT);
        coordinates_field(&r, "C2IL", records, count);
    } while (piled(d, &r) && ++records);
    each = left(u) / 70 / records + 2;
    do {
        modify(MULTI, 1 + i / each, i % each);
        control_field(&r, i % each % 2 ? DELETE : INSERT, 1, 1);
        if (i % each % 2 == 0) coordinates_field(&r, "C2IL", i, 1);
        i++;
    } while (piled(u, &r));
}

/* Modifies of multi point 1 that put in as many information associations as fit, and take them out again in another order. */
static void association_edits(struct pile *d, struct pile *u) {
    word last = 0;
    pile_bare(d, INFORMATION, 1, 1, INSERT);
    filled_with_points(d, rising, 200);
    pile_bare(d, MULTI, 1, 1, INSERT);
    for (word i = 0; left(u) > 200; i++) {
        word n = 0;
        modify(MULTI, 1, i);
        for (; n < (i % 2 ? last : ASSOCIATIONS) && spare(u, &r) >= 10; n++) {
            association_head(&r, 1, 7, 1 + (i % 2 ? last - 1 - n : n), i % 2 ? DELETE : INSERT);
            field_end(&r);
        }
        if (i % 2 == 0) last = n;
        if (!piled(u, &r)) return;
    }
}

/* Modifies of feature 1 with as many empty SPAS fields as fit. */
static void empty_fields(struct pile *d, struct pile *u) {
    one_feature(d, 1);
    for (word i = 0; left(u) > 200; i++) {
        modify(FEATURE, 1, i);
        r.a = 2;
        while (spare(u, &r) > 0) {
            field_begin(&r, "SPAS");
            field_end(&r);
        }
        if (!piled(u, &r)) return;
    }
}

/* Multi points of as many fields as fit, a tuple in each, all of them modified over and over by moving all of their tuples. */
static void many_fields_moved(struct pile *d, struct pile *u) {
    word count = least(4900, left(d) / 24), records = 0;
    do {
        identified_record(&r, MULTI, records + 1, 1, INSERT);
        r.a = 1;
        for (word i = 0; i < count; i++) coordinates_field(&r, "C2IL", i, 1);
    } while (piled(d, &r) && ++records);
    for (word i = 0;; i++) {
        modify(MULTI, 1 + i % records, i / records);
        r.a = 1;
        control_field(&r, MODIFY, 1, count);
        for (word n = 0; n < count; n++) coordinates_field(&r, "C2IL", n, 1);
        if (!piled(u, &r)) return;
    }
}

/* Multi points that are inserted with as many information associations as fit. */
static void inserted_associations(struct pile *d, struct pile *u) {
    pile_bare(d, INFORMATION, 1, 1, INSERT);
    filled_with_points(d, rising, 0);
    for (word rcid = 1; left(u) > 200; rcid++) {
        identified_record(&r, MULTI, rcid, 1, INSERT);
        for (word i = 1; i <= ASSOCIATIONS && spare(u, &r) >= 10; i++) {
            association_head(&r, 1, 7, i, INSERT);
            field_end(&r);
        }
        if (!piled(u, &r)) return;
    }
}

const struct shape SHAPES_OF_EDITS[] = {
    {"attributes inserted and deleted at the front", UPDATES, POOL, 0, front_edits},
    {"attributes inserted and deleted at the end", UPDATES, POOL, 0, end_edits},
    {"attributes of many codes inserted and deleted", UPDATES, POOL, 0, code_edits},
    {"attributes inserted one in the other, and deleted", UPDATES, POOL, 0, deep_edits},
    {"large records modified, one after the other", UPDATES, POOL, 0, large_one_by_one},
    {"the last of many values set by each modify", UPDATES, POOL, 0, last_value_set},
    {"the last of many values set by each tuple", UPDATES, POOL, 0, last_value_set_often},
    {"attributes led down to the innermost", UPDATES, POOL, 0, led_down},
    {"the innermost of attributes set by each tuple", UPDATES, POOL, 0, innermost_set},
    {"6,600 SPAS inserted and deleted", UPDATES, POOL, 0, spatial_edits},
    {"one of 6,600 SPAS inserted and deleted", UPDATES, POOL, 0, spatial_single_edits},
    {"12,000 coordinates inserted and deleted", UPDATES, POOL, 0, coordinate_edits},
    {"one of 12,000 coordinates inserted and deleted", UPDATES, POOL, 0, coordinate_single_edits},
    {"3,900 INAS inserted and deleted", UPDATES, POOL, 0, association_edits},
    {"records inserted with 3,900 INAS each", UPDATES, POOL, 0, inserted_associations},
    {"modifies of as many empty fields as fit", UPDATES, POOL, 0, empty_fields},
    {"multi points of 4,900 fields, all tuples moved", UPDATES, POOL, 0, many_fields_moved},
    {"large records modified in turn", UPDATES, POOL, 0, large_in_turn},
    {"records of many codes, each modified once", UPDATES, POOL, 0, many_codes_modified},
    {"deep siblings, each record modified once", UPDATES, POOL, 0, deep_siblings_modified},
    {0, 0, 0, 0, 0},
};
