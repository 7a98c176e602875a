#include "worst.h"
#include "random.h"

/* The record that is put together. */
static struct record r;

static word falling(word i) {
    return 1000000 - i;
}

/* The points that a list names: as many as have room in one, and no more than a quarter of the bytes. */
static word points_for_a_list(struct pile *d) {
    word room = d->room / (4 * POINT_LENGTH), most = room < 6660 ? room : 6660;
    for (word i = 1; i <= most; i++) pile_point(d, i, 1, INSERT);
    return most;
}

static void feature_begun(word rcid) {
    identified_record(&r, FEATURE, rcid, 1, INSERT);
    object_field(&r, rcid);
}

static void strewn_points(struct pile *d) {
    filled_with_points(d, strewn, 0);
}

static void shortest(struct pile *d) {
    filled_with_bare(d, strewn, 0);
}

static void shortest_falling(struct pile *d) {
    filled_with_bare(d, falling, 0);
}

/* RCIDs of which 16,384 at a time share the rest by 262,144, the largest first. */
static word sharing(word i) {
    return (16384 - i % 16384) * 262144 - 1 - i / 16384;
}

static void shortest_sharing(struct pile *d) {
    filled_with_bare(d, sharing, 0);
}

/* Strewn points, and as many features that name them in another order. */
static void strewn_named(struct pile *d) {
    word count = left(d) / (POINT_LENGTH + 103);
    for (word i = 0; i < count; i++) pile_point(d, strewn(i + 1), 1, INSERT);
    for (word i = 0; i < count; i++) {
        feature_begun(strewn(i + 1));
        spatial_field(&r, POINT, strewn(1 + mixed(i, count)));
        piled(d, &r);
    }
}

/* Features with lists of spatial associations as long as fit, over and over the same records of a kind, in the order of a function. */
static void lists(struct pile *d, int kind, word (*rcid)(word), word count, word most) {
    for (word n = 0, rcid_of_feature = 1; left(d) > 200; rcid_of_feature++) {
        feature_begun(rcid_of_feature);
        field_begin(&r, "SPAS");
        for (word i = 0; i < most && spare(d, &r) >= 15; i++) spatial_tuple(&r, kind, rcid(1 + n++ % count), INSERT);
        field_end(&r);
        if (!piled(d, &r)) return;
    }
}

/* 80,000 strewn points of 16 MiB, and as many references to them as fit. */
static word points_named;
static word strewn_elsewhere(word i) {
    return strewn(1 + mixed(i - 1, points_named));
}

static void strewn_lists(struct pile *d) {
    points_named = filled_with_points(d, strewn, d->room / 100 * 66);
    lists(d, POINT, strewn_elsewhere, points_named, 100);
}

/* Half of the bytes shortest records, half references to them, where their product is largest. */
static void shortest_lists(struct pile *d) {
    points_named = filled_with_bare(d, strewn, d->room / 2);
    lists(d, MULTI, strewn_elsewhere, points_named, 100);
}

static word named_last;
static word from_the_last(word i) {
    return named_last + 1 - i;
}

static word in_random_order(word i) {
    return 1 + mixed(i - 1, named_last);
}

/* Lists of as many tuples as fit, each naming the same records. */
static void full_lists(struct pile *d, word (*order)(word)) {
    named_last = points_for_a_list(d);
    lists(d, POINT, order, named_last, named_last);
}

static void falling_lists(struct pile *d) {
    full_lists(d, from_the_last);
}

static void mixed_lists(struct pile *d) {
    full_lists(d, in_random_order);
}

/* As many SPAS fields as fit, a tuple in each, keys falling. */
static void single_lists(struct pile *d) {
    named_last = points_for_a_list(d);
    for (word rcid = 1; left(d) > 200; rcid++) {
        feature_begun(rcid);
        r.a = 2;
        for (word i = 1; i <= named_last && spare(d, &r) >= 15; i++) spatial_field(&r, POINT, from_the_last(i));
        if (!piled(d, &r)) return;
    }
}

/* As many associations as fit in one record after the other, all different: one information type under many codes. */
static void associations_of(struct pile *d, word width) {
    pile_bare(d, INFORMATION, 1, 1, INSERT);
    for (word rcid = 1; left(d) > 200; rcid++) {
        identified_record(&r, MULTI, rcid, 1, INSERT);
        r.a = width;
        for (word i = 1; spare(d, &r) >= 10; i++) {
            association_head(&r, 1, strewn(i) % 65535, i, INSERT);
            field_end(&r);
        }
        if (!piled(d, &r)) return;
    }
}

static void associations(struct pile *d) {
    associations_of(d, 2);
}

static void associations_as_written(struct pile *d) {
    associations_of(d, 5);
}

/* Information types whose attributes are as many as fit; `tuple` adds the one of a number, from 1. */
static void trees(struct pile *d, void (*tuple)(word i)) {
    for (word rcid = 1; left(d) > 200; rcid++) {
        identified_record(&r, INFORMATION, rcid, 1, INSERT);
        field_begin(&r, "ATTR");
        for (word i = 1; spare(d, &r) >= 8; i++) tuple(i);
        field_end(&r);
        if (!piled(d, &r)) return;
    }
}

static void child_of_the_last(word i) {
    attribute_tuple(&r, 1, 1, i - 1, INSERT, "");
}

static void sibling_of_one_code(word i) {
    attribute_tuple(&r, 1, i, 0, INSERT, "");
}

static void sibling_of_another_code(word i) {
    attribute_tuple(&r, mixed(i - 1, 16384), 1, 0, INSERT, "");
}

static void sibling_behind_a_larger(word i) {
    if (i == 1) attribute_tuple(&r, 2, 1, 0, INSERT, "");
    else attribute_tuple(&r, 1, i - 1, 0, INSERT, "");
}

/* 4,000 entries one in the other, and then a second child for each of them, from the innermost on. */
static void comb(word i) {
    word place = i % 8000, start = i - place;
    if (place < 4000) attribute_tuple(&r, i / 8000 + 2, 1, place == 0 || start + place == 1 ? 0 : i - 1, INSERT, "");
    else attribute_tuple(&r, 1, 1, start + 7999 - place, INSERT, "");
}

/* 6,000 entries one in the other, and the rest siblings in the innermost. */
static void broad_below_deep(word i) {
    if (i <= 6000) attribute_tuple(&r, 1, 1, i - 1, INSERT, "");
    else attribute_tuple(&r, 1, i - 6000, 6000, INSERT, "");
}

static void deep_trees(struct pile *d) {
    trees(d, child_of_the_last);
}

static void broad_trees(struct pile *d) {
    trees(d, sibling_of_one_code);
}

static void motley_trees(struct pile *d) {
    trees(d, sibling_of_another_code);
}

static void behind_larger_trees(struct pile *d) {
    trees(d, sibling_behind_a_larger);
}

static void combs(struct pile *d) {
    trees(d, comb);
}

static void broad_below_deep_trees(struct pile *d) {
    trees(d, broad_below_deep);
}

static void wide_directories(struct pile *d) {
    word i = 0;
    do {
        identified_record(&r, POINT, ++i, 1, INSERT);
        coordinates_field(&r, "C2IT", i, 1);
        r.a = r.b = 9;
    } while (piled(d, &r));
}

/* Multi points with as many empty fields as fit. */
static void many_fields(struct pile *d) {
    for (word rcid = 1; left(d) > 200; rcid++) {
        identified_record(&r, MULTI, rcid, 1, INSERT);
        r.a = 1;
        while (spare(d, &r) > 0) coordinates_field(&r, "C2IL", 1, 0);
        if (!piled(d, &r)) return;
    }
}

/* Adds unread fields to a record that stands at the beginning, as many as fit. */
static void padded(struct pile *d) {
    while (spare(d, &r) > 1000) {
        field_begin(&r, "ZZZZ");
        field_end(&r);
    }
    piled(d, &r);
}

/* The only unread fields of any number are those of the first and third record; the rest are points. */
static void unread_fields(struct pile *d) {
    d->length = d->records = 0;
    descriptive_record(&r, 0);
    padded(d);
    general_record(&r, 0);
    piled(d, &r);
    systems_record(&r);
    padded(d);
    filled_with_points(d, rising, 0);
}

static void long_texts(struct pile *d) {
    for (word rcid = 1; left(d) > 200; rcid++) {
        identified_record(&r, INFORMATION, rcid, 1, INSERT);
        field_begin(&r, "ATTR");
        field_number(&r, 1, 2);
        field_number(&r, 1, 2);
        field_number(&r, 0, 2);
        field_number(&r, INSERT, 1);
        for (word rest = spare(d, &r); rest > 1; rest--) field_number(&r, 'x', 1);
        field_text(&r, "");
        field_end(&r);
        if (!piled(d, &r)) return;
    }
}

/* A quarter of the bytes for each kind, keys strewn. */
static void all_kinds(struct pile *d) {
    word i = 1;
    for (; left(d) >= d->room / 4 * 3; i++) pile_bare(d, INFORMATION, strewn(i), 1, INSERT);
    for (; left(d) >= d->room / 2; i++) pile_point(d, strewn(i), 1, INSERT);
    for (; left(d) >= d->room / 4; i++) pile_bare(d, MULTI, strewn(i), 1, INSERT);
    do feature_begun(strewn(i++));
    while (piled(d, &r));
}

const struct shape SHAPES_OF_DATASETS[] = {
    {"points, RCIDs strewn", READS, POOL, strewn_points, 0},
    {"the same, named by features in another order", READS, POOL, strewn_named, 0},
    {"strewn points, two thirds references to them", READS, POOL, strewn_lists, 0},
    {"shortest records, RCIDs strewn", READS, POOL, shortest, 0},
    {"shortest records, RCIDs falling", READS, POOL, shortest_falling, 0},
    {"shortest records, RCIDs that share their rests", READS, POOL, shortest_sharing, 0},
    {"shortest records, one half references to them", READS, POOL, shortest_lists, 0},
    {"full SPAS lists, keys falling", READS, POOL, falling_lists, 0},
    {"full SPAS lists, keys in random order", READS, POOL, mixed_lists, 0},
    {"as many SPAS fields as fit, keys falling", READS, POOL, single_lists, 0},
    {"as many INAS fields as fit", READS, POOL, associations, 0},
    {"attributes one in the other", READS, POOL, deep_trees, 0},
    {"attributes side by side, one code", READS, POOL, broad_trees, 0},
    {"attributes side by side, different codes", READS, POOL, motley_trees, 0},
    {"attributes side by side, one code behind a larger", READS, POOL, behind_larger_trees, 0},
    {"attributes as combs", READS, POOL, combs, 0},
    {"attributes side by side in the innermost of 6,000", READS, POOL, broad_below_deep_trees, 0},
    {"directories of nine digits", READS, POOL, wide_directories, 0},
    {"as many fields a record as fit", READS, POOL, many_fields, 0},
    {"as many unread fields as fit", READS, POOL, unread_fields, 0},
    {"texts as long as fit", READS, POOL, long_texts, 0},
    {"all kinds, RCIDs strewn", READS, POOL, all_kinds, 0},
    {"points, RCIDs strewn", WRITES, POOL, strewn_points, 0},
    {"full SPAS lists, keys in random order", WRITES, POOL, mixed_lists, 0},
    {"as many INAS fields as fit", WRITES, POOL, associations_as_written, 0},
    {"attributes one in the other", WRITES, POOL, deep_trees, 0},
    {"as many fields a record as fit", WRITES, POOL, many_fields, 0},
    {0, 0, 0, 0, 0},
};
