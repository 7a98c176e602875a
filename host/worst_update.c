#include "worst.h"
#include "random.h"

/* The record that is put together. */
static struct record r;

/* A record is modified so often at most: its RVER goes from 1 to 65,534. */
enum { MOST_MODIFIES = 65533 };

static void modified_rising(struct pile *d, struct pile *u) {
    word n = filled_with_points(d, rising, 0);
    for (word i = 0; i < n && pile_point(u, 1 + i, 2, MODIFY); i++);
}

static void modified_falling(struct pile *d, struct pile *u) {
    word n = filled_with_points(d, rising, 0);
    for (word i = 0; i < n && pile_point(u, n - i, 2, MODIFY); i++);
}

static void modified_mixed(struct pile *d, struct pile *u) {
    word n = filled_with_points(d, rising, 0);
    for (word i = 0; i < n && pile_point(u, 1 + mixed(i, n), 2, MODIFY); i++);
}

/* Shortest modifies of so many points in turn, if there are so many; where their versions are used up, of as many others. */
static void in_turn(struct pile *d, struct pile *u, word most) {
    word i = 0, n = filled_with_points(d, rising, 0), keys = most < n ? most : n, all = keys * MOST_MODIFIES;
    while (pile_bare(u, POINT, 1 + i / all * keys + i % keys, 2 + i % all / keys, MODIFY)) i++;
}

static void one_modified(struct pile *d, struct pile *u) {
    in_turn(d, u, 1);
}

static void two_modified(struct pile *d, struct pile *u) {
    in_turn(d, u, 2);
}

static void thousand_modified(struct pile *d, struct pile *u) {
    in_turn(d, u, 1000);
}

/* One key comes and goes, record after record. */
static void come_and_gone(struct pile *d, struct pile *u) {
    word i = 0;
    filled_with_points(d, rising, 0);
    while (pile_bare(u, MULTI, 1, 1 + i % 2, i % 2 == 0 ? INSERT : DELETE)) i++;
}

/* All come, and then all go, in another order. */
static void all_come_all_gone(struct pile *d, struct pile *u) {
    word count = left(u) / (2 * BARE_LENGTH);
    filled_with_points(d, rising, 0);
    for (word i = 0; i < count; i++) pile_bare(u, MULTI, 1 + mixed(i, count), 1, INSERT);
    for (word i = 0; i < count; i++) pile_bare(u, MULTI, 1 + i, 2, DELETE);
}

static void inserted_falling(struct pile *d, struct pile *u) {
    word n = filled_with_points(d, rising, 0), count = left(u) / POINT_LENGTH;
    for (word i = 0; i < count; i++) pile_point(u, n + count - i, 1, INSERT);
}

/* Strewn keys that a dataset of rising ones has not. */
static void inserted_strewn(struct pile *d, struct pile *u) {
    word n = filled_with_points(d, rising, 0);
    for (word i = 1; left(u) >= POINT_LENGTH; i++)
        if (strewn(i) > n) pile_point(u, strewn(i), 1, INSERT);
}

/* The dataset's keys are strewn too. */
static void inserted_among_strewn(struct pile *d, struct pile *u) {
    word i = 1 + filled_with_points(d, strewn, 0);
    while (pile_point(u, strewn(i), 1, INSERT)) i++;
}

static void deleted_rising(struct pile *d, struct pile *u) {
    word n = filled_with_bare(d, rising, 0);
    for (word i = 0; i < n && pile_bare(u, MULTI, 1 + i, 2, DELETE); i++);
}

static void deleted_mixed(struct pile *d, struct pile *u) {
    word n = filled_with_bare(d, rising, 0);
    for (word i = 0; i < n && pile_bare(u, MULTI, 1 + mixed(i, n), 2, DELETE); i++);
}

/* Dataset and update name strewn keys, each in an order of its own. */
static void strewn_mixed(struct pile *d, struct pile *u) {
    word n = filled_with_points(d, strewn, 0);
    for (word i = 0; i < n && pile_point(u, strewn(1 + mixed(i, n)), 2, MODIFY); i++);
}

static void shortest_strewn_mixed(struct pile *d, struct pile *u) {
    word n = filled_with_bare(d, strewn, 0);
    for (word i = 0; i < n && pile_bare(u, MULTI, strewn(1 + mixed(i, n)), 2, MODIFY); i++);
}

static word falling(word i) {
    return 500000 - i;
}

/* Keys that have their place in every map, but do not ascend in the dataset. */
static void modified_in_falling(struct pile *d, struct pile *u) {
    word n = filled_with_points(d, falling, 0);
    for (word i = 0; i < n && pile_point(u, falling(n - i), 2, MODIFY); i++);
}

/* The dataset's keys ascend, but for the first two. */
static word all_but_the_first(word i) {
    return i == 1 ? 2 : i == 2 ? 1 : i;
}

static void inserted_among_rising(struct pile *d, struct pile *u) {
    word n = filled_with_points(d, all_but_the_first, 0);
    for (word i = 1; left(u) >= POINT_LENGTH; i++)
        if (strewn(i) > n) pile_point(u, strewn(i), 1, INSERT);
}

/* The dataset's records are deleted and put in again. */
static void replaced(struct pile *d, struct pile *u) {
    word n = filled_with_bare(d, rising, 0);
    for (word i = 0; i < n; i++) {
        word rcid = 1 + mixed(i, n);
        if (!pile_bare(u, MULTI, rcid, 2, DELETE) || !pile_bare(u, MULTI, rcid, 1, INSERT)) return;
    }
}

/* RCIDs whose keys share a flag of the update's 111,997; those of multi points, a few thousand at a time. */
static word sharing_a_flag(word i) {
    return 1 + (i * 111997) % 4294967000;
}

static void one_flag(struct pile *d, struct pile *u) {
    word n = filled_with_bare(d, sharing_a_flag, left(d) > 38000 * BARE_LENGTH ? left(d) - 38000 * BARE_LENGTH : 0);
    for (word i = 0; i < n && pile_bare(u, MULTI, sharing_a_flag(1 + mixed(i, n)), 2, MODIFY); i++);
}

/* A feature of this RCID that names so many of the dataset's strewn points, from place n of another order on. */
static int naming(struct pile *u, word rcid, word n, word count, word most) {
    identified_record(&r, FEATURE, rcid, 1, INSERT);
    object_field(&r, rcid);
    field_begin(&r, "SPAS");
    for (word i = 0; i < most && i < count && spare(u, &r) >= 15; i++)
        spatial_tuple(&r, POINT, strewn(1 + mixed((n + i) % count, count)), INSERT);
    field_end(&r);
    return piled(u, &r);
}

static void inserted_lists(struct pile *d, struct pile *u) {
    word count = filled_with_points(d, strewn, 0);
    for (word i = 0; left(u) > 200 && naming(u, 1 + i, i * 6000, count, 6000); i++);
}

/* As many features with one reference each. */
static void inserted_single(struct pile *d, struct pile *u) {
    word count = filled_with_points(d, strewn, 0);
    for (word i = 0; naming(u, 1 + i, i, count, 1); i++);
}

/* Half of the dataset names the other half; all that is named is modified. */
static void named_modified(struct pile *d, struct pile *u) {
    word count = filled_with_points(d, strewn, left(d) / 2);
    for (word i = 0; left(d) > 200 && naming(d, 1 + i, i * 6000, count, 6000); i++);
    for (word i = 0; i < count && pile_bare(u, POINT, strewn(1 + mixed(i, count)), 2, MODIFY); i++);
}

/* Features that all name the same four points. */
static void named_by_all(struct pile *d) {
    word i = 0;
    for (word rcid = 1; rcid <= 4; rcid++) pile_point(d, rcid, 1, INSERT);
    do {
        identified_record(&r, FEATURE, ++i, 1, INSERT);
        object_field(&r, i);
        field_begin(&r, "SPAS");
        for (word rcid = 1; rcid <= 4; rcid++) spatial_tuple(&r, POINT, rcid, INSERT);
        field_end(&r);
    } while (piled(d, &r));
}

/* What all features name is modified over and over, as often as versions allow. */
static void named_by_all_modified(struct pile *d, struct pile *u) {
    word i = 0;
    named_by_all(d);
    while (pile_bare(u, POINT, 1 + i / MOST_MODIFIES, 2 + i % MOST_MODIFIES, MODIFY)) i++;
}

/* The first of what all features name comes and goes, and comes in the end. */
static void named_by_all_come_and_gone(struct pile *d, struct pile *u) {
    named_by_all(d);
    while (left(u) >= BARE_LENGTH + POINT_LENGTH) {
        pile_bare(u, POINT, 1, 2, DELETE);
        pile_point(u, 1, 1, INSERT);
    }
}

/* What names is deleted and put in again in another order, so that all its references are looked at, and what is named is modified. */
static void named_replaced(struct pile *d, struct pile *u) {
    word count = filled_with_points(d, strewn, left(d) / 2), i;
    for (i = 0; left(d) > 200 && naming(d, 1 + i, i * 6000, count, 6000); i++);
    for (word n = 0; n < i; n++) pile_bare(u, FEATURE, 1 + n, 2, DELETE);
    for (word n = 0; n < i; n++) naming(u, 1 + n, n * 6000 + 3000, count, 6000);
    for (word n = 0; n < count && pile_bare(u, POINT, strewn(1 + mixed(n, count)), 2, MODIFY); n++);
}

const struct shape SHAPES_OF_UPDATES[] = {
    {"points modified, keys rising", UPDATES, POOL, 0, modified_rising},
    {"points modified, keys falling", UPDATES, POOL, 0, modified_falling},
    {"points modified, keys in random order", UPDATES, POOL, 0, modified_mixed},
    {"one key modified over and over", UPDATES, POOL, 0, one_modified},
    {"two keys modified in turn", UPDATES, POOL, 0, two_modified},
    {"a thousand keys modified in turn", UPDATES, POOL, 0, thousand_modified},
    {"one key inserted and deleted in turn", UPDATES, POOL, 0, come_and_gone},
    {"many keys inserted, then deleted", UPDATES, POOL, 0, all_come_all_gone},
    {"inserts, keys falling", UPDATES, POOL, 0, inserted_falling},
    {"inserts, keys strewn", UPDATES, POOL, 0, inserted_strewn},
    {"inserts, the dataset's keys strewn too", UPDATES, POOL, 0, inserted_among_strewn},
    {"deletes, keys rising", UPDATES, POOL, 0, deleted_rising},
    {"deletes, keys in random order", UPDATES, POOL, 0, deleted_mixed},
    {"keys strewn, two random orders", UPDATES, POOL, 0, strewn_mixed},
    {"the same, shortest records", UPDATES, POOL, 0, shortest_strewn_mixed},
    {"the dataset's keys falling, modified rising", UPDATES, POOL, 0, modified_in_falling},
    {"inserts, the dataset's keys rising but for two", UPDATES, POOL, 0, inserted_among_rising},
    {"records deleted and put in again", UPDATES, POOL, 0, replaced},
    {"keys that share one flag", UPDATES, POOL, 0, one_flag},
    {"inserted features, 6,000 strewn references each", UPDATES, POOL, 0, inserted_lists},
    {"inserted features, one strewn reference each", UPDATES, POOL, 0, inserted_single},
    {"strewn records that are named, all modified", UPDATES, POOL, 0, named_modified},
    {"what names strewn records replaced, they modified", UPDATES, POOL, 0, named_replaced},
    {"points that all features name, modified over and over", UPDATES, POOL, 0, named_by_all_modified},
    {"a point that all features name, deleted and inserted", UPDATES, POOL, 0, named_by_all_come_and_gone},
    {"random order, out exactly as long as the result", UPDATES, EXACT, 0, modified_mixed},
    {"inserts, out exactly as long as the result", UPDATES, EXACT, 0, inserted_strewn},
    {"strewn records that are named, out exactly so long", UPDATES, EXACT, 0, named_modified},
    {"random order, out a byte too short", UPDATES, SHORT, 0, modified_mixed},
    {"random order, out of no bytes", UPDATES, NONE, 0, modified_mixed},
    {"two keys in turn, out of no bytes", UPDATES, NONE, 0, two_modified},
    {0, 0, 0, 0, 0},
};
