#include "invent.h"
#include "random.h"
#include "shapes.h"

/* How many records of each kind a group has, and all together. */
static const word IN_GROUP[KINDS] = {2, 32, 1, 32};
enum { GROUP = 67, HEADING = 3 };

/* What is invented: the RCIDs of each kind in file order, and in which order features name the records of a kind. */
struct plan {
    word groups;
    word *rcid[KINDS], *named[KINDS];
};

/* The attributes of a feature: five entries, two of them children. */
static void attributes(struct record *r) {
    field_begin(r, "ATTR");
    attribute_tuple(r, 21, 1, 0, INSERT, "Vachon");
    attribute_tuple(r, 22, 1, 0, INSERT, "");
    attribute_tuple(r, 25, 1, 2, INSERT, "42.0");
    attribute_tuple(r, 29, 1, 2, INSERT, "17");
    attribute_tuple(r, 23, 1, 0, INSERT, "12");
    field_end(r);
}

/* The fields of feature n. One in 32 names its group's multi point, the others name points. */
static void feature(struct record *r, const struct plan *plan, word n) {
    int kind = n % 32 == 31 ? MULTI : POINT;
    word place = plan->named[kind][kind == MULTI ? n / 32 : n];
    object_field(r, n);
    attributes(r);
    association_field(r, plan->rcid[INFORMATION][plan->named[INFORMATION][n / 16]]);
    spatial_field(r, kind, plan->rcid[kind][place]);
}

static void information(struct record *r) {
    field_begin(r, "ATTR");
    attribute_tuple(r, 21, 1, 0, INSERT, "Harbour office");
    field_end(r);
}

/* The record of this kind and number. */
static void made(struct record *r, const struct plan *plan, int kind, word n) {
    identified_record(r, kind, plan->rcid[kind][n], 1, INSERT);
    if (kind == INFORMATION) information(r);
    if (kind == POINT) coordinates_field(r, "C2IT", n, 1);
    if (kind == MULTI) coordinates_field(r, "C2IL", n, 5);
    if (kind == FEATURE) feature(r, plan, n);
}

/* Puts the dataset at a place; its first record is made longer by so many bytes. How long it is, is answered. */
static word put_dataset(byte *at, const struct plan *plan, word filling) {
    struct record r;
    byte *start = at;
    descriptive_record(&r, filling);
    at += put_record(at, &r, 1);
    general_record(&r, 0);
    at += put_record(at, &r, 0);
    systems_record(&r);
    at += put_record(at, &r, 0);
    for (int kind = 0; kind < KINDS; kind++) {
        for (word n = 0; n < plan->groups * IN_GROUP[kind]; n++) {
            made(&r, plan, kind, n);
            at += put_record(at, &r, 0);
        }
    }
    return (word)(at - start);
}

/* So many rising numbers from the first on, or strewn over 32 bits; null where there is no memory. */
static word *rising(word *random, word count, word first, int strewn) {
    word *numbers = malloc((count + 1) * sizeof *numbers), step = 4294967294 / (count + 1);
    for (word i = 0; numbers && i < count; i++) numbers[i] = first + (strewn ? i * step + below(random, step) : i);
    return numbers;
}

static int planned(struct plan *plan, word groups, int wishes) {
    word random = 1;
    int enough = 1;
    plan->groups = groups;
    for (int kind = 0; kind < KINDS; kind++) {
        word count = groups * IN_GROUP[kind];
        plan->rcid[kind] = rising(&random, count, 1, wishes & STREWN_KEYS);
        plan->named[kind] = rising(&random, count, 0, 0);
        enough = enough && plan->rcid[kind] && plan->named[kind];
        if (enough && wishes & MIXED_KEYS) shuffled(&random, plan->rcid[kind], count);
        if (enough && wishes & MIXED_REFERENCES) shuffled(&random, plan->named[kind], count);
    }
    return enough;
}

/* How long a dataset of so many groups is, put at a place and maybe made longer; 0 where there is no memory. */
static word laid_down(byte *at, word groups, int wishes, word filling) {
    struct plan plan;
    word length = planned(&plan, groups, wishes) ? put_dataset(at, &plan, filling) : 0;
    for (int kind = 0; kind < KINDS; kind++) {
        free(plan.rcid[kind]);
        free(plan.named[kind]);
    }
    return length;
}

struct invented invented(word length, int wishes) {
    struct invented result = {malloc(length), length, 0};
    if (!result.bytes) return result;
    word heading = laid_down(result.bytes, 0, wishes, 0);
    word group = laid_down(result.bytes, 1, wishes, 0) - heading;
    word groups = (length - heading) / group, filling = (length - heading) % group;
    result.records = HEADING + GROUP * groups;
    if (laid_down(result.bytes, groups, wishes, filling) != length) {
        free(result.bytes);
        result.bytes = 0;
    }
    return result;
}

/* The point that update record i of an update inserts; the dataset has none of so high an RCID. */
static word inserted_point(word number, word records, word i) {
    return 1000000 + (number - 1) * records + i;
}

/* Update record i of so many in the update of this number, in a group of the dataset. */
static void change(struct record *r, word number, word records, word i, word group) {
    if (i % 3 == 0) {
        identified_record(r, FEATURE, group * 32 + 1 + i % 32, 1 + number, MODIFY);
        field_begin(r, "ATTR");
        attribute_tuple(r, 21, 1, 0, MODIFY, "Vachon East");
        attribute_tuple(r, 22, 1, 0, MODIFY, "");
        attribute_tuple(r, 29, 2, 2, INSERT, "32");
        field_end(r);
    } else if (i % 3 == 1) {
        identified_record(r, POINT, inserted_point(number, records, i), 1, INSERT);
        coordinates_field(r, "C2IT", i, 1);
    } else {
        identified_record(r, POINT, number == 1 ? group * 32 + 32 : inserted_point(number - 1, records, i - 1), 2, DELETE);
    }
}

struct invented invented_update(const struct invented *dataset, word number, word records) {
    struct record r;
    word groups = (dataset->records - HEADING) / GROUP;
    struct invented result = {malloc(1024 + records * 256), 0, 2 + records};
    if (!result.bytes) return result;
    descriptive_record(&r, 0);
    result.length += put_record(result.bytes, &r, 1);
    general_record(&r, number);
    result.length += put_record(result.bytes + result.length, &r, 0);
    for (word i = 0; i < records; i++) {
        change(&r, number, records, i, i * groups / records);
        result.length += put_record(result.bytes + result.length, &r, 0);
    }
    return result;
}
