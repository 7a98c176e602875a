#include "pile.h"

static struct record r;

void dataset_begun(struct pile *p) {
    p->length = p->records = 0;
    descriptive_record(&r, 0);
    piled(p, &r);
    general_record(&r, 0);
    piled(p, &r);
    systems_record(&r);
    piled(p, &r);
}

void update_begun(struct pile *p) {
    p->length = p->records = 0;
    descriptive_record(&r, 0);
    piled(p, &r);
    general_record(&r, 1);
    piled(p, &r);
}

word left(const struct pile *p) {
    return p->room - p->length;
}

word spare(const struct pile *p, const struct record *begun) {
    word most = left(p) < LONGEST_RECORD ? left(p) : LONGEST_RECORD, length = record_length_begun(begun);
    return length < most ? most - length : 0;
}

int piled(struct pile *p, const struct record *whole) {
    if (record_length(whole) > left(p)) return 0;
    p->length += put_record(p->bytes + p->length, whole, p->records == 0);
    p->records++;
    return 1;
}

int pile_point(struct pile *p, word rcid, word version, word instruction) {
    identified_record(&r, POINT, rcid, version, instruction);
    coordinates_field(&r, "C2IT", rcid % 65536, 1);
    return piled(p, &r);
}

int pile_bare(struct pile *p, int kind, word rcid, word version, word instruction) {
    identified_record(&r, kind, rcid, version, instruction);
    r.b = 1;
    r.a = kind == POINT || kind == MULTI ? 1 : 2;
    return piled(p, &r);
}

word filled_with_points(struct pile *p, word (*rcid)(word), word but) {
    word n = 0;
    while (left(p) >= but + POINT_LENGTH && pile_point(p, rcid(n + 1), 1, INSERT)) n++;
    return n;
}

word filled_with_bare(struct pile *p, word (*rcid)(word), word but) {
    word n = 0;
    while (left(p) >= but + BARE_LENGTH && pile_bare(p, MULTI, rcid(n + 1), 1, INSERT)) n++;
    return n;
}

word rising(word i) {
    return i;
}
