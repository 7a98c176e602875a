#include "shapes.h"

static const word RCNM[KINDS] = {150, 110, 115, 100};
static const char *const TAG[KINDS] = {"IRID", "PRID", "MRID", "FRID"};
static const word NO_LIMIT = 0xffffffff;

void descriptive_record(struct record *r, word filling) {
    record_begin(r);
    field_begin(r, "0000");
    for (word i = 0; i < filling; i++) field_number(r, ' ', 1);
    field_end(r);
}

void general_record(struct record *r, word update_number) {
    named_record(r, "EZBENCH", update_number);
}

void named_record(struct record *r, const char *name, word update_number) {
    static const char *const TEXTS[5] = {"S-100 Part 10a", "1.0", "INT.EZDURVASH.BENCH", "1.0", "1"};
    record_begin(r);
    field_begin(r, "DSID");
    field_number(r, 10, 1);
    field_number(r, 1, 4);
    for (word i = 0; i < 5; i++) field_text(r, TEXTS[i]);
    field_text(r, name);
    field_number(r, 1, 2);
    field_number(r, update_number, 2);
    for (word i = 0; i < 8; i++) field_number(r, (word)"20260101"[i], 1);
    field_end(r);
}

void systems_record(struct record *r) {
    record_begin(r);
    field_begin(r, "CSID");
    field_number(r, 15, 1);
    field_number(r, 1, 4);
    field_number(r, 1, 1);
    field_end(r);
}

void identified_record(struct record *r, int kind, word rcid, word version, word instruction) {
    record_begin(r);
    field_begin(r, TAG[kind]);
    field_number(r, RCNM[kind], 1);
    field_number(r, rcid, 4);
    if (kind == INFORMATION || kind == FEATURE) field_number(r, 77, 2);
    field_number(r, version, 2);
    field_number(r, instruction, 1);
    field_end(r);
}

void attribute_tuple(struct record *r, word code, word index, word parent, word instruction, const char *value) {
    field_number(r, code, 2);
    field_number(r, index, 2);
    field_number(r, parent, 2);
    field_number(r, instruction, 1);
    field_text(r, value);
}

void association_head(struct record *r, word rcid, word code, word role, word instruction) {
    field_begin(r, "INAS");
    field_number(r, RCNM[INFORMATION], 1);
    field_number(r, rcid, 4);
    field_number(r, code, 2);
    field_number(r, role, 2);
    field_number(r, instruction, 1);
}

void association_field(struct record *r, word rcid) {
    association_head(r, rcid, 3, 4, INSERT);
    attribute_tuple(r, 21, 1, 0, INSERT, "yearly");
    field_end(r);
}

void spatial_tuple(struct record *r, int kind, word rcid, word instruction) {
    field_number(r, RCNM[kind], 1);
    field_number(r, rcid, 4);
    field_number(r, 255, 1);
    field_number(r, 0, 4);
    field_number(r, NO_LIMIT, 4);
    field_number(r, instruction, 1);
}

void spatial_field(struct record *r, int kind, word rcid) {
    field_begin(r, "SPAS");
    spatial_tuple(r, kind, rcid, INSERT);
    field_end(r);
}

void object_field(struct record *r, word number) {
    field_begin(r, "FOID");
    field_number(r, 40, 2);
    field_number(r, number, 4);
    field_number(r, 1, 2);
    field_end(r);
}

void control_field(struct record *r, word instruction, word place, word count) {
    field_begin(r, "COCC");
    field_number(r, instruction, 1);
    field_number(r, place, 2);
    field_number(r, count, 2);
    field_end(r);
}

void coordinates_field(struct record *r, const char *tag, word number, word count) {
    field_begin(r, tag);
    for (word i = 0; i < count; i++) {
        field_number(r, 541800000 + number * 8 + i, 4);
        field_number(r, 121400000 + number * 8 + i, 4);
    }
    field_end(r);
}
