/* Records of a chart from values: those that the measurements need. */
#ifndef EZ_SHAPES_H
#define EZ_SHAPES_H

#include "records.h"

enum { INFORMATION, POINT, MULTI, FEATURE, KINDS };
enum { INSERT = 1, DELETE = 2, MODIFY = 3 };

/* Each of these begins a record anew; a named one is a general record with another dataset name. */
void descriptive_record(struct record *r, word filling);
void general_record(struct record *r, word update_number);
void named_record(struct record *r, const char *name, word update_number);
void systems_record(struct record *r);
void identified_record(struct record *r, int kind, word rcid, word version, word instruction);

/* A tuple goes into a field that is begun; the head of an INAS field begins it. */
void attribute_tuple(struct record *r, word code, word index, word parent, word instruction, const char *value);
void association_head(struct record *r, word rcid, word code, word role, word instruction);
void spatial_tuple(struct record *r, int kind, word rcid, word instruction);

/* Each of these adds a field. */
void association_field(struct record *r, word rcid);
void spatial_field(struct record *r, int kind, word rcid);
void object_field(struct record *r, word number);
void control_field(struct record *r, word instruction, word place, word count);
void coordinates_field(struct record *r, const char *tag, word number, word count);

#endif
