/* The proved library, for programs in C and for languages that call C. Link with libconsole.a (rt lib in crates/console); x86-64 Linux. */
#ifndef EZDURVASH_H
#define EZDURVASH_H

/* The places of an answer's numbers. */
enum { EZDURVASH_NUMBER, EZDURVASH_FILE, EZDURVASH_RECORD, EZDURVASH_LENGTH, EZDURVASH_COUNT, EZDURVASH_NUMBERS };

/* Everywhere: any bytes may be handed over, and those of dataset, update, holding, shelf and parcel are never written, but for a dataset in
   the pool of a month. No pointer is null, also where its length is 0. The slices that are written lie apart from each other and from what
   is read. Every function but ezdurvash_list and ezdurvash_field returns the number of the refusal, 0 for done. The five numbers of an answer
   go into `answer`, whose `answer_length` is EZDURVASH_NUMBERS: that number again, file, record, written length, count of records; a shorter
   `answer` is left as it is. No memory is taken but the stack: some 100 KiB, and more where attributes are nested deep. As deep as a record
   allows, 2.3 MB were measured for a read or a write, 5.1 MB for an update. */

/* Checks a dataset; the written length is 0. */
unsigned long ezdurvash_read(const unsigned char *dataset, unsigned long dataset_length, unsigned long *answer,
                             unsigned long answer_length);

/* Puts a dataset into its written form at the beginning of `out`; the rest of `out` is zero, on a refusal all of it, also where `answer`
   is shorter. */
unsigned long ezdurvash_write(const unsigned char *dataset, unsigned long dataset_length, unsigned char *out, unsigned long out_length,
                              unsigned long *answer, unsigned long answer_length);

/* Puts the listing of an input as text into `out`, without a zero at its end, and returns its length; the rest of `out` is zero. Where
   `out` is too short, all of it is zero and 0 is returned, which says that and nothing else, since no listing is empty; EZDURVASH_LISTING
   bytes are always enough. */
enum { EZDURVASH_LISTING = 327736 };
unsigned long ezdurvash_list(const unsigned char *input, unsigned long input_length, unsigned char *out, unsigned long out_length);

/* The field of a number in the record of a number of any file, both from 1: its tag (the four bytes as one number, the first the highest),
   where its bytes start in the file and where its closing 1E stands go into `field`, whose `field_length` is EZDURVASH_FIELD, and 1 is
   returned; a shorter `field` is left as it is. Where there is none, or a record up to it is not right, `field` is left as it is, and 0 is
   returned. */
enum { EZDURVASH_FIELD = 3 };
unsigned long ezdurvash_field(const unsigned char *file, unsigned long file_length, unsigned long record, unsigned long number,
                              unsigned long *field, unsigned long field_length);

/* Puts the result of a dataset and an update into `out`, as ezdurvash_write does. `work` has EZDURVASH_WORKSPACE bytes at least, or the
   call is refused; it is zero afterwards. */
enum { EZDURVASH_WORKSPACE = 400000 };
unsigned long ezdurvash_update(const unsigned char *dataset, unsigned long dataset_length, const unsigned char *update,
                               unsigned long update_length, unsigned char *out, unsigned long out_length, unsigned char *work,
                               unsigned long work_length, unsigned long *answer, unsigned long answer_length);

/* A display that follows a master has two pools, `first` and `second`, one of which holds its chart. Where that stands after a call goes
   into `chart`, whose `chart_length` is EZDURVASH_CHART: its place, 0 for the first pool and 1 for the second, and its length there, both as
   the next call takes them; a shorter `chart` is left as it is. */
enum { EZDURVASH_PLACE, EZDURVASH_CHART_LENGTH, EZDURVASH_CHART };

/* A display begins with a dataset, whose written form goes into the first pool, as ezdurvash_write puts it; on a refusal the chart's length
   is 0. */
unsigned long ezdurvash_begin(const unsigned char *dataset, unsigned long dataset_length, unsigned char *first, unsigned long first_length,
                              unsigned long *answer, unsigned long answer_length, unsigned long *chart, unsigned long chart_length);

/* Hands a file to a display whose chart has `size` bytes, in the second pool where `place` is not 0, else in the first. The chart stays as
   it is in its pool; the result is built in the other, whose length is the room that there is for it. Where 0 is returned the chart is now
   the result, in the other pool; else it is the one before, in its place. */
unsigned long ezdurvash_hand(unsigned long place, unsigned long size, unsigned char *first, unsigned long first_length,
                             unsigned char *second, unsigned long second_length, const unsigned char *file, unsigned long file_length,
                             unsigned char *work, unsigned long work_length, unsigned long *answer, unsigned long answer_length,
                             unsigned long *chart, unsigned long chart_length);

/* A month of updates at once. `list` holds update files one after the other, each preceded by its length: four bytes, the lowest first.
   They are applied one by one to the dataset of `size` bytes at the beginning of the first pool, the pools changing places between, up to
   the first that is refused; number and answer are those of the last one tried. How many were applied, the number of the pool that holds
   the result, 1 or 2, and the result's length there go into `result`, whose `result_length` is EZDURVASH_MONTH; a shorter one is left as it
   is. The other pool and `work`, as of ezdurvash_update, are zero afterwards; where none was applied the first pool keeps its bytes. */
enum { EZDURVASH_APPLIED, EZDURVASH_POOL, EZDURVASH_RESULT_LENGTH, EZDURVASH_MONTH };
unsigned long ezdurvash_month(const unsigned char *list, unsigned long list_length, unsigned char *first, unsigned long first_length,
                              unsigned long size, unsigned char *second, unsigned long second_length, unsigned char *work,
                              unsigned long work_length, unsigned long *answer, unsigned long answer_length, unsigned long *result,
                              unsigned long result_length);

/* The bridge cable carries parcels. A parcel is its whole length (four bytes, the lowest first, these six and the body counted), its kind
   (two bytes) and its body. A holding, of kind 1, tells what a display holds: edition and update number of its chart, two bytes each, then
   its name to the end. A parcel of kind 2 carries an update file. A shelf is parcels of kind 2 one after the other, or nothing. Numbers have
   their lowest byte first. A parcel whose length or kind is wrong is refused with 27, file and record 0. */
enum { EZDURVASH_PARCEL_HEAD = 6, EZDURVASH_HOLDING = 1, EZDURVASH_UPDATE_FILE = 2 };

/* Where a holding has what it tells. */
enum { EZDURVASH_EDITION_TOLD = 6, EZDURVASH_NUMBER_TOLD = 8, EZDURVASH_NAME_TOLD = 10 };

/* A display tells what it holds: puts the holding of a chart, of which the first two records are read, at the beginning of `out`; the rest
   of `out` is zero, on a refusal all of it, also where `answer` is shorter. The written length is the holding's, the count 0. A name stands
   in a record of at most 99,999 bytes, so that EZDURVASH_HOLDING_LONGEST bytes are always enough. */
enum { EZDURVASH_HOLDING_LONGEST = 99950 };
unsigned long ezdurvash_tell(const unsigned char *chart, unsigned long chart_length, unsigned char *out, unsigned long out_length,
                             unsigned long *answer, unsigned long answer_length);

/* A master answers a holding with the first parcel of its shelf that follows it: whose file has the holding's name and edition, and its
   update number plus one. The first two records of a file are read, and it follows nothing where they are not right. Whether there is one
   (1 or 0), where it starts in the shelf and its whole length there go into `result`, whose `result_length` is EZDURVASH_REPLY, 0 0 0 for
   silence and on a refusal; a shorter one is left as it is. Written length and count are 0. Nothing but `answer` and `result` is written. */
enum { EZDURVASH_FOUND, EZDURVASH_START, EZDURVASH_PARCEL_LENGTH, EZDURVASH_REPLY };
unsigned long ezdurvash_reply(const unsigned char *holding, unsigned long holding_length, const unsigned char *shelf,
                              unsigned long shelf_length, unsigned long *answer, unsigned long answer_length, unsigned long *result,
                              unsigned long result_length);

/* A display takes a parcel: as ezdurvash_hand, with a parcel of kind 2 in the place of the file. Where its length or kind is wrong the chart
   stays in its place, and the other pool and `work`, however short, are zero, as after every refusal. */
unsigned long ezdurvash_take(unsigned long place, unsigned long size, unsigned char *first, unsigned long first_length,
                             unsigned char *second, unsigned long second_length, const unsigned char *parcel,
                             unsigned long parcel_length, unsigned char *work, unsigned long work_length, unsigned long *answer,
                             unsigned long answer_length, unsigned long *chart, unsigned long chart_length);

/* The longest dataset, update or result. */
enum { EZDURVASH_LONGEST = 16777216 };

#endif
