#include "master.h"
#include "packing.h"
#include "random.h"
#include "words.h"

int begun(struct master *master, struct display *displays, word count) {
    word answer[EZDURVASH_NUMBERS];
    if (started(&master->display, &master->dataset, answer) != 0) return said(answer, 1);
    master->first = shown_number(&master->display);
    master->hashes[0] = shown_hash(&master->display);
    master->room = master->display.chart[EZDURVASH_CHART_LENGTH];
    for (word d = 0; d < count; d++) equipped(&displays[d], &master->display);
    return DONE;
}

int rehearsed(struct master *master) {
    word answer[EZDURVASH_NUMBERS];
    for (word n = 0; n < master->count; n++) {
        if (handed(&master->display, &master->updates[n], answer) != 0) {
            printf("the master cannot take update file %lu: ", n + 1);
            return said(answer, 1);
        }
        master->hashes[n + 1] = shown_hash(&master->display);
        word length = master->display.chart[EZDURVASH_CHART_LENGTH];
        if (length > master->room) master->room = length;
    }
    return DONE;
}

void shelved(struct master *master, word *random) {
    word length = 1;
    for (word n = 0; n < master->count; n++) {
        master->order[n] = n;
        length += EZDURVASH_PARCEL_HEAD + master->updates[n].length;
    }
    shuffled(random, master->order, master->count);
    master->shelf = malloc(length);
    if (!master->shelf) exit(trouble("demo", "there is no memory for the shelf"));
}

void published(struct master *master, word count) {
    byte *at = master->shelf;
    for (word i = 0; i < master->count; i++) {
        const struct file *update = &master->updates[master->order[i]];
        if (master->order[i] < count) at = put_update_parcel(at, update->bytes, update->length);
    }
    master->shelf_length = (word)(at - master->shelf);
}

byte *answered(const struct master *master, const byte *holding, word holding_length, word *length) {
    word answer[EZDURVASH_NUMBERS], result[EZDURVASH_REPLY];
    word number = ezdurvash_reply(holding, holding_length, master->shelf, master->shelf_length, answer, EZDURVASH_NUMBERS, result,
                                  EZDURVASH_REPLY);
    if (number != 0) exit(trouble("the master cannot answer", meaning(number)));
    *length = result[EZDURVASH_PARCEL_LENGTH];
    return result[EZDURVASH_FOUND] ? master->shelf + result[EZDURVASH_START] : 0;
}
