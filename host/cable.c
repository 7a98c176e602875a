#include "cable.h"
#include "random.h"
#include "words.h"

/* Of 100 parcels that are not lost so many are late, so many come again; and a late one comes so many rounds later at most. */
enum { LATE_OF_100 = 20, AGAIN_OF_100 = 20, LATEST = 2 };

static const char *const LATE_COMES[2] = {"late answer: ", "late holding: "};
static const char *const AGAIN_COMES[2] = {"answer again: ", "holding again: "};

static int happens(struct cable *cable, word of_100) {
    return below(cable->random, 100) < of_100;
}

static void under_way(struct cable *cable, const struct parcel *parcel, word round, const char *how) {
    struct parcel *copy = cable->parcels + cable->count;
    *copy = *parcel;
    copy->how = how;
    copy->bytes = malloc(parcel->length);
    if (!copy->bytes) exit(trouble("demo", "there is no memory for a parcel"));
    memcpy(copy->bytes, parcel->bytes, parcel->length);
    cable->rounds[cable->count++] = round;
}

int sent(struct cable *cable, const struct parcel *parcel, word round) {
    if (happens(cable, cable->loss) || cable->count + 2 > MOST_UNDER_WAY) return LOST;
    word delay = happens(cable, LATE_OF_100) ? 1 + below(cable->random, LATEST) : 0;
    under_way(cable, parcel, round + delay, delay > 0 ? LATE_COMES[parcel->to_master] : parcel->how);
    if (happens(cable, AGAIN_OF_100))
        under_way(cable, parcel, round + delay + below(cable->random, LATEST), AGAIN_COMES[parcel->to_master]);
    return delay > 0 ? LATE : IN_TIME;
}

/* Closes the gap that a parcel leaves; the others keep their order. */
static void taken_off(struct cable *cable, word one) {
    cable->count--;
    for (word i = one; i < cable->count; i++) {
        cable->parcels[i] = cable->parcels[i + 1];
        cable->rounds[i] = cable->rounds[i + 1];
    }
}

int arrived(struct cable *cable, word display, word round, struct parcel *parcel) {
    for (word i = 0; i < cable->count; i++) {
        if (cable->parcels[i].display != display || cable->rounds[i] > round) continue;
        *parcel = cable->parcels[i];
        taken_off(cable, i);
        return 1;
    }
    return 0;
}
