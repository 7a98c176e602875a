#include "words.h"

static const char *const MEANING[] = {
    "done",
    "the file is empty or cut off",
    "leader",
    "directory or field bounds",
    "tag, or order or absence of a field or record",
    "subfields do not fill the field, or a value is out of its range",
    "tree rule, or a value beside a child",
    "key present twice",
    "name, edition or update number do not follow",
    "record, association, entry or coordinate place absent",
    "RVER, code or FOID disagrees",
    "a named record is absent",
    "written record above 99,999 bytes",
    "output slice too short",
    "file above 16,777,216 bytes",
    "workspace under 400,000 bytes",
    [27] = "length or kind of a parcel",
};

static const char *const FILES[] = {"no file", "dataset", "update", "result"};

const char *counted(word number, char room[DIGITS]) {
    char *at = room + DIGITS - 1;
    *at = 0;
    for (word written = 0; written == 0 || number > 0; written++) {
        if (written > 0 && written % 3 == 0) *--at = ',';
        *--at = (char)('0' + number % 10);
        number /= 10;
    }
    return at;
}

char printable(word letter) {
    letter &= 255;
    return letter < ' ' || letter > '~' ? '?' : (char)letter;
}

int trouble(const char *subject, const char *what) {
    fflush(0);
    dprintf(2, "ez: %s: %s\n", subject, what);
    return TROUBLE;
}

const char *reason(void) {
    return strerror(*__errno_location());
}

const char *meaning(word number) {
    const char *found = number < sizeof MEANING / sizeof *MEANING ? MEANING[number] : 0;
    return found ? found : "no number of the paper";
}

int said(const word answer[EZDURVASH_NUMBERS], int writes) {
    char records[DIGITS], bytes[DIGITS];
    word number = answer[EZDURVASH_NUMBER], record = answer[EZDURVASH_RECORD];
    if (number == 0) {
        printf("done: %s records", counted(answer[EZDURVASH_COUNT], records));
        if (writes) printf(", %s bytes", counted(answer[EZDURVASH_LENGTH], bytes));
        printf("\n");
        return DONE;
    }
    printf("refused: %lu, %s: %s", number, meaning(number), FILES[answer[EZDURVASH_FILE] % 4]);
    if (record > 0) printf(", record %s", counted(record, records));
    printf("\n");
    return REFUSED;
}
