/* The command-line tool over the proved library. */
#include "batch.h"
#include "bench.h"
#include "commands.h"
#include "demo.h"
#include "months.h"
#include "parcels.h"
#include "words.h"

enum { KIBIBYTE = 1024, MEBIBYTE = 1048576 };

static int usage(void) {
    return trouble("usage", "read FILE | list FILE | fields FILE RECORD | write FILE OUT | update FILE UPDATE.. OUT | tell FILE OUT | shelf UPDATE.. OUT | reply HOLDING SHELF OUT | take FILE PARCEL OUT | demo .. | batch CASES | bench read|write|update|month|cable [MIB] | bench worst [MIB|KIBK [WORDS]]");
}

static int is(const char *given, const char *wanted) {
    return strcmp(given, wanted) == 0;
}

/* The bytes of a measurement: 16 MiB where nothing is said; so many MiB, or KiB where a K stands behind them; 0 where it is no number up to 16 MiB. */
static word size(int count, char **words) {
    if (count < 4) return EZDURVASH_LONGEST;
    char *behind;
    word number = strtoul(words[3], &behind, 10);
    if (is(behind, "K")) return number <= EZDURVASH_LONGEST / KIBIBYTE ? number * KIBIBYTE : 0;
    return *behind == 0 && number <= EZDURVASH_LONGEST / MEBIBYTE ? number * MEBIBYTE : 0;
}

static int measured(int count, char **words) {
    word bytes = size(count, words), mebibytes = bytes % MEBIBYTE == 0 ? bytes / MEBIBYTE : 0;
    if (mebibytes > 0 && is(words[2], "read")) return bench_read(mebibytes);
    if (mebibytes > 0 && is(words[2], "write")) return bench_write(mebibytes);
    if (mebibytes > 0 && is(words[2], "update")) return bench_update(mebibytes);
    if (mebibytes > 0 && is(words[2], "month")) return bench_month(mebibytes);
    if (mebibytes > 0 && is(words[2], "cable")) return bench_cable(mebibytes);
    if (bytes >= 256 * KIBIBYTE && is(words[2], "worst")) return bench_worst(bytes, count == 5 ? words[4] : "");
    return usage();
}

static int chosen(int count, char **words) {
    if (count == 3 && is(words[1], "read")) return read_chart(words[2]);
    if (count == 3 && is(words[1], "list")) return list_chart(words[2]);
    if (count == 4 && is(words[1], "fields")) return show_fields(words[2], words[3]);
    if (count == 4 && is(words[1], "write")) return write_chart(words[2], words[3]);
    if (count >= 5 && is(words[1], "update")) return update_chart(words[2], words + 3, (word)count - 4, words[count - 1]);
    if (count == 4 && is(words[1], "tell")) return tell_holding(words[2], words[3]);
    if (count >= 4 && is(words[1], "shelf")) return join_shelf(words + 2, (word)count - 3, words[count - 1]);
    if (count == 5 && is(words[1], "reply")) return reply_parcel(words[2], words[3], words[4]);
    if (count == 5 && is(words[1], "take")) return take_parcel(words[2], words[3], words[4]);
    if (count >= 2 && is(words[1], "demo")) return demo(count - 2, words + 2);
    if (count == 3 && is(words[1], "batch")) return batch(words[2]);
    if ((count == 3 || count == 4) && is(words[1], "bench")) return measured(count, words);
    if (count == 5 && is(words[1], "bench") && is(words[2], "worst")) return measured(count, words);
    return usage();
}

int main(int count, char **words) {
    int status = chosen(count, words);
    return fflush(0) == 0 ? status : trouble("output", reason());
}
