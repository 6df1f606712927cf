#include "fields.h"

#include <string.h>

enum { MAX_DIGITS = 20 };

/* Whether the field is a number in form. */
static bool number_of(const uint8_t *field, size_t length, struct number *number) {
    unsigned __int128 value = 0;
    if (length == 0 || length > MAX_DIGITS || (length > 1 && field[0] == '0'))
        return false;
    for (size_t k = 0; k < length; k++) {
        if (field[k] < '0' || field[k] > '9')
            return false;
        value = 10 * value + (field[k] - '0');
    }
    *number = (struct number){(uint64_t)value, value > UINT64_MAX};
    return true;
}

/* Which record the field names; `count` where it names none. */
static int record_of(const struct record *records, int count, const uint8_t *field,
                     size_t length) {
    int record = 0;
    while (record < count && (strlen(records[record].name) != length ||
                              memcmp(records[record].name, field, length) != 0))
        record++;
    return record;
}

bool line_of(const struct record *records, int count, const uint8_t *bytes, size_t length,
             struct line *line) {
    size_t from = 0;
    for (int field = 0;; field++) {
        const uint8_t *tab = memchr(bytes + from, '\t', length - from);
        size_t to = tab == NULL ? length : (size_t)(tab - bytes);
        if (field == 0)
            line->record = record_of(records, count, bytes, to);
        if (line->record == count || field > records[line->record].numbers)
            return false;
        if (field > 0 && !number_of(bytes + from, to - from, &line->number[field - 1]))
            return false;
        if (tab == NULL)
            return field == records[line->record].numbers;
        from = to + 1;
    }
}
