/* The calls from begin to abort and rebuild in plain C, as documents 01 and 02 say them line by line. Each gives the numbers of its answer,
   and changes the sheet and what is kept. */
#ifndef PLAINCALLS_H
#define PLAINCALLS_H
#include "plainsheet.h"

static struct kept kept;

static uint64_t action_line(uint64_t action) {
    if (action < 1 || action > kept.end || action > pages || kept.fates[action - 1] < 1 || kept.fates[action - 1] > 3)
        return 5;
    return kept.fates[action - 1] == 1 ? 0 : 6;
}

/* Lines 11 and 12, and the page. */
static int stored(uint64_t a[TOLD], uint64_t need, int kind, int small, uint64_t file, uint64_t action, uint64_t link, uint64_t start,
                  const uint8_t *value) {
    if (pages - kept.end < need)
        return no(a, 11, 0), 0;
    if (!is_blank(kept.end + 1))
        return no(a, 12, 0), 0;
    kept.end++;
    plain_pack(page_at(kept.end), kind, small, file, kind == 1 ? kept.end : action, link, start, value, kept.end);
    answer(a, STORED, kept.end, 0, 0);
    return 1;
}

static const uint8_t none[32];

static void plain_begin(uint64_t a[TOLD]) {
    if (!stored(a, kept.undecided + 2, 1, 0, 0, 0, 0, 0, none))
        return;
    kept.fates[kept.end - 1] = 1;
    kept.undecided++;
}

/* Whether a file's row is rebuilt, names the action, and has a token that is the action's. */
static int holds_token(uint64_t file, uint64_t action, uint64_t end) {
    const uint64_t *row = row_in(&kept, file);
    return row[MARK] == 1 && row[TOKEN_ACTION] == action && row[TOKEN] >= 1 && row[TOKEN] <= end && is_image(row[TOKEN], file)
           && action_of(row[TOKEN]) == action;
}

/* Where the action is decided already: the fate says which decision it was, the sheet where it lies. */
static void plain_decide(uint64_t a[TOLD], uint64_t action, int verdict) {
    uint64_t line = action_line(action), end = kept.end;
    if (line == 6 && kept.fates[action - 1] == verdict + 1)
        return answer(a, STORED, outcome_of(action, end), 0, 0);
    if (line)
        return no(a, line, 0);
    if (!stored(a, 1, 3, verdict, 0, action, 0, 0, none))
        return;
    kept.fates[action - 1] = (uint8_t)(verdict + 1);
    kept.undecided -= kept.undecided > 0;
    for (uint64_t f = 1; f <= file_count; f++) {
        uint64_t *row = row_in(&kept, f);
        if (!holds_token(f, action, end))
            continue;
        if (verdict == 1)
            row[CURRENT] = row[TOKEN], row[CURRENT_END] = row[TOKEN_END];
        row[TOKEN] = row[TOKEN_END] = row[TOKEN_ACTION] = 0;
    }
}

static void raise(uint64_t *end, uint64_t time) { *end = *end < time ? time : *end; }

/* The token of the same action is overtaken, and leaves its end. */
static void plain_write(uint64_t a[TOLD], const struct call *q) {
    uint64_t line = action_line(q->action), place = kept.end + 1;
    if (q->file < 1 || q->file > file_count)
        return no(a, 3, 0);
    if (q->length > 32)
        return no(a, 4, 0);
    if (line)
        return no(a, line, 0);
    uint64_t *row = row_in(&kept, q->file);
    if (!warm(a, &kept, q->file))
        return;
    if (row[TOKEN] && action_of(row[TOKEN]) != q->action)
        return no(a, 8, action_of(row[TOKEN]));
    if (q->time <= row[CURRENT_END] || q->time <= kept.floor)
        return no(a, 10, 0);
    uint8_t value[32] = {0};
    memcpy(value, q->value, q->length);
    if (!stored(a, kept.undecided + 1, 2, (int)q->length, q->file, q->action, row[CURRENT], q->time, value))
        return;
    row[TOKEN_END] = row[TOKEN] ? row[TOKEN_END] : 0;
    raise(row + TOKEN_END, q->time);
    row[TOKEN] = place;
    row[TOKEN_ACTION] = q->action;
}

static void told_value(uint64_t a[TOLD], uint64_t place) { answer(a, VALUE, place, start_of(place), page_at(place)[1]); }

/* The first image from the current one down the links that does not start above the time. Where there is none, but a carried image was passed,
   what lay before that is on an older sheet, and 25 stands for "none". */
static void read_versions(uint64_t a[TOLD], const struct call *q, uint64_t row[ROW_LENGTH]) {
    uint64_t place = row[CURRENT];
    int has_carried = 0;
    while (place && start_of(place) > q->time) {
        uint64_t link = link_of(place);
        if (link && !is_image(link, q->file))
            return no(a, 13, place);
        has_carried = has_carried || is_carried(place);
        place = link;
    }
    if (place == 0 && has_carried)
        return no(a, 25, 0);
    if (place == row[CURRENT])
        raise(row + CURRENT_END, q->time);
    if (place)
        told_value(a, place);
    else
        answer(a, NOTHING, 0, 0, 0);
}

static void plain_read(uint64_t a[TOLD], const struct call *q) {
    uint64_t line = q->action ? action_line(q->action) : 0;
    if (q->file < 1 || q->file > file_count)
        return no(a, 3, 0);
    if (line)
        return no(a, line, 0);
    uint64_t *row = row_in(&kept, q->file);
    if (!warm(a, &kept, q->file))
        return;
    if (row[TOKEN] == 0 || start_of(row[TOKEN]) > q->time)
        return read_versions(a, q, row);
    if (action_of(row[TOKEN]) != q->action)
        return no(a, 9, action_of(row[TOKEN]));
    raise(row + TOKEN_END, q->time);
    told_value(a, row[TOKEN]);
}

static void plain_call(uint64_t a[TOLD], const struct call *q) {
    if (kept.end > pages || kept.undecided > kept.end)
        return no(a, 1, 0);
    switch (q->kind) {
    case BEGIN:
        return plain_begin(a);
    case WRITE:
        return plain_write(a, q);
    case READ:
        return plain_read(a, q);
    case TEST:
        if (action_line(q->action) == 5)
            return no(a, 5, 0);
        return answer(a, FATE, kept.fates[q->action - 1], outcome_of(q->action, kept.end), 0);
    case REBUILD:
        return plain_rebuild(a, &kept, q->file);
    default:
        plain_decide(a, q->action, q->kind == COMMIT ? 1 : 2);
    }
}
#endif
