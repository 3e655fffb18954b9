/* The proved calls beside the plain ones of plaincalls.h: long runs of random calls on a sheet, with cuts, openings, and lent fates, rows,
   states and pages that are damaged, for 1 to 13 files. After every call the answer, the state and every lent byte and number must be the
   same. Prints a line for each test and 'N passed, M failed'. */
#include "plaincalls.h"

enum { RUNS = 8000, LARGE_RUNS = 20, CALLS = 60, KINDS = ABORT + 1 };
struct ask {
    struct call call;
    uint8_t value[40];
};
static int seen_refusal[32], seen_answer[8], seen_cut[PAGE + 2];

/* What a test of an action, a decision of one that is decided, a write, a read, or a call that rebuilds a row has met; several may come at
   once. */
enum { SAME, OPPOSITE, TRUE_FATE, OTHER_OUTCOME, NO_OUTCOME, TWO_OUTCOMES, OUTCOME_ABOVE, NO_OPENING, FULL_SHEET, PAGE_ABOVE,
       TOKEN_LEFT, COLD_ROW, FALSELY_OPEN, OTHERS_TOKEN, OTHERS_TOKEN_10, OWN_LOWER, OWN_SAME, OWN_HIGHER, OWN_END_KEPT, OWN_END_RAISED,
       OWN_COLD, OWN_10, OWN_11, OWN_BELOW_CURRENT, STRAY_END, TWO_UNDECIDED, CARRIED_LOWEST, CARRIED_ABOVE, CARRIED_COLD, CARRIED_INSIDE,
       CARRIED_PASSED, CARRIED_READ, NONE_BESIDE, EMPTY_BESIDE, MET };
static const char *const met[MET] = {"the same decision again", "the opposite decision", "a fate that is the outcome's",
                                     "a fate that is not the outcome's", "a fate without an outcome", "two outcomes",
                                     "an outcome above the end", "an outcome without an opening", "a full sheet",
                                     "a page above the end that is not blank", "a token of the action in a row", "a cold row",
                                     "a test of an undecided action that has an outcome", "another action's token",
                                     "another action's token, and a start that 10 refuses", "a file written again at a lower start",
                                     "a file written again at the same start", "a file written again at a higher start",
                                     "a file written again below its token end", "a file written again at its token end or above",
                                     "a file written again, its row cold", "a file written again at a start that 10 refuses",
                                     "a file written again on too few pages", "a file written again, its token below the current place",
                                     "no token, but a token end above the start",
                                     "a cold row, and images of two undecided actions above its current one",
                                     "refusal 25, the lowest image carried", "refusal 25, the lowest image not carried",
                                     "refusal 25, the row cold", "refusal 25 inside an action",
                                     "a carried image passed and a version found", "a carried image read",
                                     "no version that is old enough, none of them carried, beside a carried opening",
                                     "no version, beside a carried opening"};
static int seen_met[MET];

/* What a row is that a call comes to: right, or wrong in one thing. Up to NAMINGS that is the token's action alone: read, write and rebuild
   refuse such a row 7, commit and abort pass it over. The others name the action that is decided, and are passed over too. The last two are
   where another row of the action is settled beside one that is passed over, and behind five that do not name it, so that four of them can
   be passed over at once. After the kinds comes a right row without a token. */
enum kind_of_row { RIGHT, NAMES_NONE, NAMES_UNDECIDED, NAMES_DECIDED, NAMES_NO_ACTION, NAMES_ABOVE, NAMES_HUGE, NAMES_WITHOUT, NAMINGS,
                   COLD_NAMING = NAMINGS, MARK_ABOVE_1, ANOTHERS_IMAGE, NO_IMAGE, ANOTHER_FILE, IMAGE_ABOVE, NO_PAGE, BESIDE, BEHIND_FIVE,
                   ROWS, NO_TOKEN };
static const char *const row_kinds[ROWS] = {"a token and its action", "a token and action 0", "a token and another undecided action",
                                            "a token and a decided action", "a token and a place that is no action",
                                            "a token and a number above the end", "a token and a number from 2^32 on",
                                            "an action without a token", "a cold row that names the action",
                                            "a mark above 1 in a row that names the action", "another's image in a row that names the action",
                                            "no image in a row that names the action", "another file's image in a row that names the action",
                                            "an image above the end in a row that names the action",
                                            "no page in a row that names the action", "a row that is settled beside one that is passed over",
                                            "a row that is settled behind five that do not name the action"};
static int seen_row[REBUILD + 1][ROWS];

/* For each file of each file count: how often a commit or abort passed over its row, being one of these kinds, and settled it. */
static int seen_place[2][MOST_FILES][MOST_FILES];

/* The calls that come to a row. */
enum { ROW_CALLS = 5 };
static const enum kind row_calls[ROW_CALLS] = {READ, WRITE, REBUILD, COMMIT, ABORT};

/* ---- what was met */

/* An outcome that would count if its action had an opening. */
static int has_stray_outcome(uint64_t action) {
    for (uint64_t p = kept.end; p > 0; p--)
        if (page_at(p)[0] == 3 && action_of(p) == action && plain_fits(page_at(p), p, file_count) && !is_opening(action))
            return 1;
    return 0;
}

/* What is met where a decided action is decided again alike. */
static void meet_again(uint64_t action) {
    uint64_t place = outcome_of(action, kept.end);
    int is_true = place && page_at(place)[1] + 1 == kept.fates[action - 1];
    seen_met[place == 0 ? NO_OUTCOME : is_true ? TRUE_FATE : OTHER_OUTCOME]++;
    seen_met[TWO_OUTCOMES] += place && outcome_of(action, place - 1);
    seen_met[OUTCOME_ABOVE] += outcome_of(action, pages) > kept.end;
    seen_met[NO_OPENING] += has_stray_outcome(action);
    seen_met[FULL_SHEET] += kept.end == pages;
    seen_met[PAGE_ABOVE] += kept.end < pages && !is_blank(kept.end + 1);
    for (uint64_t f = 1; f <= file_count; f++) {
        seen_met[TOKEN_LEFT] += holds_token(f, action, kept.end);
        seen_met[COLD_ROW] += row_in(&kept, f)[MARK] == 0;
    }
}

/* What is met where the action has the token already. */
static void meet_own(const uint64_t row[ROW_LENGTH], uint64_t start, int is_cold, int is_late) {
    uint64_t before = start_of(row[TOKEN]);
    int has_room = pages - kept.end > kept.undecided;
    seen_met[OWN_10] += !is_late;
    seen_met[OWN_11] += is_late && !has_room;
    if (!is_late || !has_room)
        return;
    seen_met[start < before ? OWN_LOWER : start == before ? OWN_SAME : OWN_HIGHER]++;
    seen_met[row[TOKEN_END] > start ? OWN_END_KEPT : OWN_END_RAISED]++;
    seen_met[OWN_COLD] += is_cold;
    seen_met[OWN_BELOW_CURRENT] += row[TOKEN] < row[CURRENT];
}

/* What is met where a write comes to line 8. */
static void meet_write(const struct call *q) {
    struct kept copy = kept;
    uint64_t a[TOLD], *row = row_in(&copy, q->file);
    int is_cold = row[MARK] == 0;
    if (!warm(a, &copy, q->file))
        return;
    int is_late = q->time > row[CURRENT_END] && q->time > kept.floor;
    if (row[TOKEN] == 0) {
        seen_met[STRAY_END] += is_late && row[TOKEN_END] > q->time;
    } else if (action_of(row[TOKEN]) == q->action) {
        meet_own(row, q->time, is_cold, is_late);
    } else {
        seen_met[OTHERS_TOKEN]++;
        seen_met[OTHERS_TOKEN_10] += !is_late;
    }
}

/* What the token's action is in a row whose other numbers are right. */
static enum kind_of_row naming_of(const uint64_t row[ROW_LENGTH]) {
    uint64_t named = row[TOKEN_ACTION];
    if (row[TOKEN] == 0)
        return named ? NAMES_WITHOUT : NO_TOKEN;
    if (named == action_of(row[TOKEN]))
        return RIGHT;
    if (named == 0 || named > kept.end)
        return named == 0 ? NAMES_NONE : named >> 32 ? NAMES_HUGE : NAMES_ABOVE;
    uint8_t fate = kept.fates[named - 1];
    return fate == 1 ? NAMES_UNDECIDED : fate == 2 || fate == 3 ? NAMES_DECIDED : NAMES_NO_ACTION;
}

/* What a file's row is for the decision of an action: ROWS if it neither names it nor holds its token, or if more than one thing is wrong. */
static enum kind_of_row row_kind(uint64_t file, uint64_t action) {
    const uint64_t *row = row_in(&kept, file);
    uint64_t place = row[TOKEN];
    int names = row[TOKEN_ACTION] == action, is_own = place && place <= pages && is_image(place, file) && action_of(place) == action;
    if (is_own && place <= kept.end && row[MARK] == 1)
        return naming_of(row);
    if (!names || (row[MARK] != 1 && (!is_own || place > kept.end)))
        return ROWS;
    if (row[MARK] != 1)
        return row[MARK] ? MARK_ABOVE_1 : COLD_NAMING;
    if (place == 0 || place > pages)
        return place ? NO_PAGE : NAMES_WITHOUT;
    if (place > kept.end)
        return is_own ? IMAGE_ABOVE : ROWS;
    if (!is_image(place, file_of(place)))
        return NO_IMAGE;
    return file_of(place) == file ? ANOTHERS_IMAGE : action_of(place) == action ? ANOTHER_FILE : ROWS;
}

/* What is met where a commit or abort stores its outcome. */
static void meet_rows(const struct call *q) {
    int count[2] = {0}, others = 0;
    if (kept.end == pages || !is_blank(kept.end + 1))
        return;
    for (uint64_t f = 1; f <= file_count; f++) {
        enum kind_of_row kind = row_kind(f, q->action);
        seen_row[q->kind][BEHIND_FIVE] += kind == RIGHT && others >= 5;
        others = row_in(&kept, f)[TOKEN_ACTION] == q->action ? 0 : others + 1;
        if (kind == ROWS)
            continue;
        seen_row[q->kind][kind]++;
        seen_place[kind == RIGHT][file_count - 1][f - 1]++;
        count[kind == RIGHT]++;
    }
    seen_row[q->kind][BESIDE] += count[0] && count[1];
}

/* Whether images of two undecided actions stand above a file's current one: the newest is the token. */
static int has_two_undecided(uint64_t file) {
    uint64_t row[ROW_LENGTH];
    row_of(file, kept.fates, kept.end, row);
    for (uint64_t p = row[TOKEN]; p > row[CURRENT]; p--)
        if (is_image(p, file) && kept.fates[action_of(p) - 1] == 1 && action_of(p) != action_of(row[TOKEN]))
            return 1;
    return 0;
}

static int has_carried_opening(void) {
    for (uint64_t p = kept.end; p > 0; p--)
        if (is_opening(p) && page_at(p)[1] == 1)
            return 1;
    return 0;
}

/* What is met where a read goes down the links. */
static void meet_links(const struct call *q, uint64_t place, int is_cold) {
    int carried = 0, lowest = 0, passed = 0;
    for (; place && start_of(place) > q->time; passed++, place = link_of(place)) {
        lowest = is_carried(place);
        carried += lowest;
        if (link_of(place) && !is_image(link_of(place), q->file))
            return;
    }
    int is_refused = place == 0 && carried;
    seen_met[CARRIED_LOWEST] += is_refused && lowest;
    seen_met[CARRIED_ABOVE] += is_refused && !lowest;
    seen_met[CARRIED_COLD] += is_refused && is_cold;
    seen_met[CARRIED_INSIDE] += is_refused && q->action;
    seen_met[CARRIED_PASSED] += place && carried;
    seen_met[CARRIED_READ] += place && is_carried(place);
    if (place == 0 && !carried)
        seen_met[passed ? NONE_BESIDE : EMPTY_BESIDE] += has_carried_opening();
}

/* What is met where a read comes past line 9 to the versions. */
static void meet_read(const struct call *q) {
    struct kept copy = kept;
    uint64_t a[TOLD], *row = row_in(&copy, q->file);
    int is_cold = row[MARK] == 0;
    if (warm(a, &copy, q->file) && (row[TOKEN] == 0 || start_of(row[TOKEN]) > q->time))
        meet_links(q, row[CURRENT], is_cold);
}

/* What is met where a read, write or rebuild may come to line 7. */
static void meet_row(const struct call *q) {
    uint64_t line = q->kind == REBUILD || (q->kind == READ && q->action == 0) ? 0 : action_line(q->action);
    if (q->file < 1 || q->file > file_count || (q->kind == WRITE && q->length > 32) || line)
        return;
    const uint64_t *row = row_in(&kept, q->file);
    if (row[MARK] == 1 && places_hold(row, q->file, kept.end) && naming_of(row) < NAMINGS)
        seen_row[q->kind][naming_of(row)]++;
    seen_met[TWO_UNDECIDED] += row[MARK] == 0 && has_two_undecided(q->file);
    if (q->kind == WRITE)
        meet_write(q);
    if (q->kind == READ)
        meet_read(q);
}

/* What is met where an action is decided, or decided again. */
static void meet_decision(const struct call *q) {
    uint8_t fate = kept.fates[q->action - 1];
    if (fate == 1)
        return meet_rows(q);
    int is_same = fate == (q->kind == COMMIT ? 2 : 3);
    seen_met[is_same ? SAME : OPPOSITE]++;
    if (is_same)
        meet_again(q->action);
}

static void meet(const struct call *q) {
    if (kept.end > pages || kept.undecided > kept.end)
        return;
    if (q->kind == READ || q->kind == WRITE || q->kind == REBUILD)
        return meet_row(q);
    if (q->kind == BEGIN || action_line(q->action) == 5)
        return;
    if (q->kind == TEST)
        seen_met[FALSELY_OPEN] += kept.fates[q->action - 1] == 1 && outcome_of(q->action, kept.end);
    else
        meet_decision(q);
}

/* ---- random runs */

/* The sheet before the last call. */
static uint8_t before[MOST * PAGE];

/* One call both ways. */
static int asked_alike(const struct ask *q, uint64_t a[TOLD]) {
    struct call c = q->call;
    struct kept was = kept;
    c.value = q->value;
    memcpy(before, sheet, PAGE * pages);
    meet(&c);
    plain_call(a, &c);
    seen_answer[a[WHICH]]++;
    if (a[WHICH] == REFUSED)
        seen_refusal[a[FIRST]]++;
    return called_alike(c, before, was, a, &kept);
}

/* An opening both ways; only a damaged sheet may be refused. */
static int opened_alike(uint64_t floor, int wild, int *refused) {
    uint64_t a[TOLD];
    struct kept was = kept;
    was.floor = kept.floor = floor;
    plain_open(a, &kept);
    *refused = a[WHICH] == REFUSED;
    return called_alike((struct call){.kind = OPEN}, sheet, was, a, &kept) && (wild || !*refused);
}

/* An undecided action, from some place on, or any number. */
static uint64_t random_action(void) {
    uint64_t action = below(kept.end + 2);
    if (below(16) == 0)
        return action;
    for (uint64_t i = 0; i <= kept.end && action_line(action); i++)
        action = action > 0 ? action - 1 : kept.end + 1;
    return action;
}

/* An action, decided or not, from some place on; 0 if there is none. */
static uint64_t known_action(void) {
    uint64_t from = below(kept.end + 1);
    for (uint64_t i = 0; i <= kept.end && kept.end <= pages; i++) {
        uint64_t action = (from + i) % (kept.end + 1);
        if (action_line(action) != 5)
            return action;
    }
    return 0;
}

/* A decision of an action: mostly the one that its fate says, if it is decided. */
static void decide_again(struct call *q, uint64_t action) {
    int is_aborted = action && kept.fates[action - 1] == 3;
    q->kind = is_aborted ? ABORT : COMMIT;
    q->action = action;
    if (below(6) == 0)
        q->kind = is_aborted ? COMMIT : ABORT;
    if (below(6) == 0)
        q->kind = TEST;
}

/* The action of a file's token if its row has one, else another. */
static uint64_t token_action(uint64_t file, uint64_t other) {
    uint64_t token = row_in(&kept, 1 + (file + file_count - 1) % file_count)[TOKEN];
    return token && token <= pages ? action_of(token) : other;
}

/* Mostly what a careful caller would ask: a file that there is, an undecided action, a start above the last. */
static struct ask random_ask(void) {
    struct ask a = {{(enum kind)below(KINDS), 1 + below(file_count), below(20), random_action(), below(36), NULL}, {0}};
    struct call *q = &a.call;
    if (below(16) == 0)
        q->file = below(file_count + 2);
    if (kept.undecided == 0 && below(2))
        q->kind = BEGIN;
    if (q->kind == TEST && below(2))
        q->kind = WRITE;
    if (q->kind == READ && below(3))
        q->action = 0;
    if (q->kind == WRITE && below(5))
        q->time = kept.floor + row_in(&kept, 1 + (q->file + file_count - 1) % file_count)[CURRENT_END] + 1 + below(3);
    if ((q->kind == WRITE || q->kind == READ) && below(3) == 0)
        q->action = token_action(q->file, q->action);
    if (below(60) == 0)
        q->time = UINT64_MAX;
    if (q->kind == ABORT && below(2))
        q->kind = COMMIT;
    if (below(20) == 0)
        decide_again(q, known_action());
    if (below(20) == 0)
        q->kind = REBUILD;
    for (size_t i = 0; i < q->length; i++)
        a.value[i] = (uint8_t)below(256);
    return a;
}

/* The version before a current one. */
static uint64_t older(void) {
    uint64_t place = row_in(&kept, 1 + below(file_count))[CURRENT];
    return place && place <= pages ? link_of(place) : 0;
}

/* An image with another link below its place, packed anew: it stays sealed, whatever lies there. */
static void relink(uint64_t place) {
    uint8_t *page = page_at(place), value[32];
    if (!is_image(place, file_of(place)))
        return;
    memcpy(value, page + 24, sizeof value);
    plain_pack(page, 2, page[1], file_of(place), action_of(place), below(place), start_of(place), value, place);
}

/* An opening packed anew as a carried one, or the other way round: its pages stay sealed. */
static void carry(uint64_t place) {
    if (is_opening(place))
        plain_pack(page_at(place), 1, below(4) > 0, 0, place, 0, 0, none, place);
}

/* Some version of a file whose action becomes a carried one, and a read that may pass it. */
static void carry_version(struct call *q) {
    uint64_t file = 1 + below(file_count), row[ROW_LENGTH];
    if (kept.end > pages)
        return;
    row_of(file, kept.fates, kept.end, row);
    uint64_t place = row[CURRENT];
    while (place && link_of(place) && is_image(link_of(place), file) && below(2))
        place = link_of(place);
    if (place)
        carry(action_of(place));
    uint64_t time = below(2) ? 0 : place && below(3) ? start_of(place) - below(2) : below(20);
    *q = (struct call){READ, file, time, below(3) ? 0 : random_action(), 0, NULL};
    if (below(4) == 0)
        row_in(&kept, file)[MARK] = 0;
}

/* Something lent that no call has left. */
static void damage(void) {
    uint64_t place = older();
    switch (below(12)) {
    case 0:
        kept.rows[below(ROW_LENGTH * file_count)] = below(pages + 2);
        break;
    case 1:
        row_in(&kept, 1 + below(file_count))[MARK] = below(4);
        break;
    case 2:
        kept.fates[below(pages)] = (uint8_t)below(6);
        break;
    case 3:
        sheet[PAGE * below(pages) + below(PAGE)] ^= (uint8_t)(1 + below(255));
        break;
    case 4:
        kept.undecided = below(pages + 1);
        break;
    case 5:
    case 6:
    case 7:
        if (place && place <= pages)
            page_at(place)[below(PAGE)] ^= (uint8_t)(1 + below(255));
        break;
    case 8:
    case 9:
        relink(1 + below(pages));
        break;
    case 10:
        carry(1 + below(pages));
        break;
    default:
        kept.end = below(pages + 2);
    }
}

/* An action whose fate, outcome or opening no call has left so, and a decision of it. */
static void mislead(struct call *q) {
    uint64_t action = known_action();
    if (action == 0)
        return;
    switch (below(5)) {
    case 0:
        kept.fates[action - 1] = (uint8_t)(1 + below(3));
        break;
    case 1:
        kept.fates[action - 1] = 2;
        break;
    case 2: /* one more outcome */
        if (kept.end == pages || !is_blank(kept.end + 1))
            return;
        kept.end++;
        plain_pack(page_at(kept.end), 3, 1 + (int)below(2), 0, action, 0, 0, none, kept.end);
        break;
    case 3: /* the outcome may then lie above the end */
        kept.end = action + below(kept.end - action + 1);
        break;
    default:
        page_at(action)[below(PAGE)] ^= (uint8_t)(1 + below(255));
    }
    decide_again(q, action);
}

/* A file's newest image up to a place that is not this action's, 0 if there is none. */
static uint64_t image_of_another(uint64_t file, uint64_t upto, uint64_t action) {
    for (uint64_t p = upto; p > 0; p--)
        if (is_image(p, file) && action_of(p) != action)
            return p;
    return 0;
}

/* A cold row of a file whose newest images are of two actions, both undecided by their fates, and a call that rebuilds it. */
static void revive(struct call *q) {
    uint64_t file = 1 + below(file_count), newest = kept.end <= pages ? image_of_another(file, kept.end, 0) : 0;
    uint64_t second = newest ? image_of_another(file, newest, action_of(newest)) : 0;
    if (second == 0)
        return;
    kept.fates[action_of(second) - 1] = kept.fates[action_of(newest) - 1] = 1;
    row_in(&kept, file)[MARK] = 0;
    *q = (struct call){below(2) ? REBUILD : READ, file, start_of(newest), action_of(newest), 0, NULL};
}

/* A row whose token is gone but for its end, or lies below the current image, and a write of its file. */
static void twist(struct call *q) {
    uint64_t file = 1 + below(file_count), *row = row_in(&kept, file), place = row[TOKEN];
    if (place == 0 || place > pages || !is_image(place, file))
        return;
    *q = (struct call){WRITE, file, kept.floor + row[CURRENT_END] + 1 + below(3), action_of(place), 0, NULL};
    row[TOKEN] = row[TOKEN_ACTION] = 0;
    if (below(2))
        return raise(row + TOKEN_END, q->time + below(3));
    row[CURRENT] = place;
    for (uint64_t p = place - 1; p > 0 && row[TOKEN] == 0; p--)
        row[TOKEN] = is_image(p, file) && action_of(p) == q->action ? p : 0;
    row[TOKEN_ACTION] = row[TOKEN] ? q->action : 0;
}

/* A file whose row is rebuilt and right, and has a token, from some file on; 0 if there is none. */
static uint64_t file_with_token(void) {
    uint64_t from = below(file_count);
    for (uint64_t i = 0; i < file_count && kept.end <= pages; i++) {
        uint64_t file = 1 + (from + i) % file_count;
        const uint64_t *row = row_in(&kept, file);
        if (row[MARK] == 1 && row[TOKEN] && row_holds(row, file, kept.end))
            return file;
    }
    return 0;
}

/* Mostly not a token's action. */
static uint64_t wrong_action(uint64_t right) {
    switch (below(9)) {
    case 0:
    case 1:
    case 2:
        return random_action();
    case 3:
        return known_action();
    case 4:
    case 5:
        return below(kept.end + 1);
    case 6:
        return kept.end + 1 + below(3);
    case 7:
        return below(2) ? UINT64_MAX : right + ((uint64_t)1 << (32 + below(32)));
    default:
        return 0;
    }
}

/* A row that names another action than its token's, or names one and has no token, and a call that goes by that. */
static void misname(struct call *q) {
    uint64_t file = file_with_token();
    if (file == 0)
        return;
    uint64_t *row = row_in(&kept, file);
    *q = (struct call){row_calls[below(ROW_CALLS)], file, kept.floor + row[CURRENT_END] + 1 + below(3), row[TOKEN_ACTION], 0, NULL};
    if (q->kind == READ && below(2))
        q->action = 0;
    if (below(8) == 0)
        row[TOKEN] = row[TOKEN_END] = 0;
    else
        row[TOKEN_ACTION] = wrong_action(row[TOKEN_ACTION]);
}

/* An image above the end, with a blank page between, in a row. */
static uint64_t put_above(uint64_t row[ROW_LENGTH], uint64_t file) {
    uint64_t place = kept.end + 2;
    if (place > pages || !is_blank(place))
        return 0;
    plain_pack(page_at(place), 2, 0, file, row[TOKEN_ACTION], 0, 1, none, place);
    row[TOKEN] = place;
    return place;
}

/* What may be wrong in a row that names its token's action. Another file's image is seldom found, so it is sought twice as often. */
enum { MISLAID = 8 };
static const enum kind_of_row mislaid[MISLAID] = {COLD_NAMING,  MARK_ABOVE_1, ANOTHERS_IMAGE, NO_IMAGE,
                                                  ANOTHER_FILE, ANOTHER_FILE, IMAGE_ABOVE,    NO_PAGE};

/* A row that names its token's action, and is wrong in its mark or token, and a decision of that action. Answers the place of an image
   that was put above the end, 0 if none was. */
static uint64_t mislay(struct call *q) {
    uint64_t file = file_with_token();
    if (file == 0)
        return 0;
    uint64_t *row = row_in(&kept, file), token = row[TOKEN];
    enum kind_of_row kind = mislaid[below(MISLAID)];
    *q = (struct call){below(2) ? COMMIT : ABORT, file, 0, row[TOKEN_ACTION], 0, NULL};
    if (kind == IMAGE_ABOVE)
        return put_above(row, file);
    if (kind == COLD_NAMING || kind == MARK_ABOVE_1)
        row[MARK] = kind == COLD_NAMING ? 0 : below(2) ? 2 : UINT64_MAX;
    if (kind == NO_PAGE)
        row[TOKEN] = below(2) ? pages + 1 : UINT64_MAX;
    for (uint64_t i = 0; i < 2 * kept.end && row_kind(file, q->action) != kind; i++)
        row[TOKEN] = 1 + below(kept.end);
    if (row_kind(file, q->action) != kind)
        row[TOKEN] = token;
    return 0;
}

/* Rows that line 7 refuses are made cold, so that they do not hide what else there is to meet. */
static void mend_rows(void) {
    for (uint64_t f = 1; f <= file_count && kept.end <= pages; f++)
        if (!row_holds(row_in(&kept, f), f, kept.end))
            row_in(&kept, f)[MARK] = 0;
}

/* The call that was made is cut: what stood before it comes back from some byte of its page on. */
static int cut_is_right(uint64_t place) {
    int n = cut_page(place, before + PAGE * (place - 1));
    seen_cut[n]++;
    return n == 0 ? is_blank(place) : n == PAGE ? plain_fits(page_at(place), place, file_count) : is_torn(place);
}

/* What no call has left so: nothing, anything that is lent, or rows alone, on lawful sheets. */
enum damaged { NONE, ANYTHING, ROWS_ALONE };

/* Damage before a call, and mostly a call that meets it. Answers the place of a page that was put above the end, 0 if none was. */
static uint64_t spoil(enum damaged what, struct call *q) {
    if (what == ANYTHING && below(20) == 0) {
        damage();
        if (below(2))
            q->kind = READ, q->time = below(3), q->action = 0;
    }
    if (what == ANYTHING && below(20) == 0)
        mislead(q);
    if (what == ANYTHING && below(20) == 0)
        revive(q);
    if (what == ANYTHING && below(10) == 0)
        twist(q);
    if (what == ANYTHING && below(5) == 0)
        carry_version(q);
    if (what == ROWS_ALONE && below(6) == 0)
        misname(q);
    return what == ROWS_ALONE && below(6) == 0 ? mislay(q) : 0;
}

/* An opening, and calls, some of them cut, with openings between them; up to a refused opening. */
static int calls_alike(enum damaged what) {
    int refused, wild = what == ANYTHING;
    if (!opened_alike(below(4), wild, &refused))
        return 0;
    for (int i = 0; i < CALLS && !refused; i++) {
        struct ask q = random_ask();
        uint64_t a[TOLD], put = spoil(what, &q.call), end = kept.end;
        if (!asked_alike(&q, a))
            return 0;
        if (put)
            memset(page_at(put), 0, PAGE);
        if (what == ROWS_ALONE && below(3) == 0)
            mend_rows();
        int is_cut = kept.end > end && below(15) == 0;
        if (is_cut && !cut_is_right(kept.end))
            return 0;
        if ((is_cut || below(60) == 0) && !opened_alike(below(8), wild, &refused))
            return 0;
    }
    return 1;
}

/* For some files. The rows that are not lent have numbers that must stay. */
static void blank_sheet(uint64_t count) {
    pages = count;
    file_count = random_file_count();
    memset(sheet, 0, PAGE * pages);
    memset(&kept, 0, sizeof kept);
    memset(row_in(&kept, file_count + 1), UNTOUCHED, ROW_LENGTH * (MOST_FILES - file_count) * sizeof *kept.rows);
    kept.floor = below(4);
}

/* Rows alone are damaged where there is room for every call. */
static int runs_alike(enum damaged what) {
    for (int run = 0; run < RUNS; run++) {
        blank_sheet(what == ROWS_ALONE ? 2 * CALLS : below(4) ? SMALL - below(8) : 1 + below(SMALL));
        if (!calls_alike(what))
            return 0;
    }
    return 1;
}

/* Sheets of more than 1,024 pages: filled by the plain calls, and then both ways. */
static int large_alike(enum damaged what) {
    for (int run = 0; run < LARGE_RUNS; run++) {
        blank_sheet(1025 + below(MOST - 1024));
        uint64_t used = pages - below(2 * CALLS), a[TOLD];
        for (int i = 0; i < 20 * MOST && kept.end < used; i++) {
            struct ask q = random_ask();
            q.call.value = q.value;
            q.call.time = q.call.time == UINT64_MAX ? 1 : q.call.time; /* it would bar the file */
            plain_call(a, &q.call);
        }
        if (kept.end + 8 < used || !calls_alike(what))
            return 0;
    }
    return 1;
}

/* Every answer, every refusal that these calls can give, every cut and all that is to be met has come often; 2 is open's. */
static int all_seen(void) {
    for (int n = 1; n <= 25; n = n == 13 ? 25 : n + 1)
        if (n != 2 && seen_refusal[n] < 20)
            return printf("refusal %d came %d times\n", n, seen_refusal[n]), 0;
    for (int n = REBUILT; n <= FATE; n++)
        if (seen_answer[n] < 500)
            return printf("answer %d came %d times\n", n, seen_answer[n]), 0;
    for (int n = 0; n <= PAGE + 1; n++)
        if (seen_cut[n] < 20)
            return printf("a cut after %d bytes came %d times\n", n, seen_cut[n]), 0;
    for (int n = 0; n < MET; n++)
        if (seen_met[n] < 100)
            return printf("%s came %d times\n", met[n], seen_met[n]), 0;
    return 1;
}

/* So has each kind of row that a call can come to. */
static int all_rows_seen(void) {
    int all = 1;
    for (int i = 0; i < ROW_CALLS * ROWS; i++) {
        enum kind kind = row_calls[i / ROWS];
        int is_met = i % ROWS < NAMINGS || kind == COMMIT || kind == ABORT;
        if (is_met && seen_row[kind][i % ROWS] < 100)
            all = (printf("call %d met %d times: %s\n", kind, seen_row[kind][i % ROWS], row_kinds[i % ROWS]), 0);
    }
    return all;
}

/* And each file of each count, settled and passed over. */
static int all_places_seen(void) {
    int all = 1;
    for (int i = 0; i < 2 * MOST_FILES * MOST_FILES; i++) {
        int settled = i % 2, count = i / 2 / MOST_FILES, file = i / 2 % MOST_FILES, seen = seen_place[settled][count][file];
        if (file <= count && seen < 40)
            all = (printf("file %d of %d was %s %d times\n", file + 1, count + 1, settled ? "settled" : "passed over", seen), 0);
    }
    return all;
}

int main(int count, char **words) {
    seed = count > 1 ? strtoull(words[1], NULL, 10) | 1 : 20261115;
    printf("seed %llu\n", (unsigned long long)seed);
    told("runs of calls with cuts", runs_alike(NONE));
    told("runs on damaged sheets, fates, rows and states", runs_alike(ANYTHING));
    told("runs on damaged rows alone", runs_alike(ROWS_ALONE));
    told("runs with cuts on more than 1,024 pages", large_alike(NONE));
    told("runs with damage on more than 1,024 pages", large_alike(ANYTHING));
    told("runs on damaged rows alone on more than 1,024 pages", large_alike(ROWS_ALONE));
    told("every answer, refusal and cut seen, and all that is to be met", all_seen());
    told("every kind of row seen that a read, write, rebuild, commit or abort can come to", all_rows_seen());
    told("every file of 1 to 13 settled and passed over", all_places_seen());
    printf("%d passed, %d failed\n", passed, failed);
    return failed != 0;
}
