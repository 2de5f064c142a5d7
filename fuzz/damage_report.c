/* Damage to the lines of a report, and to the bytes of a file. */
#include "damage.h"

/* Bytes that some column asks for, then bytes that none may have. */
static uint8_t any_byte(chance *c)
{
    switch (below(c, 12)) {
    case 0: return (uint8_t)below(c, 256);
    case 1: return (uint8_t)between(c, 32, 126);
    case 2: return byte_of(c, "mwWBGIFC/.");
    case 3: case 4: return byte_of(c, " wb-wb-WB");
    case 5: case 6: return byte_of(c, "1=0WDL+-HFUZwdlhfuz ?");
    case 7: case 8: return byte_of(c, "WDLAPX.-/");
    case 9: return ' ';
    default: return byte_of(c, "0123456789");
    }
}

static size_t any_place(chance *c, report *r) { return below(c, (uint32_t)r->count); }
static line *any_line(chance *c, report *r) { return line_at(r, any_place(c, r)); }

static int has_code(const line *l, const char *code) { return l->length >= 3 && memcmp(l->bytes, code, 3) == 0; }

/* Columns at which fields begin, end or part. */
static uint32_t border_column(chance *c, const line *l)
{
    static const uint16_t PLAYER[] = {4, 5, 8, 9, 10, 11, 12, 13, 14, 15, 47, 48, 49, 52, 53, 54, 56, 57, 58, 68, 69, 70, 73, 74, 76, 77, 79, 80, 81, 82, 83, 84,
                                      85, 86, 89, 90, 91, 92, 95, 96, 97, 98, 99, 100, 101, 102, 289, 290, 291, 512};
    static const uint16_t RECORD[] = {4, 5, 8, 9, 10, 11, 12, 13, 14, 15, 17, 18, 19, 21, 22, 23, 26, 27, 28, 31, 32, 33, 512};
    static const uint16_t VALUES[] = {4, 5, 6, 7, 8, 9, 10, 11, 14, 15, 16, 17, 18, 19, 20, 24, 33, 42, 50, 51, 52, 53, 54, 55, 56, 60};
    static const uint16_t ENTRY[] = {0, 1, 2, 3, 3, 4, 5, 5, 5, 6, 7, 7, 7, 8, 9};
    static const uint16_t SHORT[] = {1, 2, 3, 4, 5, 6, 7, 8, 9, 20};
    if (has_code(l, "001")) {
        uint32_t rounds = l->length > 91 ? (uint32_t)(l->length - 82) / 10 : 0;
        if (one_in(c, 2)) return PLAYER[below(c, COUNT_OF(PLAYER))];
        return 92 + 10 * below(c, one_in(c, 4) ? 21 : rounds + 1) + ENTRY[below(c, COUNT_OF(ENTRY))];
    }
    if (has_code(l, "250")) return RECORD[below(c, COUNT_OF(RECORD))];
    if (has_code(l, "162")) return VALUES[below(c, COUNT_OF(VALUES))];
    return SHORT[below(c, COUNT_OF(SHORT))];
}

/* A byte that an entry's column may have, or nearly. */
static uint8_t entry_byte(chance *c, uint32_t column)
{
    uint32_t offset = (column - 92) % 10;
    return byte_of(c, offset == 5 ? " wb-WB" : offset == 7 ? "1=0WDL+-HFUZwdlhfuz ?" : offset < 4 ? " 0123456789" : " x");
}

static void change_column(chance *c, report *r)
{
    line *l = any_line(c, r);
    uint32_t column = one_in(c, 3) ? between(c, 1, (uint32_t)l->length + 4) : border_column(c, l);
    int is_entry = has_code(l, "001") && column >= 92 && column < 290;
    put_column(l, column, is_entry && !one_in(c, 3) ? entry_byte(c, column) : any_byte(c));
}

/* An entry's result blank or `?`, its colour not that of a game, or the line cut about them: mostly the entry that ends the line. */
static void change_entry(chance *c, report *r)
{
    line *l = any_line(c, r);
    if (!has_code(l, "001") || l->length < 92 || l->length > 290) return;
    uint32_t last = (uint32_t)(l->length - 92) / 10, column = 92 + 10 * (one_in(c, 3) ? below(c, last + 1) : last);
    uint32_t cut = between(c, column + 3, column + 7);
    if (one_in(c, 3)) {
        if (l->length > cut) l->length = cut;
        return;
    }
    put_column(l, column + 7, byte_of(c, "  ?"));
    if (one_in(c, 3)) put_column(l, column + 5, byte_of(c, " -"));
}

/* A few columns blank, or as another line has them: mostly whole fields. */
static void change_field(chance *c, report *r)
{
    line *l = any_line(c, r);
    const line *other = any_line(c, r);
    size_t first = border_column(c, l), last = first + below(c, 10);
    int is_blank = one_in(c, 3);
    for (size_t column = first; column <= last && column <= l->length; column++)
        put_column(l, column, is_blank || column > other->length ? ' ' : other->bytes[column - 1]);
}

/* The report's 162 line, or one that is put into it, with columns for six slots. */
static line *values_line(chance *c, report *r)
{
    static const char LINE[] = "162  W 1.0    D 0.5    L 0.0";
    line *l = 0;
    for (size_t i = 0; i < r->count && !l; i++)
        if (has_code(line_at(r, i), "162")) l = line_at(r, i);
    if (!l) l = insert_line(r, below(c, (uint32_t)r->count + 1), (const uint8_t *)LINE, strlen(LINE), END_CR);
    while (l && l->length < 55) put_column(l, l->length + 1, ' ');
    return l;
}

/* A slot of 162 is blank, or as another one, or says something else. */
static void change_slot(chance *c, report *r)
{
    line *l = values_line(c, r);
    size_t slot = 6 + 9 * below(c, 6), other = 6 + 9 * below(c, 6);
    if (!l) return;
    if (one_in(c, 3)) memset(l->bytes + slot - 1, ' ', 5);
    else if (one_in(c, 2)) memmove(l->bytes + slot - 1, l->bytes + other - 1, 5);
    else l->bytes[slot - 1] = byte_of(c, "WDLAPX"), put_points(l, slot + 1, below(c, 1000), 0);
}

static uint8_t *slot_at(line *l, size_t slot) { return l->bytes + 5 + 9 * slot; }

/* A letter that 162 gives is left out, with the last slot in its place; one that it leaves out is given. Mostly P or X, or the W and D that they go by. The stated points stay. */
static void give_or_leave_out(chance *c, report *r)
{
    line *l = values_line(c, r);
    uint8_t letter = byte_of(c, "WDPXWDPXLA");
    size_t given = 0, at = 6;
    if (!l) return;
    for (; given < 6 && *slot_at(l, given) != ' '; given++)
        if (*slot_at(l, given) == letter) at = given;
    if (at < given) {
        memmove(slot_at(l, at), slot_at(l, given - 1), 5);
        memset(slot_at(l, given - 1), ' ', 5);
    } else if (given < 6) {
        *slot_at(l, given) = letter;
        put_points(l, 7 + 9 * given, 5 * below(c, 8), 0);
    }
}

/* One number of a 250 record, at the edge of what it may be. */
static void change_bound(chance *c, report *r)
{
    static const uint16_t EDGES[] = {0, 0, 1, 19, 20, 21, 999, 9998, 9999};
    trf_acceleration a = {between(c, 1, 999), between(c, 1, 3), between(c, 3, 20), between(c, 1, 50), between(c, 50, 9999)};
    uint32_t *parts[] = {&a.points, &a.first_round, &a.last_round, &a.first_start, &a.last_start};
    line *l = insert_line(r, below(c, (uint32_t)r->count + 1), (const uint8_t *)"", 0, END_CR);
    if (!l) return;
    *parts[below(c, 5)] = EDGES[below(c, COUNT_OF(EDGES))];
    spell_acceleration(c, l, &a);
}

/* All columns after a place move by one. */
static void shift_columns(chance *c, report *r)
{
    line *l = any_line(c, r);
    uint32_t at = below(c, (uint32_t)l->length + 1);
    if (one_in(c, 2) && at < l->length) {
        l->length--;
        memmove(l->bytes + at, l->bytes + at + 1, l->length - at);
        return;
    }
    if (l->length == LINE_ROOM) return;
    memmove(l->bytes + at + 1, l->bytes + at, l->length - at);
    l->bytes[at] = any_byte(c);
    l->length++;
}

static void cut_line(chance *c, report *r)
{
    line *l = any_line(c, r);
    l->length = below(c, (uint32_t)l->length + 1);
}

/* To 511, 512, 513 or more bytes. */
static void lengthen(chance *c, line *l)
{
    size_t to = one_in(c, 5) ? between(c, 513, LINE_ROOM) : between(c, 510, 515);
    uint8_t byte = one_in(c, 2) ? ' ' : draw_text_byte(c);
    while (l->length < to) put_column(l, l->length + 1, byte);
}

static void lengthen_line(chance *c, report *r) { lengthen(c, any_line(c, r)); }

static void put_bad_byte(chance *c, report *r)
{
    line *l = any_line(c, r);
    uint8_t byte = (uint8_t)(one_in(c, 4) ? 127 : one_in(c, 3) ? '\n' : one_in(c, 3) ? 31 : below(c, 32));
    put_column(l, between(c, 1, (uint32_t)l->length + 1), byte);
}

static void change_end(chance *c, report *r) { any_line(c, r)->end = (int)below(c, ENDS); }

/* The last line without its CR, at times with nothing but a few bytes, at times too long as well. */
static void drop_last_end(chance *c, report *r)
{
    static const char *const RESTS[] = {" ", "   ", "###", "142 1", "013", "x"};
    const char *rest = RESTS[below(c, COUNT_OF(RESTS))];
    line *l = one_in(c, 3) ? insert_line(r, r->count, (const uint8_t *)rest, strlen(rest), END_NONE) : line_at(r, r->count - 1);
    if (!l) return;
    l->end = END_NONE;
    if (one_in(c, 6)) lengthen(c, l);
}

/* Codes that are not listed, and listed ones over another line's columns. */
static void change_code(chance *c, report *r)
{
    static const char *const CODES[] = {"013", "082", "172", "352", "362", "240", "260", "000", "002", "## ", "   ", "###", "001", "250", "162", "142", "152", "012", "112", "XXX"};
    line *l = any_line(c, r);
    const char *code = one_in(c, 3) ? TEXT_CODES[below(c, 16)] : CODES[below(c, COUNT_OF(CODES))];
    for (size_t i = 0; i < 3; i++) put_column(l, i + 1, (uint8_t)code[i]);
}

static void repeat_line(chance *c, report *r)
{
    line copy = *any_line(c, r);
    insert_line(r, below(c, (uint32_t)r->count + 1), copy.bytes, copy.length, copy.end);
}

/* A record that stands once stands again. */
static void repeat_record(chance *c, report *r)
{
    static const char *const AGAIN[] = {"142 1", "142 0", "152 W", "152 B", "162  W 1.0", "162  X99.9    P 1.0", "012 Cup", "012", "022", "222 x", "132 1"};
    const char *record = AGAIN[below(c, COUNT_OF(AGAIN))];
    for (int i = 0; i < 2; i++) insert_line(r, below(c, (uint32_t)r->count + 1), (const uint8_t *)record, strlen(record), END_CR);
}

static void lose_line(chance *c, report *r) { remove_line(r, any_place(c, r)); }

/* No 012, or no 001. */
static void lose_records(chance *c, report *r)
{
    const char *code = one_in(c, 2) ? "012" : "001";
    for (size_t i = r->count; i > 0; i--)
        if (has_code(line_at(r, i - 1), code)) remove_line(r, i - 1);
}

static void move_line(chance *c, report *r)
{
    size_t one = any_place(c, r), other = any_place(c, r);
    uint16_t kept = r->order[one];
    r->order[one] = r->order[other];
    r->order[other] = kept;
}

static void add_passed(chance *c, report *r)
{
    static const char *const PASSED[] = {"", " ", "   ", "###", "###x", "### 012", " ###", "##"};
    const char *bytes = PASSED[below(c, COUNT_OF(PASSED))];
    insert_line(r, below(c, (uint32_t)r->count + 1), (const uint8_t *)bytes, strlen(bytes), (int)below(c, 2));
}

static uint32_t count_code(report *r, const char *code)
{
    uint32_t lines = 0;
    for (size_t i = 0; i < r->count; i++) lines += (uint32_t)has_code(line_at(r, i), code);
    return lines;
}

/* Players without a game, up to the 200th or past it. */
static void add_players(chance *c, report *r)
{
    uint32_t wanted = between(c, 199, 203);
    int last_repeats = one_in(c, 3);
    for (uint32_t there = count_code(r, "001"); there < wanted; there++) {
        line *l = insert_line(r, r->count, (const uint8_t *)"001", 3, END_CR);
        if (!l) return;
        put_number(l, 5, 8, 9999 - there + (last_repeats && there + 1 == wanted), 0);
        put_points(l, 81, 0, 0);
        put_number(l, 86, 89, there + 1, 0);
    }
}

/* Records for start numbers that have none, up to the 32nd or past it. */
static void add_accelerations(chance *c, report *r)
{
    uint32_t wanted = between(c, 31, 35);
    for (uint32_t there = count_code(r, "250"); there < wanted; there++) {
        trf_acceleration a = {10, 1, 20, 5000 + there, 5000 + there};
        line *l = insert_line(r, below(c, (uint32_t)r->count + 1), (const uint8_t *)"", 0, END_CR);
        if (!l) return;
        spell_acceleration(c, l, &a);
    }
}

static size_t kept_bytes(report *r)
{
    size_t bytes = 0;
    for (size_t i = 0; i < r->count; i++) {
        const line *l = line_at(r, i);
        size_t length = l->length;
        while (length > 0 && l->bytes[length - 1] == ' ') length--;
        for (size_t code = 0; code < COUNT_OF(TEXT_CODES); code++)
            if (has_code(l, TEXT_CODES[code])) bytes += length + 1;
    }
    return bytes;
}

/* Kept text up to its limit or past it, to the byte. */
static void add_text_lines(chance *c, report *r)
{
    size_t wanted = between(c, TRF_MOST_TEXT - 1, TRF_MOST_TEXT + 2);
    uint8_t bytes[TRF_MOST_LINE];
    for (size_t there = kept_bytes(r); there + 4 <= wanted;) {
        size_t left = wanted - there, length = left <= TRF_MOST_LINE + 1 ? left - 1 : between(c, 100, 500);
        if (length == 4) length = 3;
        length = draw_text_line(c, "112", length, bytes);
        if (!insert_line(r, below(c, (uint32_t)r->count + 1), bytes, length, one_in(c, 2) ? END_CR : END_CRLF)) return;
        there += length + 1;
    }
}

typedef void change(chance *c, report *r);

static change *const CHANGES[] = {
    change_column, change_column, change_column, change_column, change_column, change_column, change_column, change_column,
    shift_columns, shift_columns, cut_line, lengthen_line, lengthen_line, put_bad_byte, put_bad_byte, change_end, change_end, drop_last_end,
    change_entry, change_entry, change_field, change_field, change_field, change_slot, give_or_leave_out, change_bound, change_code, change_code, repeat_line, repeat_line, repeat_record, lose_line, lose_records, move_line, add_passed, add_text_lines, add_accelerations,
};

void damage_report(chance *c, report *r)
{
    if (r->count == 0) {
        add_passed(c, r);
        return;
    }
    if (one_in(c, 80)) add_players(c, r);
    else CHANGES[below(c, COUNT_OF(CHANGES))](c, r);
}

static void change_byte(chance *c, file *f) { if (f->length > 0) f->bytes[below(c, (uint32_t)f->length)] = any_byte(c); }

static void flip_bit(chance *c, file *f) { if (f->length > 0) f->bytes[below(c, (uint32_t)f->length)] ^= (uint8_t)(1u << below(c, 8)); }

static void cut_file(chance *c, file *f) { f->length = below(c, (uint32_t)f->length + 1); }

static void lose_bytes(chance *c, file *f)
{
    uint32_t at = below(c, (uint32_t)f->length + 1), bytes = between(c, 1, 12);
    if (at + bytes > f->length) return;
    memmove(f->bytes + at, f->bytes + at + bytes, f->length - at - bytes);
    f->length -= bytes;
}

static void copy_bytes(chance *c, file *f)
{
    uint32_t from = below(c, (uint32_t)f->length + 1), to = below(c, (uint32_t)f->length + 1), bytes = below(c, 200);
    if (from + bytes > f->length || f->length + bytes > FILE_ROOM) return;
    uint8_t copy[200];
    memcpy(copy, f->bytes + from, bytes);
    memmove(f->bytes + to + bytes, f->bytes + to, f->length - to);
    memcpy(f->bytes + to, copy, bytes);
    f->length += bytes;
}

/* Comments or blank lines up to about the file's limit. */
static void grow_file(chance *c, file *f)
{
    size_t to = one_in(c, 4) ? between(c, TRF_MOST_FILE + 1, FILE_ROOM) : between(c, TRF_MOST_FILE - 1, TRF_MOST_FILE + 2);
    size_t line = one_in(c, 4) ? 1 : between(c, 100, 512);
    uint8_t byte = one_in(c, 2) ? ' ' : '#';
    if (line < 4) byte = ' ';
    for (size_t column = 0; f->length < to; column++) {
        int is_end = column == line || f->length + 1 == to;
        f->bytes[f->length++] = is_end ? '\r' : byte;
        if (is_end) column = (size_t)-1;
    }
}

typedef void byte_change(chance *c, file *f);

static byte_change *const BYTE_CHANGES[] = {change_byte, change_byte, change_byte, flip_bit, cut_file, lose_bytes, copy_bytes};

void damage_file(chance *c, file *f)
{
    if (one_in(c, 60)) grow_file(c, f);
    else BYTE_CHANGES[below(c, COUNT_OF(BYTE_CHANGES))](c, f);
}
