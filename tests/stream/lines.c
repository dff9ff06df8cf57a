#include <string.h>
#include "lines.h"
#include "sds_can.h"

/* ---- a good line, part by part */

/* FIXED is the bytes that are neither seconds nor interface nor data: `(.000000)  000#` */
enum { FIXED = 15, MICROS = 6, INTERFACE_MOST = 15, INTERFACE_LOWEST = 0x21, INTERFACE_HIGHEST = 0x7E };

static void put(struct lines *l, uint32_t byte)
{
    l->areas.line[l->line_len++] = (uint8_t)byte;
}

static void put_decimals(struct lines *l, uint32_t count)
{
    while (count--)
        put(l, '0' + below(l, 10));
}

static uint32_t any_seconds(struct lines *l, uint32_t most)
{
    switch (below(l, 4)) {
    case 0: return 1;
    case 1: return 10;
    case 2: return most - below(l, 8);
    default: return 1 + below(l, most);
    }
}

/* bytes of the grammar itself stand in an interface too, `#` most of all */
static uint32_t any_interface_byte(struct lines *l)
{
    static const char grammar[] = "#(.)R0";
    switch (below(l, 8)) {
    case 0: return (uint8_t)grammar[below(l, sizeof grammar - 1)];
    case 1: return one_in(l, 2) ? INTERFACE_LOWEST : INTERFACE_HIGHEST;
    case 2: return INTERFACE_LOWEST + below(l, INTERFACE_HIGHEST - INTERFACE_LOWEST + 1);
    default: return 'a' + below(l, 26);
    }
}

enum letters { CAPITALS, SMALL, EITHER, LETTERS };

/* the lowest digits of a number, in hex */
static void put_hex(struct lines *l, uint32_t number, uint32_t digits, enum letters letters)
{
    static const char capitals[] = "0123456789ABCDEF", small[] = "0123456789abcdef";
    while (digits--) {
        int capital = letters == EITHER ? one_in(l, 2) : letters == CAPITALS;
        put(l, (uint8_t)(capital ? capitals : small)[number >> 4 * digits & 15]);
    }
}

static void mark(struct lines *l, enum mark part)
{
    l->marks[part] = l->line_len;
}

static void put_front(struct lines *l, uint32_t seconds, uint32_t interface)
{
    put(l, '(');
    put_decimals(l, seconds);
    mark(l, POINT);
    put(l, '.');
    put_decimals(l, MICROS);
    mark(l, TIME_END);
    put(l, ')');
    put(l, ' ');
    mark(l, INTERFACE);
    while (interface--)
        put(l, any_interface_byte(l));
    put(l, ' ');
}

struct frame {
    uint32_t identifier, rtr, dlc, digit; /* the last: whether R has its DLC behind it */
    uint8_t data[SDS_CAN_DATA];
};

static struct frame any_frame(struct lines *l)
{
    struct frame f = {.identifier = below(l, 0x800)};
    if (one_in(l, 8))
        f.identifier |= 0x3F0; /* an address that the codec refuses */
    f.rtr = one_in(l, 3);
    f.dlc = below(l, SDS_CAN_DATA + 1);
    f.digit = f.dlc != 0 || one_in(l, 2);
    fill(l, f.data, sizeof f.data);
    return f;
}

static void put_frame(struct lines *l, const struct frame *f)
{
    enum letters letters = below(l, LETTERS);
    mark(l, IDENTIFIER);
    put_hex(l, f->identifier, 3, letters);
    put(l, '#');
    mark(l, DATA);
    if (f->rtr)
        put(l, 'R');
    if (f->rtr && f->digit)
        put(l, '0' + f->dlc);
    for (uint32_t i = 0; i < f->dlc && !f->rtr; i++)
        put_hex(l, f->data[i], 2, letters);
}

/* a good line of this length, by its seconds; where it is 0, of any length that is imported */
static void put_line(struct lines *l, uint32_t length)
{
    struct frame f = any_frame(l);
    uint32_t interface = 1 + below(l, INTERFACE_MOST), rest = FIXED + interface + (f.rtr ? 1 + f.digit : 2 * f.dlc);
    uint32_t seconds = length ? length - rest : any_seconds(l, SDS_LINE_MOST - rest);
    put_front(l, seconds, interface);
    put_frame(l, &f);
    sds_can_record(l->meant, f.identifier, f.rtr, f.dlc, f.data);
}

/* ---- damage */

static uint32_t least(uint32_t a, uint32_t b)
{
    return a < b ? a : b;
}

/* Puts bytes in the place of others, of which a line that is shorter has fewer; marks behind them move along. */
static void replace(struct lines *l, uint32_t at, uint32_t gone, const char *bytes, uint32_t count)
{
    at = least(at, l->line_len);
    gone = least(gone, l->line_len - at);
    uint8_t *place = l->areas.line + at;
    memmove(place + count, place + gone, l->line_len - at - gone);
    memcpy(place, bytes, count);
    l->line_len += count - gone;
    for (enum mark part = POINT; part < MARKS; part++)
        if (l->marks[part] > at)
            l->marks[part] += count - gone;
}

static void insert(struct lines *l, uint32_t at, char byte)
{
    replace(l, at, 0, &byte, 1);
}

static void remove_byte(struct lines *l, uint32_t at)
{
    replace(l, at, 1, "", 0);
}

static void replace_data(struct lines *l, const char *bytes, uint32_t count)
{
    replace(l, l->marks[DATA], l->line_len, bytes, count);
}

static void append(struct lines *l, const char *bytes)
{
    replace(l, l->line_len, 0, bytes, (uint32_t)strlen(bytes));
}

static char one_of(struct lines *l, const char *bytes)
{
    return bytes[below(l, (uint32_t)strlen(bytes))];
}

static char any_byte(struct lines *l)
{
    return one_in(l, 2) ? (char)below(l, 256) : one_of(l, "() .#Rr0789aAfFgG/:@`-\r\n\t\x7F\x80");
}

static void damage_front(struct lines *l, enum damage damage)
{
    static const char more[] = "can0can0can0can0can0";
    uint32_t interface = l->marks[INTERFACE], length = l->marks[IDENTIFIER] - 1 - interface, over = 16 + below(l, 4);
    switch (damage) {
    case NO_SECONDS: replace(l, 1, l->marks[POINT] - 1, "", 0); break;
    case SIGN: insert(l, 1, one_of(l, "-+ ")); break;
    case FIVE_MICROS: remove_byte(l, l->marks[TIME_END] - 1); break;
    case SEVEN_MICROS: insert(l, l->marks[TIME_END], one_of(l, "0123456789")); break;
    case INTERFACE_OF_0: replace(l, interface, length, "", 0); break;
    default: replace(l, interface, 0, more, length < over ? over - length : 0); break;
    }
}

static void damage_identifier(struct lines *l, enum damage damage)
{
    uint32_t start = l->marks[IDENTIFIER];
    switch (damage) {
    case INTERFACE_LAST: l->line_len = least(l->line_len, start - one_in(l, 2)); break; /* with its space or without */
    case TWO_DIGITS: remove_byte(l, start); break;
    case FOUR_DIGITS: insert(l, start, one_of(l, "0017")); break;
    case EIGHT_DIGITS: replace(l, start, 0, "18DAF", 5); break;
    case OVER_7FF: replace(l, start, 1, (char[]){one_of(l, "89abcdefABCDEF")}, 1); break;
    default: remove_byte(l, l->marks[DATA] - 1); break;
    }
}

static void damage_data(struct lines *l, enum damage damage)
{
    static const char digits[] = "0123456789abcdEF10";
    uint32_t start = least(l->marks[DATA], l->line_len), place = below(l, least(l->line_len - start, 6) + 1), coin = below(l, 2), few = below(l, 9);
    switch (damage) {
    case TWO_HASHES: insert(l, start + place, '#'); break;
    case CAN_FD: replace(l, start, 0, (char[]){'#', digits[few % 4]}, 2); break;
    case ODD_DIGIT: replace_data(l, digits, 2 * few + 1); break;
    case NINE_BYTES: replace_data(l, digits, 18); break;
    case SMALL_R: replace_data(l, (char[]){'r', digits[few]}, 1 + coin); break;
    case R9: replace_data(l, (char[]){'R', one_of(l, "999:A/ R")}, 2); break;
    case R12: replace_data(l, (char[]){'R', digits[few], one_of(l, "0123456789")}, 3); break;
    case DIRECTION_FLAG: append(l, coin ? " R" : " T"); break;
    default: append(l, "\r"); break;
    }
}

/* mostly those beside the limits of an interface's bytes */
static char any_beyond(struct lines *l)
{
    static const char beyond[] = {0, '\t', '\n', '\r', 0x1F, ' ', 0x7F, (char)0x80, (char)0xA1, (char)0xFF};
    return beyond[below(l, sizeof beyond)];
}

static void damage_anywhere(struct lines *l, enum damage damage)
{
    uint32_t interface = l->marks[INTERFACE], identifier = l->marks[IDENTIFIER], in_interface = interface + below(l, identifier - interface);
    uint32_t space = (one_in(l, 2) ? interface : identifier) - 1, place = below(l, l->line_len + 1);
    switch (damage) {
    case INTERFACE_BYTE: replace(l, in_interface, 1, (char[]){any_beyond(l)}, 1); break;
    case SPACE_DOUBLED: insert(l, space, ' '); break;
    case SPACE_REMOVED: remove_byte(l, space); break;
    case CUT_SHORT: l->line_len = place; break;
    case BYTE_REPLACED: replace(l, place, 1, (char[]){any_byte(l)}, 1); break;
    case BYTE_INSERTED: insert(l, place, any_byte(l)); break;
    default: remove_byte(l, place); break;
    }
}

static void damage_once(struct lines *l)
{
    enum damage damage = below(l, DAMAGES);
    l->damage[l->damages++] = damage;
    if (damage < INTERFACE_LAST)
        damage_front(l, damage);
    else if (damage < TWO_HASHES)
        damage_identifier(l, damage);
    else if (damage < INTERFACE_BYTE)
        damage_data(l, damage);
    else
        damage_anywhere(l, damage);
}

/* ---- the stream */

static void put_noise(struct lines *l)
{
    uint32_t length = below(l, SDS_LINE_MOST + 1), any = one_in(l, 2);
    while (length--)
        put(l, any ? below(l, 256) : (uint8_t)any_byte(l));
}

static enum form any_form(struct lines *l)
{
    static const uint8_t seldom[16] = {NOISE, NOISE, EMPTY, WRAPPED, LONGER, LONGER, AT_LIMIT, AT_LIMIT, AT_LIMIT, AT_LIMIT};
    return one_in(l, 4) ? seldom[below(l, sizeof seldom)] : WHOLE_WIDTH;
}

/* a length other than ten */
static uint32_t other_record_length(struct lines *l)
{
    uint32_t length = below(l, LINES_FEW_RECORD_BYTES);
    return one_in(l, 8) ? LINES_RECORD_MOST : length < SDS_RECORD ? length : length + 1;
}

static void put_form(struct lines *l)
{
    switch (l->form) {
    case AT_LIMIT: put_line(l, SDS_LINE_MOST - 1 + below(l, 4)); break;
    case LONGER: put_line(l, SDS_LINE_MOST + 3 + below(l, 64)); break;
    case NOISE: put_noise(l); break;
    case EMPTY: break;
    default: put_line(l, 0); break;
    }
}

static uint32_t any_damages(struct lines *l)
{
    if (l->form == NOISE || l->form == EMPTY)
        return 0;
    if (l->form != WHOLE_WIDTH)
        return one_in(l, 4);
    return one_in(l, 8) ? 2 : below(l, 2);
}

void lines_start(struct lines *l, uint64_t seed)
{
    memset(l, 0, sizeof *l);
    chance_start(&l->chance, seed);
    fill(l, l->areas.line, sizeof l->areas.line);
    fill(l, l->areas.record, sizeof l->areas.record);
}

void lines_next_import(struct lines *l)
{
    fill(l, l->areas.record, LINES_FEW_RECORD_BYTES + LINES_SLACK);
    l->record_len = one_in(l, 16) ? other_record_length(l) : SDS_RECORD;
    l->line_len = 0;
    l->damages = 0;
    l->form = any_form(l);
    put_form(l);
    for (uint32_t left = any_damages(l); left > 0; left--)
        damage_once(l);
    if (l->form == WRAPPED)
        l->line_len += LINES_WRAP;
}

uint32_t lines_expected(const struct lines *l)
{
    if (l->record_len != SDS_RECORD)
        return SDS_LINE_NO_RECORD;
    if (l->line_len > SDS_LINE_MOST)
        return SDS_LINE_TOO_LONG;
    if (l->form == NOISE || l->damages > 1 || (l->damages == 1 && l->damage[0] >= INTERFACE_BYTE))
        return LINES_UNKNOWN;
    if (l->form == EMPTY)
        return SDS_LINE_BAD_FRONT;
    if (l->damages == 0)
        return SDS_LINE_IMPORTED;
    return l->damage[0] < INTERFACE_LAST ? SDS_LINE_BAD_FRONT : l->damage[0] < TWO_HASHES ? SDS_LINE_BAD_IDENTIFIER : SDS_LINE_BAD_DATA;
}

static uint32_t any_line_length(struct lines *l)
{
    switch (below(l, 8)) {
    case 0: return LINES_WRAP + below(l, SDS_LINE_ROOM);
    case 1: return below(l, LINES_FEW_LINE_BYTES + 1);
    case 2: return SDS_LINE_ROOM;
    default: return SDS_LINE_ROOM - 2 + below(l, 5);
    }
}

void lines_next_export(struct lines *l)
{
    uint8_t *record = l->areas.record;
    fill(l, record, LINES_FEW_RECORD_BYTES + LINES_SLACK);
    if (!one_in(l, 4))
        record[1] = (uint8_t)((record[1] & 0xF0) | below(l, SDS_CAN_DATA + 1));
    if (one_in(l, 8))
        record[0] |= 0x7E; /* an address that the codec refuses */
    fill(l, l->areas.line, LINES_FEW_LINE_BYTES + LINES_SLACK);
    l->record_len = one_in(l, 8) ? other_record_length(l) : SDS_RECORD;
    l->line_len = any_line_length(l);
}
