/* The calls from C: rows of bytes in hexadecimal, and what has to come back. All memory, lent or around what is lent, is compared after each call. */
#include "kalzunbi.h"

#include <inttypes.h>
#include <stdio.h>
#include <string.h>

#define MARGIN 16
#define ROOM 1536

/* a to e are vectors, f and g scalars, with numbers from -6 to 6 */
#define TABLE "01010101010000"
#define ASSIGNED "01fe03fc05fa0200ff06fd01fb0402fa0000030000"
/* a to d are vectors, e to g scalars; and 12 of each */
#define SMALL "01010101000000"
#define WIDE "010101010101010101010101000000000000000000000000"
#define Z8 "0000000000000000"
#define Z64 Z8 Z8 Z8 Z8 Z8 Z8 Z8 Z8
#define Z512 Z64 Z64 Z64 Z64 Z64 Z64 Z64 Z64
/* the products of six scalar letters with the vector letter v */
#define SIX(v) "12010c" v "12010d" v "12010e" v "12010f" v "120110" v "120111" v
#define FORTY_EIGHT "0130" SIX("00") SIX("01") SIX("02") SIX("03") SIX("04") SIX("05") SIX("06") SIX("07")
/* (bcd)*a-(acd)*b+(abd)*c-(abc)*d in 34 bytes, its negation, and 2147483647(abc)*d */
#define FOUR "010418010102030019ffffffff010002030118010001030219ffffffff0100010203"
#define NEGATED "010419ffffffff010102030018010002030119ffffffff0100010302180100010203"
#define LARGE "0101197fffffff0100010203"
/* rule 2 at a b c d with M = 1, in 6 bytes, and with M = -1, in 10 */
#define STEP "020001020300"
#define BACK "020001020301ffffffff"

static int calls, failures;

static void check(int holds, const char *what, int row)
{
    if (!holds) {
        printf("%s %d: not as expected\n", what, row);
        failures++;
    }
}

/* bytes in the middle of memory whose other bytes are known */
struct bytes {
    uint8_t memory[MARGIN + ROOM + MARGIN];
    size_t length;
};

static uint8_t *at(struct bytes *b)
{
    return b->memory + MARGIN;
}

static struct bytes from(const char *hex)
{
    struct bytes b;
    unsigned byte;
    memset(b.memory, 0xA5, sizeof b.memory);
    for (b.length = 0; sscanf(hex + 2 * b.length, "%2x", &byte) == 1; b.length++)
        b.memory[MARGIN + b.length] = (uint8_t)byte;
    return b;
}

/* the bytes of a text */
static struct bytes from_text(const char *text)
{
    struct bytes b = from("");
    b.length = strlen(text);
    memcpy(at(&b), text, b.length);
    return b;
}

static int same(const struct bytes *a, const struct bytes *b)
{
    return a->length == b->length && memcmp(a->memory, b->memory, sizeof a->memory) == 0;
}

/* ---- the value call */

struct value_row {
    const char *table, *form, *assignment;
    size_t lent;
    int64_t returned, value[3];
};

static const struct value_row value_rows[] = {
    /* document 01's example, -2(a.b)*(c^d) */
    {"01010101", "010125fffffffe0100010203", "01fe03fc05fa0200ff06fd01", 3, 0, {-192, -512, -384}},
    {"01010101", "010125fffffffe0100010203", "01fe03fc05fa0200ff06fd01", 8, 0, {-192, -512, -384}},
    /* negative coefficients */
    {TABLE, "000101ffffffff", ASSIGNED, 3, 0, {-1, 0, 0}},
    {TABLE, "00010180000001", ASSIGNED, 4, 0, {-2147483647, 0, 0}},
    {TABLE, "000103fffffffd0105", ASSIGNED, 3, 0, {18, 0, 0}},
    {TABLE, "000103fffffff9020506", ASSIGNED, 3, 0, {126, 0, 0}},
    {TABLE, "000105ffffffff010001", ASSIGNED, 3, 0, {32, 0, 0}},
    {TABLE, "000109fffffffe01000102", ASSIGNED, 3, 0, {6, 0, 0}},
    {TABLE, "010111fffffffb03", ASSIGNED, 3, 0, {-30, 15, -5}},
    {TABLE, "010121ffffffff0001", ASSIGNED, 5, 0, {3, 6, 3}},
    {TABLE, "010125fffffffe0100010203", ASSIGNED, 3, 0, {-192, -512, -384}},
    {TABLE, "01011bfffffff701060101020304", ASSIGNED, 3, 0, {1080, -864, -432}},
    {TABLE, "010215fffffffc0100000121ffffffff0002", ASSIGNED, 3, 0, {222, -287, 332}},
    {TABLE, "0001078000000102050503000301040202", ASSIGNED, 3, 0, {INT64_C(-162349763713200), 0, 0}},
    {TABLE, "010227800000010205060200010203000429fffffff8010001040104", ASSIGNED, 3, 0,
     {INT64_C(217703302202352), INT64_C(231309758590224), INT64_C(81638738325432)}},
    /* empty forms, and a letter */
    {TABLE, "0000", ASSIGNED, 3, 0, {0, 0, 0}},
    {TABLE, "0100", ASSIGNED, 3, 0, {0, 0, 0}},
    {"01", "01011000", "06fa00", 3, 0, {6, -6, 0}},
    /* 1, before all others */
    {"", "0000", "", 3, -1, {0}},
    {"02", "0000", "000000", 3, -1, {0}},
    {"00000000000000000000000000000000000000000000000000", "0000", "", 3, -1, {0}},
    {"0102", "", "07", 0, -1, {0}},
    /* 2, before contents */
    {TABLE, "0000", ASSIGNED, 2, -2, {0}},
    {TABLE, "0000", ASSIGNED, 0, -2, {0}},
    {TABLE, "", "07", 2, -2, {0}},
    /* 11, before letters and the assignment: no bytes, a kind, a count, a coefficient of 0, of 1, beyond, letters out of order, bytes left over */
    {TABLE, "", ASSIGNED, 3, -11, {0}},
    {TABLE, "0200", ASSIGNED, 3, -11, {0}},
    {TABLE, "0001", ASSIGNED, 3, -11, {0}},
    {TABLE, "00010100000000", ASSIGNED, 3, -11, {0}},
    {TABLE, "00010100000001", ASSIGNED, 3, -11, {0}},
    {TABLE, "00010180000000", ASSIGNED, 3, -11, {0}},
    {TABLE, "000104010100", ASSIGNED, 3, -11, {0}},
    {TABLE, "00010401010009", "07", 3, -11, {0}},
    /* 5 and 6, before the assignment */
    {TABLE, "0001020107", ASSIGNED, 3, -5, {0}},
    {TABLE, "0001020107", "07", 3, -5, {0}},
    {TABLE, "0001020100", ASSIGNED, 3, -6, {0}},
    {TABLE, "01011005", "07", 3, -6, {0}},
    /* 12: the length, a number, a scalar letter's second and third */
    {TABLE, "0000", "", 3, -12, {0}},
    {"01", "0000", "0000000000", 3, -12, {0}},
    {"01", "0000", "000700", 3, -12, {0}},
    {"01", "0000", "0000f9", 3, -12, {0}},
    {"00", "0000", "060100", 3, -12, {0}},
    {"00", "0000", "0600fa", 3, -12, {0}},
};

static void value_calls(void)
{
    for (size_t i = 0; i < sizeof value_rows / sizeof *value_rows; i++) {
        const struct value_row *row = &value_rows[i];
        struct bytes table = from(row->table), form = from(row->form), assignment = from(row->assignment);
        struct bytes table_before = table, form_before = form, assignment_before = assignment;
        int64_t values[16], expected[16];
        for (int k = 0; k < 16; k++)
            values[k] = expected[k] = INT64_C(-1234567890123456789) + k;
        if (row->returned == 0)
            memcpy(expected + 4, row->value, sizeof row->value);
        int64_t returned = kalzunbi_value(at(&table), table.length, at(&form), form.length, at(&assignment), assignment.length, values + 4, row->lent);
        calls++;
        check(returned == row->returned, "value: what is returned, row", (int)i);
        check(memcmp(values, expected, sizeof values) == 0, "value: the numbers lent, row", (int)i);
        check(same(&table, &table_before) && same(&form, &form_before) && same(&assignment, &assignment_before), "value: memory, row", (int)i);
    }
}

/* ---- the reduction call */

struct reduce_row {
    const char *table, *expression;
    size_t lent;
    int64_t refused;
    const char *record;
};

static const struct reduce_row reduce_rows[] = {
    /* document 01's lines to try */
    {SMALL, "0801010100", 770, 0, "010121ffffffff0001"},
    {SMALL, "0801000100", 770, 0, "0100"},
    {SMALL, "0801000801010102", 770, 0, "0102140100020115ffffffff01000102"},
    {SMALL, "0303080100080101010208010108010201000801020801000101", 770, 0, "0100"},
    {SMALL, "0407080801000101080101010208010201000607010008010101020701000801010102", 770, 0, "0000"},
    {SMALL, "0303070801010102080100010307080102010008010101030708010001010801020103", 770, 0, "0000"},
    {SMALL, "03030308080101010208010001030808010201000801010103080801000101080102010306020000000206090100010101020103", 770, 0,
     "010418010102030019ffffffff010002030118010001030219ffffffff0100010203"},
    {SMALL, "06020000b504020000b504", 770, 0, "0001017ffea810"},
    {SMALL, "0602ffff4afc020000b504", 770, 0, "000101800157f0"},
    {SMALL, "06020000b505020000b505", 770, -9, ""},
    {WIDE, "060303010c03010d010e03010f03011001110303030100010103010201030303010401050301060107", 770, 0,
     FORTY_EIGHT},
    {WIDE, "060303010c03010d010e0303010f011003011101120303010003010101020303010301040301050106", 770, -7, ""},
    {SMALL, "0606070100010007010001000701000100", 770, 0, "00010403000000000000"},
    {SMALL, "0606060701000100070100010007010001000100", 770, -8, ""},
    /* the printer's example, and the record's */
    {"010101", "0801000801010102", 1000, 0, "0102140100020115ffffffff01000102"},
    {SMALL, "0602fffffffe0607010001010801020103", 1024, 0, "010125fffffffe0100010203"},
    /* constants, a negation, nesting of 16 */
    {SMALL, "0200000000", 770, 0, "0000"},
    {SMALL, "0200000001", 770, 0, "000100"},
    {SMALL, "0506020000000309010201010100", 770, 0, "0001090000000301000102"},
    {SMALL, "0505050505050505050505050505050100", 770, 0, "010111ffffffff00"},
    /* 1, then 2, before contents */
    {"", "0100", 770, -1, ""},
    {"02", "0100", 0, -1, ""},
    {SMALL, "0100", 769, -2, ""},
    {SMALL, "00", 0, -2, ""},
    /* 3 */
    {SMALL, Z512 "00", 770, -3, ""},
    {SMALL, "050505050505050505050505050505050100", 770, -3, ""},
    /* 4: no bytes, a letter or a constant torn, an unknown token, an operand missing, bytes left over */
    {SMALL, "", 770, -4, ""},
    {SMALL, "01", 770, -4, ""},
    {SMALL, "02000000", 770, -4, ""},
    {SMALL, "00", 770, -4, ""},
    {SMALL, "0a", 770, -4, ""},
    {SMALL, "030100", 770, -4, ""},
    {SMALL, "01000100", 770, -4, ""},
    {SMALL, Z512, 770, -4, ""},
    /* 5 */
    {SMALL, "0107", 770, -5, ""},
    {SMALL, "03010001ff", 770, -5, ""},
    /* 6: a sum, a product of vectors, a dot, a wedge, a triple */
    {SMALL, "0301000104", 770, -6, ""},
    {SMALL, "0601000101", 770, -6, ""},
    {SMALL, "0701000104", 770, -6, ""},
    {SMALL, "0801040100", 770, -6, ""},
    {SMALL, "09010001010104", 770, -6, ""},
    /* a pair that vanishes is not tested: ((a·a)(a·a)a)∧((b·b)a), 2147483647a∧2a; with another letter it is; one of two terms that stays; like terms that cancel */
    {SMALL, "08060607010001000701000100010006070101010101" "00", 770, 0, "0100"},
    {SMALL, "0806027fffffff010006020000000201" "00", 770, 0, "0100"},
    {SMALL, "08060607010001000701000100010006070101010101" "02", 770, -8, ""},
    {SMALL, "0806027fffffff010006020000000201" "01", 770, -9, ""},
    {SMALL, "08060701030103080100010106070103010308010001" "02", 770, -8, ""},
    {SMALL, "0806027fffffff03010001010602000000020301000101", 770, -9, ""},
    /* 8: three scalar letters; 9: a constant, a sum; 10 */
    {SMALL, "0606010401050106", 770, -8, ""},
    {SMALL, "0280000000", 770, -9, ""},
    {SMALL, "03027fffffff0200000001", 770, -9, ""},
    {WIDE, "03060303010c03010d010e03010f030110011103030301000101030102010303030104010503010601070100", 770, -10, ""},
};

static void reduce_calls(void)
{
    for (size_t i = 0; i < sizeof reduce_rows / sizeof *reduce_rows; i++) {
        const struct reduce_row *row = &reduce_rows[i];
        struct bytes table = from(row->table), expression = from(row->expression), record = from(row->record), out = from("");
        struct bytes table_before = table, expression_before = expression;
        int64_t returned = kalzunbi_reduce(at(&table), table.length, at(&expression), expression.length, at(&out), row->lent);
        calls++;
        out.length = record.length;
        check(returned == (row->refused < 0 ? row->refused : (int64_t)record.length), "reduce: what is returned, row", (int)i);
        check(same(&out, &record), "reduce: the bytes lent, row", (int)i);
        check(same(&table, &table_before) && same(&expression, &expression_before), "reduce: memory, row", (int)i);
    }
}

/* ---- the reading of a text */

/* names for the letters of SMALL and of WIDE */
#define NAMES "abcdmnp"
#define WIDE_NAMES "abcdefghijklmnopqrstuvwx"
#define DEEP "(((((((((((((((("
#define CLOSED "))))))))))))))))"

struct text_row {
    const char *table, *names, *line;
    size_t lent, columns;
    int64_t refused;
    uint64_t column;
    const char *record;
};

static const struct text_row text_rows[] = {
    /* the lines that were tried as expressions */
    {SMALL, NAMES, "b^a", 770, 1, 0, 0, "010121ffffffff0001"},
    {SMALL, NAMES, "a^a", 770, 1, 0, 0, "0100"},
    {SMALL, NAMES, "a^(b^c)", 770, 1, 0, 0, "0102140100020115ffffffff01000102"},
    {SMALL, NAMES, "a^(b^c) + b^(c^a) + c^(a^b)", 771, 2, 0, 0, "0100"},
    {SMALL, NAMES, "((a^b)^(b^c)).(c^a)-(a.(b^c))(a.(b^c))", 770, 1, 0, 0, "0000"},
    {SMALL, NAMES, "(b^c)^(a^d)+(c^a)^(b^d)+(a^b)^(c^d)+2(abc)d", 1024, 12, 0, 0, FOUR},
    {SMALL, NAMES, "-2a.b c^d", 770, 1, 0, 0, "010125fffffffe0100010203"},
    {WIDE, WIDE_NAMES, "(m+n+o+p+q+r)(a+b+c+d+e+f+g+h)", 770, 1, 0, 0, FORTY_EIGHT},
    /* a minus in front, numbers, blanks, depth, other names */
    {SMALL, NAMES, " - 3 * ( c b a ) ", 770, 1, 0, 0, "0001090000000301000102"},
    {SMALL, NAMES, "46340(46340)", 770, 1, 0, 0, "0001017ffea810"},
    {SMALL, NAMES, "0", 770, 1, 0, 0, "0000"},
    {SMALL, NAMES, DEEP "a" CLOSED, 770, 1, 0, 0, "01011000"},
    {"010001", "zMa", "a^z M", 770, 1, 0, 0, "010123ffffffff01010002"},
    /* 1 of the table, then 1 of the names: too few, too many, no letter, one twice */
    {"", "", "a", 0, 0, -1, 0, ""},
    {"02", "a", "a", 770, 1, -1, 0, ""},
    {SMALL, "abcdmn", "a", 770, 1, -1, 0, ""},
    {SMALL, "abcdmnpq", "a", 770, 1, -1, 0, ""},
    {SMALL, "abcdmn1", "a", 0, 0, -1, 0, ""},
    {SMALL, "abcdmna", "?", 770, 1, -1, 0, ""},
    /* 2, before the text: bytes for the record, a number for the column, both */
    {SMALL, NAMES, "a", 769, 1, -2, 0, ""},
    {SMALL, NAMES, "a", 770, 0, -2, 0, ""},
    {SMALL, NAMES, "?", 0, 0, -2, 0, ""},
    /* 3 */
    {SMALL, NAMES, DEEP "(a)" CLOSED, 770, 1, -3, 16, ""},
    /* 4: nothing, something missing, something that may not stand there */
    {SMALL, NAMES, "", 770, 1, -4, 0, ""},
    {SMALL, NAMES, "a + ", 770, 3, -4, 4, ""},
    {SMALL, NAMES, "(a", 770, 1, -4, 2, ""},
    {SMALL, NAMES, "a^b^c", 770, 1, -4, 3, ""},
    {SMALL, NAMES, "m2", 770, 1, -4, 1, ""},
    {SMALL, NAMES, "a*b)", 770, 1, -4, 3, ""},
    /* 5 */
    {SMALL, NAMES, "a+z", 770, 1, -5, 2, ""},
    {SMALL, NAMES, "(abz)", 770, 1, -5, 3, ""},
    /* 6 to 10 at their operators, operands first, left to right */
    {SMALL, NAMES, "a+m", 770, 1, -6, 1, ""},
    {SMALL, NAMES, "a b", 770, 1, -6, 2, ""},
    {SMALL, NAMES, "(abm)", 770, 1, -6, 0, ""},
    {SMALL, NAMES, "a+(b+(c+m))", 770, 1, -6, 7, ""},
    {WIDE, WIDE_NAMES, "(m+n+o+p+q+r+s)(a+b+c+d+e+f+g)", 770, 1, -7, 15, ""},
    {SMALL, NAMES, "mnp", 770, 1, -8, 2, ""},
    {SMALL, NAMES, "a+2147483648b", 770, 1, -9, 2, ""},
    {SMALL, NAMES, "46341*46341", 770, 1, -9, 5, ""},
    {WIDE, WIDE_NAMES, "(m+n+o+p+q+r)(a+b+c+d+e+f+g+h)+a", 770, 1, -10, 30, ""},
};

/* the numbers lent for columns, or for steps, before a call */
#define NUMBERS 16

static void lend_numbers(uint64_t *numbers)
{
    for (int k = 0; k < NUMBERS; k++)
        numbers[k] = UINT64_C(12345678901234567890) + (uint64_t)k;
}

static void text_calls(void)
{
    for (size_t i = 0; i < sizeof text_rows / sizeof *text_rows; i++) {
        const struct text_row *row = &text_rows[i];
        struct bytes table = from(row->table), names = from_text(row->names), line = from_text(row->line), record = from(row->record), out = from("");
        struct bytes table_before = table, names_before = names, line_before = line;
        uint64_t columns[NUMBERS], expected[NUMBERS];
        lend_numbers(columns);
        lend_numbers(expected);
        if (row->refused < -2)
            expected[4] = row->column;
        int64_t returned = kalzunbi_read_text(at(&table), table.length, at(&names), names.length, at(&line), line.length, at(&out), row->lent, columns + 4,
                                              row->columns);
        calls++;
        out.length = record.length;
        check(returned == (row->refused < 0 ? row->refused : (int64_t)record.length), "text: what is returned, row", (int)i);
        check(same(&out, &record), "text: the bytes lent, row", (int)i);
        check(memcmp(columns, expected, sizeof columns) == 0, "text: the numbers lent, row", (int)i);
        check(same(&table, &table_before) && same(&names, &names_before) && same(&line, &line_before), "text: memory, row", (int)i);
    }
}

/* a line of 4096 bytes has a form, one of 4097 has none */
static void long_texts(void)
{
    const uint8_t table = 1, name = 'a';
    uint8_t line[KALZUNBI_TEXT + 1];
    for (size_t i = 0; i < sizeof line; i++)
        line[i] = i % 2 ? '+' : 'a';
    line[KALZUNBI_TEXT - 1] = ' ';
    struct bytes record = from("0101110000080000"), out = from("");
    uint64_t column = 7;
    int64_t returned = kalzunbi_read_text(&table, 1, &name, 1, line, KALZUNBI_TEXT, at(&out), KALZUNBI_FORM, &column, 1);
    calls++;
    out.length = record.length;
    check(returned == (int64_t)record.length && same(&out, &record) && column == 7, "text: the longest line", KALZUNBI_TEXT);
    returned = kalzunbi_read_text(&table, 1, &name, 1, line, KALZUNBI_TEXT + 1, at(&out), KALZUNBI_FORM, &column, 1);
    calls++;
    check(returned == -KALZUNBI_REFUSED_LONG_OR_DEEP && same(&out, &record) && column == KALZUNBI_TEXT, "text: a line that is too long", KALZUNBI_TEXT + 1);
}

/* ---- the printing of a form */

struct print_row {
    const char *table, *names, *form;
    size_t lent;
    int64_t refused;
    const char *text;
};

static const struct print_row print_rows[] = {
    {SMALL, NAMES, "0102140100020115ffffffff01000102", 1393, 0, "(a.c)*b-(a.b)*c"},
    {SMALL, NAMES, FOUR, 1394, 0, "(bcd)*a-(acd)*b+(abd)*c-(abc)*d"},
    {SMALL, NAMES, "010125fffffffe0100010203", 1536, 0, "-2(a.b)*(c^d)"},
    {SMALL, NAMES, "0000", 1393, 0, "0"},
    {SMALL, NAMES, "0100", 1393, 0, "0"},
    {SMALL, NAMES, "00010180000001", 1393, 0, "-2147483647"},
    /* other names, in the table's order */
    {"010101", "wru", "0102140100020115ffffffff01000102", 1393, 0, "(w.u)*r-(w.r)*u"},
    {"010001", "zMa", "010123ffffffff01010002", 1393, 0, "-M*(z^a)"},
    /* 1 of the table, then 1 of the names */
    {"", "", "0000", 0, -1, ""},
    {"02", "a", "0000", 1393, -1, ""},
    {SMALL, "abcdmn", "0000", 1393, -1, ""},
    {SMALL, "abcdmnpq", "0000", 1393, -1, ""},
    {SMALL, "abcdmn ", "", 0, -1, ""},
    {SMALL, "abcdmnn", "0000", 1393, -1, ""},
    /* 2, before the form */
    {SMALL, NAMES, "0000", 1392, -2, ""},
    {SMALL, NAMES, "", 0, -2, ""},
    /* 11, then 5 and 6 */
    {SMALL, NAMES, "", 1393, -11, ""},
    {SMALL, NAMES, FOUR "00", 1393, -11, ""},
    {SMALL, NAMES, "01011007", 1393, -5, ""},
    {SMALL, NAMES, "01021004" "1007", 1393, -6, ""},
};

static void print_calls(void)
{
    for (size_t i = 0; i < sizeof print_rows / sizeof *print_rows; i++) {
        const struct print_row *row = &print_rows[i];
        struct bytes table = from(row->table), names = from_text(row->names), form = from(row->form), text = from_text(row->text), out = from("");
        struct bytes table_before = table, names_before = names, form_before = form;
        int64_t returned = kalzunbi_print(at(&table), table.length, at(&names), names.length, at(&form), form.length, at(&out), row->lent);
        calls++;
        out.length = text.length;
        check(returned == (row->refused < 0 ? row->refused : (int64_t)text.length), "print: what is returned, row", (int)i);
        check(same(&out, &text), "print: the bytes lent, row", (int)i);
        check(same(&table, &table_before) && same(&names, &names_before) && same(&form, &form_before), "print: memory, row", (int)i);
    }
}

/* ---- the sorting of a triple, on every triple of 24 vector letters */

#define VECTORS "010101010101010101010101010101010101010101010101"

/* an expression is reduced to a record */
static void reduces(const char *expression, const char *record, int number)
{
    struct bytes table = from(VECTORS), tree = from(expression), expected = from(record), out = from("");
    int64_t returned = kalzunbi_reduce(at(&table), table.length, at(&tree), tree.length, at(&out), KALZUNBI_FORM);
    calls++;
    out.length = expected.length;
    check(returned == (int64_t)expected.length, "triple: what is returned, number", number);
    check(same(&out, &expected), "triple: the bytes lent, number", number);
}

/* with p, q, r the letters x, y, z in ascending order, and a minus where an odd number of their pairs descends: (xyz) is (pqr), and rule 1 at x, y, z, a leads
 * from 0 to (pqr)a-(a.r)(p^q)+(a.q)(p^r)-(a.p)(q^r); where two letters are equal, both are 0. An expression has two of the letters in order before they are
 * those of a triple, a step has them as they stand */
static void triple_calls(void)
{
    for (int n = 0; n < 24 * 24 * 24; n++) {
        const int x = n / 576, y = n / 24 % 24, z = n % 24, minus = ((x > y) + (x > z) + (y > z)) % 2;
        const char *one[2] = {"", "ffffffff"};
        char first[16], second[24], record[32] = "0000", log[160], last[128] = "0100";
        int letters[3], count = 0;
        for (int letter = 0; letter < 24; letter++)
            if (letter == x || letter == y || letter == z)
                letters[count++] = letter;
        if (count == 3) {
            const int p = letters[0], q = letters[1], r = letters[2];
            sprintf(record, "0001%02x%s01%02x%02x%02x", 8 + minus, one[minus], p, q, r);
            sprintf(last, "0104%02x%s01%02x%02x%02x00%02x%s0100%02x%02x%02x%02x%s0100%02x%02x%02x%02x%s0100%02x%02x%02x", 24 + minus, one[minus], p, q, r,
                    37 - minus, one[1 - minus], r, p, q, 36 + minus, one[minus], q, p, r, 37 - minus, one[1 - minus], p, q, r);
        }
        sprintf(first, "0901%02x01%02x01%02x", x, y, z);
        sprintf(second, "0701%02x0801%02x01%02x", x, y, z);
        reduces(first, record, n);
        reduces(second, record, n);

        uint64_t places[3];
        sprintf(log, "01000101%02x%02x%02x0000%s", x, y, z, last);
        struct bytes table = from(VECTORS), steps = from(log);
        calls++;
        check(kalzunbi_check(at(&table), table.length, at(&steps), steps.length, places, 3) == 0, "triple: a log of rule 1, number", n);
    }
}

/* ---- insertion */

struct insert_row {
    const char *table, *form;
    uint8_t letter;
    const char *inserted;
    size_t lent;
    int64_t refused;
    const char *record;
};

static const struct insert_row insert_rows[] = {
    /* a letter at each place of a dot, a triple and a wedge, alone, and several times */
    {SMALL, "000104010001", 0, "01021002110000000203", 770, 0, "0002040101020500000002010103"},
    {SMALL, "000104010001", 1, "01021002110000000203", 770, 0, "0002040100020500000002010003"},
    {SMALL, "000104010000", 0, "0102100111ffffffff02", 770, 0, "00030401010105fffffffe01010204010202"},
    {SMALL, "00010801000102", 0, "01011003", 770, 0, "00010801010203"},
    {SMALL, "00010801000102", 1, "01011003", 770, 0, "000109ffffffff01000203"},
    {SMALL, "00010801000102", 2, "010113ffffffff010403", 770, 0, "00010bffffffff010401000103"},
    {SMALL, "0101200001", 0, "0102100211fffffffd03", 770, 0, "010221ffffffff010221000000030103"},
    {SMALL, "0101200001", 1, "0101200203", 770, 0, "0102140100030215ffffffff01000203"},
    {SMALL, "01011300000005010500", 0, "0102100323fffffffe01040102", 770, 0, "0102130000000501050323fffffff60204050102"},
    {SMALL, "01012402000100020003", 0, "010210011002", 770, 0,
     "010824020101010201032402010102020103240201020102010324020102020201032402010101020203240201010202020324020102010202032402010202020203"},
    /* the record's example with c and 2e*d for a; wedges for letters; the velocity b+(c^d) for a in e(a.a) */
    {SMALL, "010125fffffffe0100010203", 0, "010210021300000002010403", 770, 0, "010225fffffffe010102020327fffffffc01040101030203"},
    {SMALL, "00010801000102", 0, "0101200102", 770, 0, "000204020101020205ffffffff0201020102"},
    {SMALL, "00010801000102", 1, "0101200203", 771, 0, "000205ffffffff0200020203040200030202"},
    {SMALL, "0001060104010000", 0, "01021001200203", 1000, 0, "00040601040101010b00000002010401010203060104020202030307ffffffff01040202030203"},
    /* the letter inside the form to insert: it is put in once */
    {SMALL, "000104010000", 0, "010210001001", 770, 0, "000304010000050000000201000104010101"},
    {SMALL, "01011000", 0, "010114020000000000", 770, 0, "010114020000000000"},
    {"01", "01011000", 0, "010111fffffffe00", 770, 0, "010111fffffffe00"},
    /* vanishing and cancelling; the rule's form with a for d */
    {SMALL, "0101200001", 0, "01011001", 770, 0, "0100"},
    {SMALL, "00020401000205ffffffff010102", 0, "01011001", 770, 0, "0000"},
    {SMALL, FOUR, 3, "01011000", 770, 0, "0100"},
    {SMALL, LARGE, 3, "010111ffffffff00", 770, 0, "010119800000010100010200"},
    /* the letter is not in the form, or the form is empty: it stands; an empty form is inserted */
    {SMALL, "01011000", 1, "0101240101020003", 770, 0, "01011000"},
    {SMALL, "000100", 0, "0100", 770, 0, "000100"},
    {WIDE, FORTY_EIGHT, 8, "01011000", 1024, 0, FORTY_EIGHT},
    {SMALL, "0000", 0, "01011001", 770, 0, "0000"},
    {SMALL, "0100", 0, "01011001", 770, 0, "0100"},
    {SMALL, "0100", 0, "0100", 1000, 0, "0100"},
    {SMALL, "00020004010001", 0, "0100", 770, 0, "000100"},
    {SMALL, LARGE, 0, "0100", 770, 0, "0100"},
    /* 48 terms: the last six, or the first six, with another letter; the first six cancel the next */
    {WIDE, FORTY_EIGHT, 7, "01011008", 770, 0, "0130" SIX("00") SIX("01") SIX("02") SIX("03") SIX("04") SIX("05") SIX("06") SIX("08")},
    {WIDE, FORTY_EIGHT, 0, "01011008", 770, 0, "0130" SIX("01") SIX("02") SIX("03") SIX("04") SIX("05") SIX("06") SIX("07") SIX("08")},
    {WIDE, FORTY_EIGHT, 0, "010111ffffffff01", 770, 0, "0124" SIX("02") SIX("03") SIX("04") SIX("05") SIX("06") SIX("07")},
    /* 1, before all others */
    {"", "000104010001", 0, "01011002", 770, -1, ""},
    {"02", "000104010001", 0, "01011002", 770, -1, ""},
    {"00000000000000000000000000000000000000000000000000", "0000", 0, "0100", 770, -1, ""},
    {"0102", "", 255, "", 0, -1, ""},
    /* 2, before contents */
    {SMALL, "000104010001", 0, "01011002", 769, -2, ""},
    {SMALL, "0000", 0, "0100", 0, -2, ""},
    {SMALL, "", 255, "", 769, -2, ""},
    /* 11, before letters: the form, the form to insert, both */
    {SMALL, "", 0, "01011002", 770, -11, ""},
    {SMALL, "000104010001", 0, "", 770, -11, ""},
    {SMALL, "0200", 255, "0001020107", 770, -11, ""},
    {SMALL, "0001020107", 0, "0101100000", 770, -11, ""},
    {SMALL, "00010100000001", 0, "0101110000000100", 770, -11, ""},
    /* 5 and 6 of letters: the form's, then the inserted form's, then the letter, before the kind */
    {SMALL, "0001020107", 0, "01011004", 770, -5, ""},
    {SMALL, "0001020100", 0, "01011007", 770, -6, ""},
    {SMALL, "000104010001", 255, "01011004", 770, -6, ""},
    {SMALL, "000104010001", 4, "01011007", 770, -5, ""},
    {SMALL, "000104010001", 7, "01011002", 770, -5, ""},
    {SMALL, "0000", 255, "0001020104", 770, -5, ""},
    {SMALL, "000104010001", 4, "01011002", 770, -6, ""},
    {SMALL, "000102020404", 4, "01011002", 770, -6, ""},
    {SMALL, "000104010001", 0, "0001020104", 770, -6, ""},
    {SMALL, "0100", 0, "0000", 770, -6, ""},
    {SMALL, "000104010001", 6, "0000", 770, -6, ""},
    /* 7: 49 pairs in a dot, in a product */
    {WIDE, "000104010000", 0, "01071000100110021003100410051006", 770, -7, ""},
    {WIDE, "01011401000100", 0, "01071000100110021003100410051006", 770, -7, ""},
    /* a pair that vanishes is not tested: in (a·b), (c·c)(d·d)(b∧c) for a; in (abc), (d·d)(d·d)b for c; with another letter it is */
    {SMALL, "000104010001", 0, "01012402020203030102", 770, 0, "0000"},
    {SMALL, "00010801000102", 2, "010114020303030301", 770, 0, "0000"},
    {SMALL, "00010801000102", 2, "010114020303030303", 770, -8, ""},
    /* 8: seven vector letters, three scalar ones, also where a letter of the wedge is there again */
    {SMALL, "000104010001", 0, "01012402010102020203", 770, -8, ""},
    {SMALL, "01011202040500", 0, "010112010601", 770, -8, ""},
    {SMALL, "0101200001", 0, "01012402010102020103", 770, -8, ""},
    /* 9: a pair; a sum of two terms, though the third would bring it back, or would be 8; a coefficient before a part that vanishes; and what is within */
    {SMALL, LARGE, 3, "0101110000000200", 770, -9, ""},
    {SMALL, "01011000", 0, "0101117fffffff00", 770, 0, "0101117fffffff00"},
    {SMALL, "0003057fffffff0100000401000105ffffffff010101", 1, "01011000", 770, -9, ""},
    {SMALL, "000304010001057fffffff010101040200010002", 0, "0102100114020202030303", 770, -9, ""},
    {SMALL, "000304010001057ffffffe010101040200010002", 0, "0102100114020202030303", 770, -8, ""},
    {SMALL, "0101257fffffff0100010001", 0, "0101110000000201", 770, -9, ""},
    {SMALL, "0101217fffffff0001", 0, "0101110000000201", 770, 0, "0100"},
    /* 10: 54 terms */
    {WIDE, FORTY_EIGHT, 0, "010210001008", 770, -10, ""},
};

static void insert_calls(void)
{
    for (size_t i = 0; i < sizeof insert_rows / sizeof *insert_rows; i++) {
        const struct insert_row *row = &insert_rows[i];
        struct bytes table = from(row->table), form = from(row->form), inserted = from(row->inserted), record = from(row->record), out = from("");
        struct bytes table_before = table, form_before = form, inserted_before = inserted;
        int64_t returned = kalzunbi_insert(at(&table), table.length, at(&form), form.length, row->letter, at(&inserted), inserted.length, at(&out), row->lent);
        calls++;
        out.length = record.length;
        check(returned == (row->refused < 0 ? row->refused : (int64_t)record.length), "insert: what is returned, row", (int)i);
        check(same(&out, &record), "insert: the bytes lent, row", (int)i);
        check(same(&table, &table_before) && same(&form, &form_before) && same(&inserted, &inserted_before), "insert: memory, row", (int)i);
    }
}

/* ---- the check call */

#define REFUSED(number, step) (-(INT64_C(256) * (number) + (step)))

struct check_row {
    const char *table, *log;
    size_t lent;
    int64_t returned;
    uint64_t places[3];
};

static const struct check_row check_rows[] = {
    /* no steps */
    {SMALL, "0000" "00" "0000", 3, 0, {2, 3, 0}},
    {SMALL, "0100" "00" "0100", 8, 0, {2, 3, 0}},
    {SMALL, FOUR "00" FOUR, 3, 0, {34, 35, 0}},
    /* document 01's line: that form, rule 2, letters a b c d, M = 1: empty */
    {SMALL, FOUR "01" STEP "0100", 3, 0, {34, 41, 1}},
    {"01010101", FOUR "01" STEP "0100", 3, 0, {34, 41, 1}},
    {SMALL, "0100" "01" BACK FOUR, 3, 0, {2, 13, 1}},
    {SMALL, "0100" "02" STEP BACK "0100", 4, 0, {2, 19, 2}},
    {SMALL, FOUR "03" STEP STEP BACK "0100", 3, 0, {34, 57, 3}},
    {SMALL, FOUR "02" STEP STEP NEGATED, 3, 0, {34, 47, 2}},
    /* both sides of rule 2 are equal at a b c a: the form is left as it is */
    {SMALL, LARGE "01" "0200010200" "017fffffff" LARGE, 3, 0, {12, 23, 1}},
    {WIDE, FORTY_EIGHT "01" "020001020000" FORTY_EIGHT, 3, 0, {194, 201, 1}},
    /* 1, before all others */
    {"", "0000" "00" "0000", 3, REFUSED(1, 0), {0}},
    {"02", "0000" "00" "0000", 3, REFUSED(1, 0), {0}},
    {"00000000000000000000000000000000000000000000000000", "0000" "00" "0000", 3, REFUSED(1, 0), {0}},
    {"0102", "", 0, REFUSED(1, 0), {0}},
    /* 2, before contents */
    {SMALL, "0000" "00" "0000", 2, REFUSED(2, 0), {0}},
    {SMALL, "0000" "00" "0000", 0, REFUSED(2, 0), {0}},
    {SMALL, "", 2, REFUSED(2, 0), {0}},
    /* 11: no bytes, the first form, no count, a count, a rule, M, the last form, a byte left over; also before an absent letter */
    {SMALL, "", 3, REFUSED(11, 0), {0}},
    {SMALL, "0200" "00" "0000", 3, REFUSED(11, 0), {0}},
    {SMALL, "0000", 3, REFUSED(11, 0), {0}},
    {SMALL, "0000" "41" "0000", 3, REFUSED(11, 0), {0}},
    {SMALL, "0100" "01" "000001020300" "0100", 3, REFUSED(11, 0), {0}},
    {SMALL, "0100" "01" "060001020300" "0100", 3, REFUSED(11, 0), {0}},
    {SMALL, "0100" "01" "0200010203" "0100000001" "0100", 3, REFUSED(11, 0), {0}},
    {SMALL, "0000" "00" "0001", 3, REFUSED(11, 0), {0}},
    {SMALL, "0000" "00" "0000" "00", 3, REFUSED(11, 0), {0}},
    {SMALL, "01011007" "00" "0100" "00", 3, REFUSED(11, 0), {0}},
    /* 5 and 6 of letters: the first form, a rule's letters, M, the last form; the first in byte order, before any step */
    {SMALL, "01011007" "00" "0100", 3, REFUSED(5, 0), {0}},
    {SMALL, "01011004" "00" "01011007", 3, REFUSED(6, 0), {0}},
    {SMALL, "0100" "01" "020001020700" "0100", 3, REFUSED(5, 1), {0}},
    {SMALL, "0100" "02" STEP "020001020400" "0100", 3, REFUSED(6, 2), {0}},
    {SMALL, "0100" "02" STEP "0200010203" "0201ff" "0100", 3, REFUSED(5, 2), {0}},
    {SMALL, "0100" "01" "0200010203" "020100" "01011007", 3, REFUSED(6, 1), {0}},
    {SMALL, "0000" "01" STEP "0001020107", 3, REFUSED(5, 2), {0}},
    /* 6 of a step: its kind, M with a vector part */
    {SMALL, "0000" "01" STEP "0000", 3, REFUSED(6, 1), {0}},
    {SMALL, "0100" "02" STEP "0200010203" "1000" "0100", 3, REFUSED(6, 2), {0}},
    /* 8: M with a triple; 9: a coefficient; 10: 52 terms */
    {SMALL, "0100" "01" "0200010203" "0801000102" "0100", 3, REFUSED(8, 1), {0}},
    {SMALL, "0100" "03" STEP BACK "0200010203" "0801000102" "0100", 3, REFUSED(8, 3), {0}},
    {SMALL, LARGE "01" STEP "0100", 3, REFUSED(9, 1), {0}},
    {SMALL, LARGE "04" BACK STEP STEP BACK LARGE, 3, REFUSED(9, 3), {0}},
    {WIDE, FORTY_EIGHT "01" STEP "0100", 3, REFUSED(10, 1), {0}},
    {WIDE, FORTY_EIGHT "02" "020001020000" STEP "0100", 3, REFUSED(10, 2), {0}},
    /* 13: another form, the same of another kind */
    {SMALL, FOUR "01" STEP FOUR, 3, REFUSED(13, 2), {0}},
    {SMALL, FOUR "01" STEP "0000", 3, REFUSED(13, 2), {0}},
    {SMALL, FOUR "02" STEP BACK NEGATED, 3, REFUSED(13, 3), {0}},
    {SMALL, "0000" "00" "0100", 5, REFUSED(13, 1), {0}},
};

static void check_calls(void)
{
    for (size_t i = 0; i < sizeof check_rows / sizeof *check_rows; i++) {
        const struct check_row *row = &check_rows[i];
        struct bytes table = from(row->table), log = from(row->log);
        struct bytes table_before = table, log_before = log;
        uint64_t places[NUMBERS], expected[NUMBERS];
        lend_numbers(places);
        lend_numbers(expected);
        if (row->returned == 0)
            memcpy(expected + 4, row->places, sizeof row->places);
        int64_t returned = kalzunbi_check(at(&table), table.length, at(&log), log.length, places + 4, row->lent);
        calls++;
        check(returned == row->returned, "check: what is returned, row", (int)i);
        if (returned < 0)
            check(KALZUNBI_CHECK_NUMBER(returned) <= 13 && REFUSED(KALZUNBI_CHECK_NUMBER(returned), KALZUNBI_CHECK_STEP(returned)) == row->returned,
                  "check: the number and the step, row", (int)i);
        check(memcmp(places, expected, sizeof places) == 0, "check: the numbers lent, row", (int)i);
        check(same(&table, &table_before) && same(&log, &log_before), "check: memory, row", (int)i);
    }
}

/* ---- the decision */

/* six vectors */
#define SIX_VECTORS "010101010101"
/* (abc)(def), and what rule 5 has for it */
#define TRIPLES "00010802000102030405"
#define DOTS                                                                                                                     \
    "0006040300030104020505ffffffff0300030105020405ffffffff030004010302050403000401050203040300050103020405ffffffff03000501040203"
/* (abc)*d, what rule 1 has for it, and that with the second sign turned */
#define TRIPLE "0101180100010203"
#define WEDGES "010324010203000125ffffffff0101030002240100030102"
#define TURNED "0103240102030001240101030002240100030102"

struct decide_row {
    const char *table, *first, *second;
    size_t buffer, work;
    int64_t returned;
    const char *assignment; /* the first under which the forms differ */
};

static const struct decide_row decide_rows[] = {
    /* holds: empty forms, the same form, the sides of rules 5 and 1, rule 2's form and 0, its negation */
    {SMALL, "0000", "0000", 72, 55296, 0, ""},
    {SMALL, "0100", "0100", 72, 55296, 0, ""},
    {WIDE, FORTY_EIGHT, FORTY_EIGHT, 72, 55296, 0, ""},
    {SIX_VECTORS, TRIPLES, DOTS, 72, 55296, 0, ""},
    {SIX_VECTORS, DOTS, TRIPLES, 1000, 55312, 0, ""},
    {SMALL, TRIPLE, WEDGES, 72, 55296, 0, ""},
    {SMALL, FOUR, "0100", 72, 55296, 0, ""},
    {SMALL, FOUR, NEGATED, 73, 55297, 0, ""},
    /* differs: a sign turned, 0 and not 0, a coefficient */
    {SMALL, TRIPLE, TURNED, 72, 55296, 1, "000001000001000100000001000000000000000000"},
    {SMALL, TURNED, TRIPLE, 1000, 55312, 1, "000001000001000100000001000000000000000000"},
    {SIX_VECTORS, TRIPLES, "0000", 72, 55296, 1, "000001000100010000000001000100010000"},
    {"01", "01011000", "0100", 72, 55296, 1, "000001"},
    {"00", "0000", "000100", 72, 55296, 1, "000000"},
    {SMALL, LARGE, "0101117fffffff00", 73, 55297, 1, "000001000000000000000000000000000000000000"},
    {WIDE, FORTY_EIGHT, "0100", 72, 55296, 1, Z8 Z8 "0000000000000001" Z8 Z8 Z8 "0000000100000000" Z8 Z8},
    /* differs: ee and e, which are equal at 0 and 1; s(s-1)(s-4), s = (a.a); z(z-1)(z-2)(z-3)(z-4) at a = (0, 0, 1), b = (0, 0, z) */
    {SMALL, "000102020404", "0001020104", 72, 55296, 1, "000000000000000000000000020000000000000000"},
    {SMALL, "000205000000040100000403000000000000", "000105000000050200000000", 72, 55296, 1, "000003000000000000000000000000000000000000"},
    {SMALL, "00030500000018010001050000002302000101010403000101010101", "000205000000320200000101050000000a03000001010101", 72, 55296, 1,
     "000001000005000000000000000000000000000000"},
    /* a^b, (abc)*b and (abc)*a differ from 0 first in the first component, the second, the third */
    {SMALL, "0101200001", "0100", 72, 55296, 1, "000001000100000000000000000000000000000000"},
    {SMALL, "0101180100010201", "0100", 72, 55296, 1, "000001000100010000000000000000000000000000"},
    {SMALL, "0101180100010200", "0100", 72, 55296, 1, "000001000100010000000000000000000000000000"},
    /* differs in the last of 24 letters: all 72 bytes are the assignment */
    {WIDE, "0001020117", "0001020116", 72, 55296, 1, Z64 "0000000000010000"},
    {"010101010101010101010101010101010101010101010101", "01011017", "01011000", 80, 55296, 1, Z64 "0000000000000001"},
    /* 1, before all others */
    {"", "0000", "0000", 72, 55296, -1, ""},
    {"02", "0000", "0000", 72, 55296, -1, ""},
    {"00000000000000000000000000000000000000000000000000", "0000", "0000", 72, 55296, -1, ""},
    {"0102", "", "0001020107", 0, 0, -1, ""},
    /* 2, before contents: the buffer, the work memory, both */
    {SMALL, "0000", "0000", 71, 55296, -2, ""},
    {SMALL, "0000", "0000", 72, 55295, -2, ""},
    {SMALL, TRIPLE, TURNED, 71, 55296, -2, ""},
    {SMALL, TRIPLE, TURNED, 72, 55295, -2, ""},
    {"01", "01011000", "0100", 3, 16, -2, ""},
    {SMALL, "", "", 0, 0, -2, ""},
    /* 11, before letters: the first form, the second, both */
    {SMALL, "", "0000", 72, 55296, -11, ""},
    {SMALL, "0000", "", 72, 55296, -11, ""},
    {SMALL, "0200", "0001020107", 72, 55296, -11, ""},
    {SMALL, "0001020107", "000000", 72, 55296, -11, ""},
    {SMALL, "0001020100", "00010100000001", 72, 55296, -11, ""},
    {SMALL, FOUR "00", FOUR, 72, 55296, -11, ""},
    /* 5 and 6 of letters: the first form's, then the second's */
    {SMALL, "0001020107", "0000", 72, 55296, -5, ""},
    {SMALL, "0000", "0001020107", 72, 55296, -5, ""},
    {SMALL, "0001020107", "0001020100", 72, 55296, -5, ""},
    {SMALL, "0001020100", "0001020107", 72, 55296, -6, ""},
    {SMALL, "01011004", "0000", 72, 55296, -6, ""},
    {SMALL, "0000", "01011007", 72, 55296, -5, ""},
    {"01010101", TRIPLE, TRIPLES, 72, 55296, -5, ""},
    /* 6: unlike kinds, also of empty forms */
    {SMALL, "0000", "0100", 72, 55296, -6, ""},
    {SMALL, "0100", "0000", 72, 55296, -6, ""},
    {SIX_VECTORS, TRIPLE, TRIPLES, 72, 55296, -6, ""},
};

/* whether the bytes from the first to the end are all so */
static int all(const uint8_t *memory, size_t first, size_t end, uint8_t byte)
{
    for (size_t i = first; i < end; i++)
        if (memory[i] != byte)
            return 0;
    return 1;
}

static uint8_t work_memory[MARGIN + KALZUNBI_WORK + MARGIN + MARGIN];

static void decide_calls(void)
{
    for (size_t i = 0; i < sizeof decide_rows / sizeof *decide_rows; i++) {
        const struct decide_row *row = &decide_rows[i];
        struct bytes table = from(row->table), first = from(row->first), second = from(row->second), buffer = from("");
        struct bytes table_before = table, first_before = first, second_before = second;
        memset(work_memory, 0x5A, sizeof work_memory);
        int64_t returned = kalzunbi_decide(at(&table), table.length, at(&first), first.length, at(&second), second.length, at(&buffer), row->buffer,
                                           work_memory + MARGIN, row->work);
        calls++;
        check(returned == row->returned, "decide: what is returned, row", (int)i);
        struct bytes assignment = from(row->assignment);
        size_t written = assignment.length, used = returned < 0 ? 0 : row->work;
        check(memcmp(at(&buffer), at(&assignment), written) == 0, "decide: the first assignment, row", (int)i);
        check(all(buffer.memory, 0, MARGIN, 0xA5) && all(buffer.memory, MARGIN + written, sizeof buffer.memory, 0xA5), "decide: the bytes lent, row", (int)i);
        check(all(work_memory, 0, MARGIN, 0x5A) && all(work_memory, MARGIN + used, sizeof work_memory, 0x5A), "decide: the work memory, row", (int)i);
        check(same(&table, &table_before) && same(&first, &first_before) && same(&second, &second_before), "decide: memory, row", (int)i);
    }
}

/* ---- shortening */

/* (abd)*(a^c)-(acd)*(a^b), which rule 4 makes one term, and the determinant of the dots of a, b, c, 5 terms, one of them twice */
#define TWO "010229ffffffff01000203000128010001030002"
#define SQUARE "0005040300000101020205ffffffff0300000102010205ffffffff0300010001020205000000020300010002010205ffffffff03000200020101"

struct shorten_row {
    const char *table, *form;
    size_t out, steps;
    int64_t refused;
    int last; /* the terms of the last form */
};

static const struct shorten_row shorten_rows[] = {
    /* document 01's line: that form, rule 2, letters a b c d, M = 1: empty */
    {SMALL, FOUR, 2309, 1, 0, 0},
    {"01010101", FOUR, 2310, 2, 0, 0},
    {SMALL, NEGATED, 3013, 9, 0, 0},
    /* the right sides of rules 1 and 5 become the left sides, by rule 4 two terms one, by rule 5 five terms */
    {SMALL, WEDGES, 2309, 1, 0, 1},
    {SIX_VECTORS, DOTS, 2309, 1, 0, 1},
    {SMALL, TWO, 2309, 1, 0, 1},
    {SMALL, SQUARE, 2309, 1, 0, 1},
    /* with a sign turned, rule 1 takes two of the terms out */
    {SMALL, TURNED, 2309, 1, 0, 2},
    /* nothing to shorten: empty forms, one term, a full form */
    {SMALL, "0000", 2309, 1, 0, 0},
    {SMALL, "0100", 2309, 1, 0, 0},
    {SMALL, TRIPLE, 2309, 1, 0, 1},
    {SMALL, LARGE, 2400, 1, 0, 1},
    {SIX_VECTORS, TRIPLES, 2309, 1, 0, 1},
    {WIDE, FORTY_EIGHT, 2309, 1, 0, 48},
    /* 1, before all others */
    {"", "0000", 2309, 1, -1, 0},
    {"02", "0000", 2309, 1, -1, 0},
    {"00000000000000000000000000000000000000000000000000", "0000", 2309, 1, -1, 0},
    {"0102", "", 0, 0, -1, 0},
    /* 2, before contents: the bytes for the log, the number for the steps, both */
    {SMALL, FOUR, 2308, 1, -2, 0},
    {SMALL, "0000", 2308, 1, -2, 0},
    {SMALL, FOUR, 2309, 0, -2, 0},
    {SMALL, "", 0, 0, -2, 0},
    {SMALL, "01011007", 5, 1, -2, 0},
    /* 11, before letters */
    {SMALL, "", 2309, 1, -11, 0},
    {SMALL, "0200", 2309, 1, -11, 0},
    {SMALL, "00010100000001", 2309, 1, -11, 0},
    {SMALL, FOUR "00", 2309, 1, -11, 0},
    {SMALL, "01021004" "1007" "00", 2309, 1, -11, 0},
    /* 5 and 6 of letters, the first in byte order */
    {SMALL, "01011007", 2309, 1, -5, 0},
    {SMALL, "01021003" "1004", 2309, 1, -6, 0},
    {SMALL, "01021004" "1007", 2309, 1, -6, 0},
    {"010101", FOUR, 2309, 1, -5, 0},
};

static uint8_t log_memory[MARGIN + KALZUNBI_LOG_MAX + MARGIN];

/* The log of so many bytes begins with the form, is accepted with the steps reported, no more than the terms it saves, ends in a form of so many terms,
 * and the decision says of its ends that they are equal. */
static void check_written(struct bytes *table, struct bytes *form, const uint8_t *log, size_t length, uint64_t steps, int last_terms, int row)
{
    uint64_t places[3];
    if (kalzunbi_check(at(table), table->length, log, length, places, 3) != 0) {
        check(0, "shorten: the check of the log, row", row);
        return;
    }
    const uint8_t *last = log + places[1];
    struct bytes buffer = from("");
    check(places[0] == form->length && memcmp(log, at(form), form->length) == 0, "shorten: the first form, row", row);
    check(places[2] == steps && steps + last[1] <= log[1], "shorten: the steps, row", row);
    check(last[1] == last_terms, "shorten: the last form, row", row);
    check(kalzunbi_decide(at(table), table->length, log, places[0], last, length - places[1], at(&buffer), KALZUNBI_ASSIGNMENT, work_memory, KALZUNBI_WORK) == 0,
          "shorten: the decision on both forms, row", row);
}

static void shorten_calls(void)
{
    for (size_t i = 0; i < sizeof shorten_rows / sizeof *shorten_rows; i++) {
        const struct shorten_row *row = &shorten_rows[i];
        struct bytes table = from(row->table), form = from(row->form);
        struct bytes table_before = table, form_before = form;
        uint64_t steps[NUMBERS], expected[NUMBERS];
        lend_numbers(steps);
        lend_numbers(expected);
        memset(log_memory, 0x5A, sizeof log_memory);
        int64_t returned = kalzunbi_shorten(at(&table), table.length, at(&form), form.length, log_memory + MARGIN, row->out, steps + 4, row->steps);
        calls++;
        size_t written = returned < 0 ? 0 : (size_t)returned;
        check(row->refused ? returned == row->refused : returned > 0 && written <= row->out, "shorten: what is returned, row", (int)i);
        check(all(log_memory, 0, MARGIN, 0x5A) && all(log_memory, MARGIN + written, sizeof log_memory, 0x5A), "shorten: the bytes lent, row", (int)i);
        check(same(&table, &table_before) && same(&form, &form_before), "shorten: memory, row", (int)i);
        if (returned > 0) {
            check_written(&table, &form, log_memory + MARGIN, written, steps[4], row->last, (int)i);
            expected[4] = steps[4];
        }
        check(memcmp(steps, expected, sizeof steps) == 0, "shorten: the numbers lent, row", (int)i);
    }
}

/* ---- the audit */

struct audit_row {
    const char *table, *form;
    size_t out, buffer, work, steps;
    int64_t refused;
    int last; /* the terms of the last form */
};

static const struct audit_row audit_rows[] = {
    {SMALL, FOUR, 2309, 72, 55296, 1, 0, 0},
    {SMALL, NEGATED, 3013, 100, 55312, 9, 0, 0},
    {SMALL, WEDGES, 2309, 72, 55296, 1, 0, 1},
    {SIX_VECTORS, DOTS, 2309, 72, 55296, 1, 0, 1},
    {SMALL, TURNED, 2309, 72, 55296, 1, 0, 2},
    {SMALL, "0000", 2309, 72, 55296, 1, 0, 0},
    {WIDE, FORTY_EIGHT, 2309, 72, 55296, 1, 0, 48},
    /* 1, before all others */
    {"", "0000", 2309, 72, 55296, 1, -1, 0},
    {"0102", "", 0, 0, 0, 0, -1, 0},
    /* 2, before contents: the bytes for the log, the buffer, the work memory, the number for the steps, all */
    {SMALL, FOUR, 2308, 72, 55296, 1, -2, 0},
    {SMALL, FOUR, 2309, 71, 55296, 1, -2, 0},
    {SMALL, FOUR, 2309, 72, 55295, 1, -2, 0},
    {SMALL, FOUR, 2309, 72, 55296, 0, -2, 0},
    {SMALL, "", 0, 0, 0, 0, -2, 0},
    /* 11, then 5 and 6 */
    {SMALL, "", 2309, 72, 55296, 1, -11, 0},
    {SMALL, FOUR "00", 2309, 72, 55296, 1, -11, 0},
    {SMALL, "01011007", 2309, 72, 55296, 1, -5, 0},
    {SMALL, "01021004" "1007", 2309, 72, 55296, 1, -6, 0},
};

static void audit_calls(void)
{
    for (size_t i = 0; i < sizeof audit_rows / sizeof *audit_rows; i++) {
        const struct audit_row *row = &audit_rows[i];
        struct bytes table = from(row->table), form = from(row->form), buffer = from("");
        struct bytes table_before = table, form_before = form, buffer_before = buffer;
        uint64_t steps[NUMBERS], expected[NUMBERS];
        lend_numbers(steps);
        lend_numbers(expected);
        memset(log_memory, 0x5A, sizeof log_memory);
        memset(work_memory, 0x5A, sizeof work_memory);
        int64_t returned = kalzunbi_audit(at(&table), table.length, at(&form), form.length, log_memory + MARGIN, row->out, at(&buffer), row->buffer,
                                          work_memory + MARGIN, row->work, steps + 4, row->steps);
        calls++;
        size_t written = returned < 0 ? 0 : (size_t)returned, used = returned < 0 ? 0 : row->work;
        check(row->refused ? returned == row->refused : returned > 0 && written <= row->out, "audit: what is returned, row", (int)i);
        check(all(log_memory, 0, MARGIN, 0x5A) && all(log_memory, MARGIN + written, sizeof log_memory, 0x5A), "audit: the bytes lent, row", (int)i);
        check(all(work_memory, 0, MARGIN, 0x5A) && all(work_memory, MARGIN + used, sizeof work_memory, 0x5A), "audit: the work memory, row", (int)i);
        check(same(&table, &table_before) && same(&form, &form_before) && same(&buffer, &buffer_before), "audit: memory, row", (int)i);
        if (returned > 0) {
            check_written(&table, &form, log_memory + MARGIN, written, steps[4], row->last, (int)i);
            expected[4] = steps[4];
        }
        check(memcmp(steps, expected, sizeof steps) == 0, "audit: the numbers lent, row", (int)i);
    }
}

/* ---- a log that stays open */

/* four vectors and FOUR, or the empty form of vectors, with a number of steps taken; a table of one vector and its letter */
#define STATE(count) "0401010101" count FOUR
#define EMPTY(count) "0401010101" count "0100"
#define ONE "01010001011000"
/* 24 vectors, and the form of 48 terms with each of them and 24 wedges */
#define TWENTY_FOUR "010101010101010101010101010101010101010101010101"
#define FULL \
    "01301000100110021003100410051006100710081009100a100b100c100d100e100f1010101110121013101410151016101720000120000220000320" \
    "000420000520000620000720000820000920000a20000b20000c20000d20000e20000f20001020001120001220001320001420001520001620001720" \
    "0102"

enum open_call { OPEN, ADD, LOOK, CLOSE };

struct open_row {
    enum open_call call;
    const char *state, *given;
    size_t lent;
    int64_t refused;
    const char *written;
};

static const struct open_row open_rows[] = {
    /* opening: a table and a form in place of a state */
    {OPEN, "01010101", FOUR, 796, 0, STATE("00")},
    {OPEN, "01", "01011000", 1000, 0, ONE},
    {OPEN, "00", "0000", 796, 0, "0100000000"},
    {OPEN, "", "0000", 0, -1, ""},
    {OPEN, "02", "", 796, -1, ""},
    {OPEN, "01", "01011000", 795, -2, ""},
    {OPEN, "01", "", 0, -2, ""},
    {OPEN, "01", "", 796, -11, ""},
    {OPEN, "01", "0101100000", 796, -11, ""},
    {OPEN, "01", "01011001", 796, -5, ""},
    {OPEN, "00", "01011000", 796, -6, ""},
    /* adding */
    {ADD, STATE("00"), STEP, 796, 0, EMPTY("01")},
    {ADD, EMPTY("01"), BACK, 800, 0, STATE("02")},
    {ADD, STATE("3f"), STEP, 796, 0, EMPTY("40")},
    /* the state before all else, then 2, then 14 before anything in the step */
    {ADD, "", STEP, 0, -11, ""},
    {ADD, "00", STEP, 0, -11, ""},
    {ADD, "0401010101", STEP, 796, -11, ""},
    {ADD, "0401010102" "00" FOUR, STEP, 796, -11, ""},
    {ADD, STATE("41"), STEP, 796, -11, ""},
    {ADD, STATE("00") "00", STEP, 796, -11, ""},
    {ADD, "03010101" "00" FOUR, STEP, 796, -11, ""},
    {ADD, "0400010101" "00" FOUR, STEP, 796, -11, ""},
    {ADD, "00000100", STEP, 796, -11, ""},
    {ADD, STATE("40"), "", 795, -2, ""},
    {ADD, STATE("40"), STEP, 796, -14, ""},
    {ADD, STATE("40"), "", 796, -14, ""},
    /* 11 of the step: none, a rule that there is not, cut, a byte left over; 5, 6 of its letters; 6, 8, 9, 10 at the form */
    {ADD, STATE("00"), "", 796, -11, ""},
    {ADD, STATE("00"), "060001020300", 796, -11, ""},
    {ADD, STATE("00"), "0200010203", 796, -11, ""},
    {ADD, STATE("00"), STEP "00", 796, -11, ""},
    {ADD, STATE("00"), "020001020400", 796, -5, ""},
    {ADD, "050101010100" "00" FOUR, "020001020400", 796, -6, ""},
    {ADD, STATE("00"), "03000102030000", 796, -6, ""},
    {ADD, STATE("00"), "0200010203080100" "0102", 796, -8, ""},
    {ADD, "0401010101" "00" LARGE, "020001020301" "00000002", 796, -9, ""},
    {ADD, "18" TWENTY_FOUR "00" FULL, STEP, 796, -10, ""},
    /* looking */
    {LOOK, STATE("07"), "", 770, 0, FOUR},
    {LOOK, EMPTY("40"), "", 900, 0, "0100"},
    {LOOK, "18" TWENTY_FOUR "00" FULL, "", 770, 0, FULL},
    {LOOK, STATE("41"), "", 0, -11, ""},
    {LOOK, STATE("07"), "", 769, -2, ""},
    /* closing: with the form reached; with others, of the same value, of the other kind; 11, 5, 6 */
    {CLOSE, STATE("07"), FOUR, 0, 0, ""},
    {CLOSE, EMPTY("00"), "0100", 0, 0, ""},
    {CLOSE, STATE("07"), "0100", 0, -13, ""},
    {CLOSE, EMPTY("07"), FOUR, 0, -13, ""},
    {CLOSE, EMPTY("07"), "0000", 0, -13, ""},
    {CLOSE, STATE("41"), FOUR, 0, -11, ""},
    {CLOSE, STATE("07"), "01", 0, -11, ""},
    {CLOSE, STATE("07"), "01011004", 0, -5, ""},
    {CLOSE, "0401010100" "07" "0100", "01011003", 0, -6, ""},
};

static int64_t open_log_call(const struct open_row *row, struct bytes *state, struct bytes *given, struct bytes *out)
{
    switch (row->call) {
    case OPEN:
        return kalzunbi_open(at(state), state->length, at(given), given->length, at(out), row->lent);
    case ADD:
        return kalzunbi_add(at(state), state->length, at(given), given->length, at(out), row->lent);
    case LOOK:
        return kalzunbi_look(at(state), state->length, at(out), row->lent);
    default:
        return kalzunbi_close(at(state), state->length, at(given), given->length);
    }
}

static void open_calls(void)
{
    for (size_t i = 0; i < sizeof open_rows / sizeof *open_rows; i++) {
        const struct open_row *row = &open_rows[i];
        struct bytes state = from(row->state), given = from(row->given), written = from(row->written), out = from("");
        struct bytes state_before = state, given_before = given;
        int64_t returned = open_log_call(row, &state, &given, &out);
        calls++;
        out.length = written.length;
        check(returned == (row->refused < 0 ? row->refused : (int64_t)written.length), "open log: what is returned, row", (int)i);
        check(same(&out, &written), "open log: the bytes lent, row", (int)i);
        check(same(&state, &state_before) && same(&given, &given_before), "open log: memory, row", (int)i);
    }
}

struct decide_open_row {
    const char *state, *form;
    size_t buffer, work;
    int64_t returned;
    const char *assignment;
};

static const struct decide_open_row decide_open_rows[] = {
    {STATE("05"), "0100", KALZUNBI_ASSIGNMENT, KALZUNBI_WORK, 0, ""},
    {EMPTY("40"), FOUR, 100, KALZUNBI_WORK + 1, 0, ""},
    {ONE, "0100", KALZUNBI_ASSIGNMENT, KALZUNBI_WORK, 1, "000001"},
    {"02010100" "01011000", "01011001", KALZUNBI_ASSIGNMENT, KALZUNBI_WORK, 1, "000000000001"},
    {STATE("41"), "", 0, 0, -11, ""},
    {STATE("05"), "0100", KALZUNBI_ASSIGNMENT - 1, KALZUNBI_WORK, -2, ""},
    {STATE("05"), "", KALZUNBI_ASSIGNMENT, KALZUNBI_WORK - 1, -2, ""},
    {STATE("05"), "", KALZUNBI_ASSIGNMENT, KALZUNBI_WORK, -11, ""},
    {STATE("05"), "01011004", KALZUNBI_ASSIGNMENT, KALZUNBI_WORK, -5, ""},
    {"0401010100" "05" "0100", "01011003", KALZUNBI_ASSIGNMENT, KALZUNBI_WORK, -6, ""},
    {EMPTY("05"), "0000", KALZUNBI_ASSIGNMENT, KALZUNBI_WORK, -6, ""},
};

static void decide_open_calls(void)
{
    for (size_t i = 0; i < sizeof decide_open_rows / sizeof *decide_open_rows; i++) {
        const struct decide_open_row *row = &decide_open_rows[i];
        struct bytes state = from(row->state), form = from(row->form), buffer = from(""), assignment = from(row->assignment);
        struct bytes state_before = state, form_before = form;
        memset(work_memory, 0x5A, sizeof work_memory);
        int64_t returned = kalzunbi_decide_open(at(&state), state.length, at(&form), form.length, at(&buffer), row->buffer, work_memory + MARGIN, row->work);
        calls++;
        buffer.length = assignment.length;
        size_t used = returned < 0 ? 0 : row->work;
        check(returned == row->returned, "decide open: what is returned, row", (int)i);
        check(same(&buffer, &assignment), "decide open: the buffer, row", (int)i);
        check(all(work_memory, 0, MARGIN, 0x5A) && all(work_memory, MARGIN + used, sizeof work_memory, 0x5A), "decide open: the work memory, row", (int)i);
        check(same(&state, &state_before) && same(&form, &form_before), "decide open: memory, row", (int)i);
    }
}

/* 64 steps there and back, each with the state that the one before gave; a 65th; closing; and the check call on the whole log */
static void open_list(void)
{
    struct bytes table = from("01010101"), four = from(FOUR), steps[2] = {from(STEP), from(BACK)}, log = four;
    uint8_t states[2][KALZUNBI_STATE];
    uint64_t places[3];
    int64_t length = kalzunbi_open(at(&table), table.length, at(&four), four.length, states[0], KALZUNBI_STATE);
    at(&log)[log.length++] = 64;
    for (int k = 0; k < 64; k++) {
        const struct bytes *step = &steps[k % 2];
        memcpy(at(&log) + log.length, step->memory + MARGIN, step->length);
        log.length += step->length;
        check(kalzunbi_add(states[k % 2], (size_t)length, at(&steps[1]), 5, states[1 - k % 2], KALZUNBI_STATE) == -KALZUNBI_REFUSED_SHAPE,
              "open list: a torn step, number", k);
        length = kalzunbi_add(states[k % 2], (size_t)length, step->memory + MARGIN, step->length, states[1 - k % 2], KALZUNBI_STATE);
        check(length == (k % 2 ? 40 : 8), "open list: step", k + 1);
        calls += 2;
    }
    memcpy(at(&log) + log.length, at(&four), four.length);
    log.length += four.length;
    check(kalzunbi_add(states[0], (size_t)length, at(&steps[0]), steps[0].length, states[1], KALZUNBI_STATE) == -KALZUNBI_REFUSED_MANY_STEPS, "open list: step", 65);
    check(kalzunbi_close(states[0], (size_t)length, at(&four), 2) == -KALZUNBI_REFUSED_SHAPE, "open list: closed with", 2);
    check(kalzunbi_close(states[0], (size_t)length, at(&four), four.length) == 0, "open list: closed with", (int)four.length);
    check(kalzunbi_check(at(&table), table.length, at(&log), log.length, places, 3) == 0 && places[2] == 64, "open list: the whole log", 64);
    calls += 5;
}

/* ---- the names */

static const int tokens[] = {
    KALZUNBI_LETTER, KALZUNBI_CONSTANT, KALZUNBI_SUM, KALZUNBI_DIFFERENCE, KALZUNBI_NEGATION, KALZUNBI_TIMES, KALZUNBI_DOT, KALZUNBI_WEDGE, KALZUNBI_TRIPLE,
};
static const int refusals[] = {
    KALZUNBI_REFUSED_TABLE, KALZUNBI_REFUSED_MEMORY, KALZUNBI_REFUSED_LONG_OR_DEEP, KALZUNBI_REFUSED_TORN, KALZUNBI_REFUSED_ABSENT_LETTER,
    KALZUNBI_REFUSED_KIND, KALZUNBI_REFUSED_MANY_PAIRS, KALZUNBI_REFUSED_MANY_LETTERS, KALZUNBI_REFUSED_COEFFICIENT, KALZUNBI_REFUSED_MANY_TERMS,
    KALZUNBI_REFUSED_SHAPE, KALZUNBI_REFUSED_ASSIGNMENT, KALZUNBI_REFUSED_LAST_FORM, KALZUNBI_REFUSED_MANY_STEPS,
};

/* each name is its place from 1 in the order of documents 01 and 02 */
static void names(void)
{
    for (int i = 0; i < 9; i++)
        check(tokens[i] == i + 1, "the name of the token", i + 1);
    for (int i = 0; i < 14; i++)
        check(refusals[i] == i + 1, "the name of the refusal", i + 1);
}

int main(void)
{
    names();
    value_calls();
    reduce_calls();
    text_calls();
    long_texts();
    print_calls();
    triple_calls();
    insert_calls();
    check_calls();
    decide_calls();
    shorten_calls();
    audit_calls();
    open_calls();
    decide_open_calls();
    open_list();
    printf("%d calls, %d differences\n", calls, failures);
    return failures != 0;
}
