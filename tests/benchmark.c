/* Nanoseconds a call, through the calls for C: one line for each measure of tests/benchmark.gp, in its order, then insertion, the check of logs, open
 * logs, shortening and text, which it has not. The logs are in logs.h, which tests/check_cases.py --header prints, the forms to decide in forms.h, which
 * tests/decision_cases.py --header prints, those to shorten in shortening.h, which tests/shortening_cases.py --header prints. */
#define _POSIX_C_SOURCE 199309L
#include "kalzunbi.h"
#include "forms.h"
#include "logs.h"
#include "shortening.h"

#include <stdio.h>
#include <stdlib.h>
#include <string.h>
#include <time.h>

/* a to l are vectors, m to x scalars */
static uint8_t table[24], assignment[72], form[KALZUNBI_FORM], out[KALZUNBI_FORM];
static uint8_t buffer[KALZUNBI_ASSIGNMENT], work[KALZUNBI_WORK];
static uint8_t written[KALZUNBI_LOG];
static int64_t values[KALZUNBI_VALUES];

static double now(void)
{
    struct timespec t;
    clock_gettime(CLOCK_MONOTONIC, &t);
    return 1e9 * (double)t.tv_sec + (double)t.tv_nsec;
}

static void report(const char *what, int64_t returned, int64_t expected, double since, int count)
{
    if (returned != expected) {
        printf("%s: %lld is returned\n", what, (long long)returned);
        exit(1);
    }
    printf("%-68s %10.0f\n", what, (now() - since) / count);
}

static void measure_reduction(const char *what, const uint8_t *expression, size_t length, int64_t expected, int count)
{
    int64_t returned = 0;
    double since = now();
    for (int i = 0; i < count; i++)
        returned = kalzunbi_reduce(table, 24, expression, length, out, KALZUNBI_FORM);
    report(what, returned, expected, since, count);
}

static void measure_text(const char *what, const char *line, size_t length, int64_t expected, int count)
{
    uint64_t columns[1];
    int64_t returned = 0;
    double since = now();
    for (int i = 0; i < count; i++)
        returned = kalzunbi_read_text(table, 24, (const uint8_t *)"abcdefghijklmnopqrstuvwx", 24, (const uint8_t *)line, length, out, KALZUNBI_FORM, columns, 1);
    report(what, returned, expected, since, count);
}

static void measure_insertion(const char *what, const uint8_t *old, size_t old_length, uint8_t letter, const uint8_t *inserted, size_t inserted_length,
                              int64_t expected, int count)
{
    int64_t returned = 0;
    double since = now();
    for (int i = 0; i < count; i++)
        returned = kalzunbi_insert(table, 24, old, old_length, letter, inserted, inserted_length, out, KALZUNBI_FORM);
    report(what, returned, expected, since, count);
}

static void measure_check(const char *what, const uint8_t *letters, size_t letters_length, const uint8_t *log, size_t log_length, int count)
{
    uint64_t places[3];
    int64_t returned = 0;
    double since = now();
    for (int i = 0; i < count; i++)
        returned = kalzunbi_check(letters, letters_length, log, log_length, places, 3);
    report(what, returned, 0, since, count);
}

static void measure_decision(const char *what, const uint8_t *first, size_t first_length, const uint8_t *second, size_t second_length, int64_t expected,
                             int count)
{
    int64_t returned = 0;
    double since = now();
    for (int i = 0; i < count; i++)
        returned = kalzunbi_decide(decision_table, sizeof decision_table, first, first_length, second, second_length, buffer, sizeof buffer, work, sizeof work);
    report(what, returned, expected, since, count);
}

/* the terms of the last form are held to those expected */
static void measure_shortening(const char *what, const uint8_t *letters, size_t letters_length, const uint8_t *first, size_t first_length,
                               int64_t expected, int count)
{
    uint64_t steps, places[3] = {0, 0, 0};
    int64_t returned = 0;
    double since = now();
    for (int i = 0; i < count; i++)
        returned = kalzunbi_shorten(letters, letters_length, first, first_length, written, sizeof written, &steps, 1);
    double nanoseconds = now() - since;
    returned = returned < 0 ? returned : kalzunbi_check(letters, letters_length, written, (size_t)returned, places, 3);
    report(what, returned < 0 ? returned : written[places[1] + 1], expected, now() - nanoseconds, count);
}

/* a log opened at the first form of the longest one, 48 terms; its first step added; looked at; closed; and the check of the log of that one step */
static void measure_open_log(int count)
{
    static uint8_t state[KALZUNBI_STATE], next[KALZUNBI_STATE], one_step[KALZUNBI_LOG_MAX];
    const size_t first = 770, step = 16;
    int64_t length = 0, added = 0, reached = 0, closed = 0;
    double since = now();
    for (int i = 0; i < count; i++)
        length = kalzunbi_open(longest_table, sizeof longest_table, longest_log, first, state, sizeof state);
    report("opening of a log at 48 terms", length, 781, since, count);
    since = now();
    for (int i = 0; i < count; i++)
        added = kalzunbi_add(state, (size_t)length, longest_log + first + 1, step, next, sizeof next);
    report("a step added to an open log at 48 terms, which leaves 44", added, 717, since, count);
    since = now();
    for (int i = 0; i < count; i++)
        reached = kalzunbi_look(next, (size_t)added, out, sizeof out);
    report("an open log looked at, 44 terms", reached, 706, since, count);
    since = now();
    for (int i = 0; i < count; i++)
        closed = kalzunbi_close(next, (size_t)added, out, (size_t)reached);
    report("an open log closed at 44 terms", closed, 0, since, count);
    memcpy(one_step, longest_log, first + 1 + step);
    one_step[first] = 1;
    memcpy(one_step + first + 1 + step, out, (size_t)reached);
    measure_check("check of the log of that one step", longest_table, sizeof longest_table, one_step, first + 1 + step + (size_t)reached, count);
}

/* the sum of so many letters, from the first on, each added to the sum of those before */
static size_t sum(uint8_t *to, int first, int count)
{
    size_t n = 0;
    for (int i = 1; i < count; i++)
        to[n++] = 3;
    for (int i = 0; i < count; i++) {
        to[n++] = 1;
        to[n++] = (uint8_t)(first + i);
    }
    return n;
}

/* a^b + c^d + e^f + ..., so many */
static size_t sum_of_wedges(uint8_t *to, int count)
{
    size_t n = 0;
    for (int i = 1; i < count; i++)
        to[n++] = 3;
    for (int i = 0; i < count; i++) {
        const uint8_t wedge[5] = {8, 1, (uint8_t)(2 * i), 1, (uint8_t)(2 * i + 1)};
        for (int k = 0; k < 5; k++)
            to[n++] = wedge[k];
    }
    return n;
}

/* 48 terms -35mn(x.i)(def)*v, x being a or l, i from a to f, v from c to j: each has 6 vector letters and 2 scalar letters, and 16 bytes */
static size_t full_form(uint8_t *to, int x)
{
    size_t n = 0;
    to[n++] = 1;
    to[n++] = 48;
    for (int v = 2; v < 10; v++)
        for (int i = 0; i < 6; i++) {
            const uint8_t less = (uint8_t)(x < i ? x : i), more = (uint8_t)(x < i ? i : x);
            const uint8_t term[16] = {0x1F, 255, 255, 255, 221, 2, 12, 13, 1, less, more, 1, 3, 4, 5, (uint8_t)v};
            for (int k = 0; k < 16; k++)
                to[n++] = term[k];
        }
    return n;
}

/* 2d-3e+f as an expression */
#define THREE_TERMS 3, 3, 6, 2, 0, 0, 0, 2, 1, 3, 6, 2, 255, 255, 255, 253, 1, 4, 1, 5

int main(void)
{
    for (int i = 0; i < 24; i++) {
        table[i] = i < 12;
        for (int k = 0; k < 3; k++)
            assignment[3 * i + k] = i < 12 || k == 0 ? (uint8_t)((5 * i + 3 * k) % 13 - 6) : 0;
    }

    size_t length = full_form(form, 0);
    int64_t returned = 0;
    int count = 100000;
    double since = now();
    for (int i = 0; i < count; i++)
        returned = kalzunbi_value(table, 24, form, length, assignment, 72, values, KALZUNBI_VALUES);
    report("value of a form of 48 terms with 8 letters", returned, 0, since, count);

    const uint8_t wedges[8] = {8, 1, 0, 8, 1, 1, 1, 2};
    measure_reduction("reduction of a^(b^c)", wedges, 8, 16, 1000000);

    uint8_t product[64] = {6};
    length = 1;
    length += sum(product + length, 12, 6);
    length += sum(product + length, 0, 8);
    measure_reduction("reduction of 6 scalar letters times 8 vector letters", product, length, 194, 10000);

    product[0] = 8;
    length = 1;
    length += sum_of_wedges(product + length, 4);
    length += sum_of_wedges(product + length, 6);
    measure_reduction("reduction of 4 wedges wedge 6 wedges, 40 terms with a triple", product, length, 322, 10000);

    measure_decision("decision of rule 5's two sides: equal", rule_5_first, sizeof rule_5_first, rule_5_second, sizeof rule_5_second, 0, 100000);
    measure_decision("decision of two forms of 48 terms: equal", equal_first, sizeof equal_first, equal_second, sizeof equal_second, 0, 1000);
    measure_decision("decision of two forms of 48 terms: they differ", other_first, sizeof other_first, other_second, sizeof other_second, 1, 1000);
    measure_decision("decision of a form of 48 terms that is 0: equal", zero_first, sizeof zero_first, zero_second, sizeof zero_second, 0, 1000);
    measure_decision("decision of two vector forms of 48 terms: equal", vectors_first, sizeof vectors_first, vectors_second, sizeof vectors_second, 0, 1000);
    measure_decision("decision of two vector forms of 48 terms: they differ in one term", apart_first, sizeof apart_first, apart_second, sizeof apart_second, 1, 1000);
    measure_decision("decision of a vector form of 48 terms and 0: they differ", far_first, sizeof far_first, far_second, sizeof far_second, 1, 1000);
    measure_decision("decision of a^b and a^c: they differ", wedges_first, sizeof wedges_first, wedges_second, sizeof wedges_second, 1, 100000);

    /* -3k for l, which each term has once */
    const uint8_t one_term[8] = {1, 1, 0x11, 255, 255, 255, 253, 10};
    length = full_form(form, 11);
    measure_insertion("insertion of a form of one term for a letter in a form of 48 terms", form, length, 11, one_term, sizeof one_term, 770, 1000);

    /* 2d-3e+f for l in -2(a.l)(b.l)(c.l), and ((-2(a.p))(b.p))(c.p) with p = 2d-3e+f: 27 terms of 12 bytes */
    const uint8_t three_dots[14] = {0, 1, 5, 255, 255, 255, 254, 3, 0, 11, 1, 11, 2, 11};
    const uint8_t three_terms[16] = {1, 3, 0x11, 0, 0, 0, 2, 3, 0x11, 255, 255, 255, 253, 4, 0x10, 5};
    const uint8_t written_out[77] = {6, 6, 6, 2, 255, 255, 255, 254, 7, 1, 0, THREE_TERMS, 7, 1, 1, THREE_TERMS, 7, 1, 2, THREE_TERMS};
    measure_insertion("insertion of a form of three terms in three dots", three_dots, sizeof three_dots, 11, three_terms, sizeof three_terms, 326, 10000);
    measure_reduction("reduction of the same, written out", written_out, sizeof written_out, 326, 10000);

    measure_check("check of a log of 8 steps, from 19 terms to 6", eight_table, sizeof eight_table, eight_log, sizeof eight_log, 10000);
    measure_check("check of the longest log, 64 steps at 44 to 48 terms", longest_table, sizeof longest_table, longest_log, sizeof longest_log, 1000);

    measure_open_log(10000);

#define SHORTENING(what, name, last, count) measure_shortening(what, name##_table, sizeof name##_table, name##_form, sizeof name##_form, last, count)
    SHORTENING("shortening of a scalar form of 48 terms: no step", none_scalar, 48, 1000);
    SHORTENING("shortening of a vector form of 48 terms: no step", none_vector, 48, 1000);
    SHORTENING("shortening by rule 5, from 48 terms to 8", rule_5, 8, 1000);
    SHORTENING("shortening by rule 1, from 48 terms to 16", rule_1, 16, 1000);
    SHORTENING("shortening of the thesis's form of 24 terms, to 8", thesis_24, 8, 1000);
    SHORTENING("shortening of the thesis's form of 28 terms, to 12", thesis_28, 12, 1000);

#define TEXT(line, expected, count) measure_text("text " line, line, sizeof line - 1, expected, count)
    TEXT("a^(b^c)", 16, 1000000);
    TEXT("(m+n+o+p+q+r)(a+b+c+d+e+f+g+h)", 194, 10000);
    TEXT("(a^b+c^d+e^f+g^h)^(a^b+c^d+e^f+g^h+i^j+k^l)", 322, 10000);

    /* the longest line: 2048 letters with a sign in front of each */
    static char longest[4096];
    for (int i = 0; i < 4096; i++)
        longest[i] = i % 2 ? (char)('a' + i / 2 % 12) : '+';
    measure_text("text of 4,096 bytes, a sum of 12 letters", longest, 4096, 74, 1000);
    return 0;
}
