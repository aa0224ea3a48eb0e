/* Kalzunbi for C: vector algebra in letters. C99 or C++, x86-64 Linux; link libexports.a (rt staticlib exports), which needs memcpy and memset of the C
 * library and nothing else.
 *
 * A call answers with one signed number: 0 or more where it gives something, minus the number of the refusal otherwise; the check call tells the step too.
 * The numbers stand below with their names. docs/FORMAT.md explains expressions, forms and logs byte by byte, and the text of a formula.
 *
 * What the caller owes:
 * - A pointer and the length behind it belong together: so many elements (not bytes) from there on are one object, readable, and writable where the
 *   pointer is not to const. No pointer is NULL, one with the length 0 neither. Any length may be passed.
 * - Memory that a call writes does not overlap any other memory of that call. Memory that it only reads may.
 * - Bytes need no alignment; an int64_t has its own, 8.
 * - Memory is lent for the time of the call. Nothing is kept: there is no heap and no file, and the state of a log that stays open is bytes that the caller
 *   holds. So threads may call at the same time as long as none writes what another reads.
 * - The calling thread has 32 kB of its stack left for a value, a decision or a printing, 64 kB for a check, an open log, an insertion, a shortening or an
 *   audit, 128 kB for a reduction, 256 kB for the reading of a text.
 *
 * An example, a program as it stands. tests/c_calls.sh compiles and runs it.
 *
 *     #include "kalzunbi.h"
 *
 *     #include <inttypes.h>
 *     #include <stdio.h>
 *     #include <string.h>
 *
 *     int main(void)
 *     {
 *         const uint8_t table[3] = {1, 1, 1};  // three vectors a, b, c
 *         const uint8_t expression[] = {
 *             KALZUNBI_WEDGE, KALZUNBI_LETTER, 0, KALZUNBI_WEDGE, KALZUNBI_LETTER, 1, KALZUNBI_LETTER, 2,  // a^(b^c)
 *         };
 *         uint8_t form[KALZUNBI_FORM];
 *         int64_t length = kalzunbi_reduce(table, sizeof table, expression, sizeof expression, form, sizeof form);
 *         if (length < 0) {
 *             printf("refused %" PRId64 "\n", -length);
 *             return 1;
 *         }
 *         printf("a form of %" PRId64 " bytes\n", length);  // (a.c)*b-(a.b)*c
 *
 *         const int8_t numbers[9] = {1, 0, 0, 0, 1, 0, 1, 1, -6};  // a = (1, 0, 0), b = (0, 1, 0), c = (1, 1, -6)
 *         uint8_t assignment[sizeof numbers];
 *         int64_t values[KALZUNBI_VALUES];
 *         memcpy(assignment, numbers, sizeof numbers);
 *         if (kalzunbi_value(table, sizeof table, form, (size_t)length, assignment, sizeof assignment, values, KALZUNBI_VALUES) == 0)
 *             printf("its value is %" PRId64 ", %" PRId64 ", %" PRId64 "\n", values[0], values[1], values[2]);
 *
 *         uint8_t log[KALZUNBI_LOG_MAX];  // this form, no steps, and the empty form of vectors
 *         uint64_t places[3];
 *         memcpy(log, form, (size_t)length);
 *         memcpy(log + length, "\x00\x01\x00", 3);
 *         int64_t checked = kalzunbi_check(table, sizeof table, log, (size_t)length + 3, places, 3);
 *         if (checked < 0)
 *             printf("refused %" PRId64 " at step %" PRId64 "\n", KALZUNBI_CHECK_NUMBER(checked), KALZUNBI_CHECK_STEP(checked));
 *         return 0;
 *     }
 *
 * It prints:
 *
 *     a form of 16 bytes
 *     its value is 0, 1, 0
 *     refused 13 at step 1
 */
#ifndef KALZUNBI_H
#define KALZUNBI_H

#include <stddef.h>
#include <stdint.h>

#ifdef __cplusplus
extern "C" {
#endif

/* The refusals, and by whose doing. 1 comes first, then 2, then contents; of the calls on an open log the state comes before all else, with 11. A refused call
 * leaves all memory as it was; only the column of a refused text is written. */
enum kalzunbi_refusal {
    /* the caller */
    KALZUNBI_REFUSED_TABLE = 1,       /* a table of 0 or over 24 bytes, or a byte above 1; names that are not one for each of its letters, that are no
                                         letters a to z or A to Z, or one of them twice */
    KALZUNBI_REFUSED_MEMORY = 2,      /* memory lent that is shorter than required */
    KALZUNBI_REFUSED_ASSIGNMENT = 12, /* an assignment not 3 bytes a letter, out of -6 to 6, or not 0 where it has to be; tested after the form */

    /* the author of the expression or the text */
    KALZUNBI_REFUSED_LONG_OR_DEEP = 3, /* an expression over 512 bytes, or more than 16 deep; a text over 4096 bytes, or parentheses more than 16 deep */
    KALZUNBI_REFUSED_TORN = 4,         /* an expression with a byte missing, left over or unknown; a text with something missing, or where it may not stand */
    KALZUNBI_REFUSED_MANY_PAIRS = 7,   /* a product of more than 48 pairs of terms, vanishing ones counted */

    /* the author of the expression or the text; or the sender of the form or log whose letter it is, of the two forms to decide, of the log whose step it is */
    KALZUNBI_REFUSED_ABSENT_LETTER = 5, /* a letter that is not in the table, a name that is not declared */
    KALZUNBI_REFUSED_KIND = 6,          /* operands or two forms whose kinds do not fit, a letter of the wrong kind, a step of another kind than the form */

    /* the author of the expression or the text; or the sender of the log whose step it is */
    KALZUNBI_REFUSED_MANY_LETTERS = 8, /* a term of a product's pair, one that does not vanish, with over 6 vector letters or over 2 scalar letters; a
                                          step's M and rule with over 6 vector letters, vanishing or not */
    KALZUNBI_REFUSED_COEFFICIENT = 9,  /* a coefficient beyond 2147483647 in size: a constant's, that of a term of a product's pair, one that does not
                                          vanish, a gathered one */
    KALZUNBI_REFUSED_MANY_TERMS = 10,  /* more than 48 terms */

    /* the sender of the form or log */
    KALZUNBI_REFUSED_SHAPE = 11,     /* bytes that are not the one record of a form, a log, a step, or of an open log's state */
    KALZUNBI_REFUSED_LAST_FORM = 13, /* a log's last form that is not the one its steps reach */
    KALZUNBI_REFUSED_MANY_STEPS = 14 /* a 65th step for an open log */
};

/* the first byte of each part of an expression */
enum kalzunbi_token {
    KALZUNBI_LETTER = 1,     /* and its number */
    KALZUNBI_CONSTANT = 2,   /* and four bytes, signed, most significant first */
    KALZUNBI_SUM = 3,        /* and two operands of one kind */
    KALZUNBI_DIFFERENCE = 4, /* and two operands of one kind */
    KALZUNBI_NEGATION = 5,   /* and one operand */
    KALZUNBI_TIMES = 6,      /* and two operands, at least one of them scalar */
    KALZUNBI_DOT = 7,        /* and two vectors */
    KALZUNBI_WEDGE = 8,      /* and two vectors */
    KALZUNBI_TRIPLE = 9      /* and three vectors */
};

/* bytes that any form's record fits into, and the least that a call which gives a form takes */
#define KALZUNBI_FORM 770

/* numbers that a value is, and the least that the value call takes */
#define KALZUNBI_VALUES 3

/* The value of a form under an assignment.
 *
 * table: one byte a letter, 0 scalar, 1 vector; 1 to 24 of them.
 * form: the record of a form, whole, at most 770 bytes.
 * assignment: three signed bytes from -6 to 6 a letter of the table, in its order, used by the form or not; a scalar letter's second and third are 0.
 * values: at least 3 numbers. The first 3 become the value; of a scalar form the last two of them are 0. Further ones stand.
 *
 * Returns 0, or -1, -2, -11, then -5 or -6, then -12; the first that applies in this order. */
int64_t kalzunbi_value(const uint8_t *table, size_t table_length, const uint8_t *form, size_t form_length, const uint8_t *assignment,
                       size_t assignment_length, int64_t *values, size_t values_length);

/* bytes of the buffer and of the work memory that the decision takes at least */
#define KALZUNBI_ASSIGNMENT 72
#define KALZUNBI_WORK 55296

/* Whether two forms are equal under every assignment of integers.
 *
 * table: as above. first, second: the records of two forms of one kind.
 * buffer: at least 72 bytes. Where the forms differ, the first 3 times (letters) become the first assignment under which they do, letter by letter and
 *   component by component, of those in whole numbers from 0 up: under every one before it the forms are equal. So the bytes depend on the table and the
 *   forms alone. Each number is 0 to 6, a scalar letter's first 0 to 2 and its others 0; a letter that does not occur has 0. The bytes can go to the value
 *   call. Further bytes stand, and all of them where the forms are equal.
 * work: at least 55,296 bytes; what is in them afterwards is of no use, unless the call is refused: then they stand.
 *
 * Returns 0 where they are equal, 1 where they differ, or -1, -2, -11, then -5 or -6. */
int64_t kalzunbi_decide(const uint8_t *table, size_t table_length, const uint8_t *first, size_t first_length, const uint8_t *second,
                        size_t second_length, uint8_t *buffer, size_t buffer_length, uint8_t *work, size_t work_length);

/* The form of an expression.
 *
 * table: as above.
 * expression: tokens in prefix order, each operand an expression again; at most 512 bytes, nested at most 16 deep (the whole is 1).
 * out: at least 770 bytes. The form's record becomes their beginning; the bytes after it stand.
 *
 * Returns the length of the record, or -1, -2, then -3, -4 or -5 from reading, then -6, -7, -8, -9 or -10 from working. */
int64_t kalzunbi_reduce(const uint8_t *table, size_t table_length, const uint8_t *expression, size_t expression_length, uint8_t *out,
                        size_t out_length);

/* bytes that the text of a formula has at most */
#define KALZUNBI_TEXT 4096

/* The form of a formula written as text.
 *
 * table: as above.
 * names: one byte a letter of the table, in its order: a to z or A to Z, none twice.
 * line: sums of products. + and -, also in front; a product by * or side by side; x.y and x^y; (xyz), exactly three names, a triple; parentheses, nested at
 *   most 16 deep; whole numbers in decimal, only first in a product or behind *; blanks between all of these. ^ binds closest, then ., then the product,
 *   then + and -. x^y and x.y take two operands: x^y^z wants parentheses. At most 4096 bytes.
 * out: at least 770 bytes. The form's record becomes their beginning; the bytes after it stand.
 * columns: at least 1 number. Where the text is refused, with 3 to 10, the first becomes the column, an index into the line that counts from 0: of what may
 *   not stand there or does not fit, of the operator that could not be worked (a factor's first byte where it stands side by side, a triple's opening
 *   parenthesis, a number's first digit); the line's length where something is missing at its end, 4096 for a line that is too long. Nothing else is
 *   written then. 1 and 2 write nothing. Further numbers stand, and all of them where the text has a form.
 *
 * Returns the length of the record, or -1, -2, then -3, -4 or -5 from reading, the first in the line, then -6, -7, -8, -9 or -10 from working. */
int64_t kalzunbi_read_text(const uint8_t *table, size_t table_length, const uint8_t *names, size_t names_length, const uint8_t *line, size_t line_length,
                           uint8_t *out, size_t out_length, uint64_t *columns, size_t columns_length);

/* bytes that the text of any form fits into, and the least that the call which prints one takes */
#define KALZUNBI_LINE 1393

/* The text of a form.
 *
 * table, names: as above. form: the record of a form.
 * out: at least 1393 bytes. The text becomes their beginning, no newline and no 0 behind it; the bytes after it stand.
 *
 * Read again with the same table and names, the text gives the form; only that an empty form is one of vectors is lost: it prints as 0.
 *
 * Returns the length of the text, or -1, -2, -11, then -5 or -6. */
int64_t kalzunbi_print(const uint8_t *table, size_t table_length, const uint8_t *names, size_t names_length, const uint8_t *form, size_t form_length,
                       uint8_t *out, size_t out_length);

/* A form with a vector form for one of its vector letters.
 *
 * table: as above.
 * form, inserted: the records of two forms, the second a vector form. letter: the number of a vector letter, in the form or not.
 * out: at least 770 bytes. The record of what comes out becomes their beginning; the bytes after it stand.
 *
 * The form is worked as an expression in which the letter stands for the second form: its terms in order, each multiplied from the left as coefficient,
 * factors in record order, vector part, and summed left to right. So a partial sum can be refused where the whole would not. Only the first form's
 * letter is replaced, also where the second form has it. An empty form stays.
 *
 * Returns the length of the record, or -1, -2, -11, then -5 or -6 for a letter of a form, then -5 for a letter that is not in the table, -6 for a scalar
 * one or a scalar second form, then -7, -8, -9 or -10 from working. */
int64_t kalzunbi_insert(const uint8_t *table, size_t table_length, const uint8_t *form, size_t form_length, uint8_t letter, const uint8_t *inserted,
                        size_t inserted_length, uint8_t *out, size_t out_length);

/* bytes that a log in shape has at most */
#define KALZUNBI_LOG_MAX 3013

/* the number of the refusal and the step in a negative answer of the check call */
#define KALZUNBI_CHECK_NUMBER(answer) (-(answer) / 256)
#define KALZUNBI_CHECK_STEP(answer) (-(answer) % 256)

/* Whether the steps of a log lead from its first form to its last.
 *
 * table: as above.
 * log: the record of the first form, a count byte 0 to 64, the steps, the record of the last form; at most 3013 bytes. A step is a rule's number 1 to 5,
 *   its 4, 4, 5, 5 or 6 letters, and the record of a term.
 * places: at least 3 numbers. For an accepted log the first 3 become where the first form ends, where the last begins, and the number of steps: the first
 *   form is the bytes of the log before places[0], the last form those from places[1] on. Further ones stand.
 *
 * Returns 0 for accepted, or minus (256 times the number of the refusal plus the step), where the step is 0 for the first form and steps + 1 for the last:
 * -256 and -512 for 1 and 2, -2816 for 11; then 5 or 6, the first letter in byte order; then step by step 6, 8, 9 or 10; then 13. */
int64_t kalzunbi_check(const uint8_t *table, size_t table_length, const uint8_t *log, size_t log_length, uint64_t *places, size_t places_length);

/* bytes that the state of any open log fits into, and the least that a call which gives a state takes */
#define KALZUNBI_STATE 796

/* A log that stays open, to be written step by step. Opening gives a state as bytes, adding a step gives the next one, and each call but opening gets the
 * one given last. They are the table's length, the table, the number of steps taken and the record of the form reached, and no more. A state that no call
 * gave is taken where it breaks no rule, and refused with 11 before all else where it does: a bad table, more than 64 steps, a form out of shape or with a
 * letter that the table has not or of the wrong kind, bytes missing or left over. A refused call leaves the log open as it was. Where the states were handed
 * on so since the opening, closing is accepted exactly when the check call accepts the first form, the number of steps, the steps taken and the last form,
 * one behind the other.
 *
 * Opens a log with a table and a first form.
 *
 * table: as above. form: the record of a form.
 * state: at least 796 bytes. The state becomes their beginning; the bytes after it stand.
 *
 * Returns the length of the state, or -1, -2, -11, then -5 or -6. */
int64_t kalzunbi_open(const uint8_t *table, size_t table_length, const uint8_t *form, size_t form_length, uint8_t *state, size_t state_length);

/* Adds a step to an open log.
 *
 * state: the state of an open log. step: a rule's number 1 to 5, its letters, and the record of a term, as in a log, and no more.
 * next: at least 796 bytes, others than the state's. The next state becomes their beginning; the bytes after it stand.
 *
 * Returns the length of the next state, or -11 for the state, -2, -14 for a 65th step, whatever it is, -11 for the step, then -5 or -6, the first letter in
 * byte order, then -6, -8, -9 or -10 at the form reached. */
int64_t kalzunbi_add(const uint8_t *state, size_t state_length, const uint8_t *step, size_t step_length, uint8_t *next, size_t next_length);

/* The form that an open log has reached.
 *
 * state: as above. out: at least 770 bytes. The form's record becomes their beginning; the bytes after it stand.
 *
 * Returns the length of the record, or -11, -2. */
int64_t kalzunbi_look(const uint8_t *state, size_t state_length, uint8_t *out, size_t out_length);

/* Whether the form that an open log has reached, and another, are equal under every assignment of integers.
 *
 * state: as above. form: the record of a form of the same kind.
 * buffer, work: as for the decision; the form reached is the first of the two.
 *
 * Returns 0 where they are equal, 1 where they differ, or -11 for the state, -2, -11 for the form, then -5 or -6. */
int64_t kalzunbi_decide_open(const uint8_t *state, size_t state_length, const uint8_t *form, size_t form_length, uint8_t *buffer, size_t buffer_length,
                             uint8_t *work, size_t work_length);

/* Closes an open log with a last form, which has to be the form reached: not one of the same value alone. Nothing is written.
 * An accepted closing ends the log; the bytes of its state do not tell, so the caller keeps it in mind.
 *
 * state: as above. form: the record of a form.
 *
 * Returns 0 where it is accepted, or -11 for the state, -11 for the form, then -5 or -6, then -13 for another form. */
int64_t kalzunbi_close(const uint8_t *state, size_t state_length, const uint8_t *form, size_t form_length);

/* bytes of the memory that shortening takes at least */
#define KALZUNBI_LOG 2309

/* A form of the same value that no step shortens, as the log of the steps that lead to it.
 *
 * table: as above. form: the record of a form.
 * out: at least 2309 bytes. The log becomes their beginning, the form's record first; the bytes after it stand. It goes to the check call as it is.
 * steps: at least 1 number. The first becomes the number of steps, at most as many as terms saved; further ones stand.
 *
 * No admissible step of any rule, letters and term leads from the last form to fewer terms.
 *
 * Returns the length of the log, or -1, -2, -11, then -5 or -6. */
int64_t kalzunbi_shorten(const uint8_t *table, size_t table_length, const uint8_t *form, size_t form_length, uint8_t *out, size_t out_length,
                         uint64_t *steps, size_t steps_length);

/* A form shortened, its log given to the checker, and the log's first and last form decided: the three calls in one.
 *
 * table, form, out, steps: as for shortening.
 * buffer: at least 72 bytes, which stand.
 * work: at least 55,296 bytes; what is in them afterwards is of no use, unless the call is refused: then they stand.
 *
 * Returns the length of the log: the checker accepts it with the number of steps that is reported, and its two forms are equal under every assignment of
 * integers. Or -1, -2, -11, then -5 or -6. That the three do not agree never comes. */
int64_t kalzunbi_audit(const uint8_t *table, size_t table_length, const uint8_t *form, size_t form_length, uint8_t *out, size_t out_length,
                       uint8_t *buffer, size_t buffer_length, uint8_t *work, size_t work_length, uint64_t *steps, size_t steps_length);

#ifdef __cplusplus
}
#endif

#endif
