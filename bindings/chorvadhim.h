/* Chorvadhim: a gate string or an exact matrix in, the one Matsumoto-Amano normal form out.
 *
 * The calls of the static library libchorvadhim.a, for x86-64. Numbers and lent memory go in, one 64-bit answer word comes out.
 *
 * What every call asks of its caller:
 *   - A pointer is not null, also where its length is 0, and points to as many bytes as its length says;
 *     `coefficients` points to sixteen 64-bit integers, aligned as such.
 *   - A length is below 2^63.
 *   - What is lent to be written overlaps nothing else that the call is given, and nobody else reads or writes it
 *     during the call. What is lent to be read is not written during the call.
 *   - A megabyte of stack is left: the form reader goes one call deeper with each syllable. The others take far less.
 * Nothing is asked of the values: every text, every exponent and every coefficient has its answer.
 *
 * What every call promises:
 *   - It ends. It keeps nothing: the memory is the caller's again when the call returns.
 *   - The low 8 bits of the answer word are 0 where the input was accepted. Else they are the refusal's number, bits 8
 *     to 39 are its place, all other bits are 0 (but for bit 40 in a comparison), and no lent byte has changed.
 *   - Where an answer is written into a lent buffer it stands at the start, and the bytes after it are as they were.
 *
 * The refusals:
 *    1  a byte outside the seven letters H S T W X Y Z              the first such place
 *    2  text longer than its limit                                  the limit
 *    3  lent buffer shorter than the answer                         length needed
 *    4  exponent above 40                                           0
 *    5  coefficient beyond 1,048,576 in size                        index 0 to 15 of the first
 *    6  not unitary                                                 0
 *    7  not a normal form                                           length of the longest prefix that is a form
 *    8  least exponent of a string's matrix above 40                0
 *    9  frame of wrong length, or a digit not 0-9 a-f               length if short, 138 if long, else first bad digit
 *   10  check word of a frame wrong                                 130
 *
 * A matrix is an exponent k and sixteen coefficients: the four entries top left, top right, bottom left, bottom right,
 * each a0, a1, a2, a3, meaning (a0 + a1 w + a2 w^2 + a3 w^3) / sqrt(2)^k with w = e^(i pi/4).
 */
#ifndef CHORVADHIM_H
#define CHORVADHIM_H

#include <stddef.h>
#include <stdint.h>

#ifdef __cplusplus
extern "C" {
#endif

#define CHORVADHIM_STRING_LIMIT 4096
#define CHORVADHIM_FORM_LIMIT 12301
#define CHORVADHIM_EXPONENT_LIMIT 40
#define CHORVADHIM_COEFFICIENT_LIMIT 1048576
#define CHORVADHIM_FRAME_LENGTH 138
#define CHORVADHIM_COEFFICIENTS 16

/* String to form. Refusals in the order 2, 1, 3.
 * Accepted: the form stands in the buffer; its length in bits 8 to 23, its T-count in 24 to 39, its H-count in 40 to 55. */
uint64_t chorvadhim_string_to_form(const uint8_t *text, size_t text_length, uint8_t *buffer, size_t buffer_length);

/* Matrix to form. Refusals in the order 4, 5, 6, 3. Accepted: as for string to form. */
uint64_t chorvadhim_matrix_to_form(uint32_t exponent, const int64_t *coefficients, uint8_t *buffer, size_t buffer_length);

/* Frame to form. Refusals in the order 9, 10, 4, 5, 6, 3. Accepted: as for string to form. */
uint64_t chorvadhim_frame_to_form(const uint8_t *text, size_t text_length, uint8_t *buffer, size_t buffer_length);

/* The form reader. Refusals in the order 2, 1, 7. It writes nothing.
 * Accepted: length, T-count and H-count as for string to form, and the tail's number, 0 to 191, in bits 56 to 63. */
uint64_t chorvadhim_read_form(const uint8_t *text, size_t text_length);

/* Comparison of two strings. Refusals in the order 2, 1, of the first string and then of the second, which is looked at
 * only when the first was accepted; bit 40 of a refusal is 0 for the first string and 1 for the second.
 * Accepted: bits 8 to 15 are 0 for the same matrix, j from 1 to 7 where the first is w^j times the second, 8 where they
 * are different. */
uint64_t chorvadhim_compare(const uint8_t *first, size_t first_length, const uint8_t *second, size_t second_length);

/* String to matrix. Refusals in the order 2, 1, 8.
 * Accepted: the least record, its exponent in bits 8 to 39 and its coefficients written. */
uint64_t chorvadhim_string_to_matrix(const uint8_t *text, size_t text_length, int64_t *coefficients);

/* Frame to matrix. Refusals in the order 9, 10, 4, 5, 6.
 * Accepted: the record as the frame has it, its exponent in bits 8 to 39 and its coefficients written. */
uint64_t chorvadhim_frame_to_matrix(const uint8_t *text, size_t text_length, int64_t *coefficients);

/* Matrix to frame. Refusals in the order 4, 5, 6, 3. Accepted: the 138 digits stand in the buffer; the word is 0. */
uint64_t chorvadhim_matrix_to_frame(uint32_t exponent, const int64_t *coefficients, uint8_t *buffer, size_t buffer_length);

/* The parts of an answer word. */
static inline unsigned chorvadhim_refusal(uint64_t word) { return (unsigned)(word & 0xff); }
static inline uint32_t chorvadhim_place(uint64_t word) { return (uint32_t)(word >> 8); }
static inline unsigned chorvadhim_which(uint64_t word) { return (unsigned)(word >> 40 & 1); }
static inline unsigned chorvadhim_length(uint64_t word) { return (unsigned)(word >> 8 & 0xffff); }
static inline unsigned chorvadhim_t_count(uint64_t word) { return (unsigned)(word >> 24 & 0xffff); }
static inline unsigned chorvadhim_h_count(uint64_t word) { return (unsigned)(word >> 40 & 0xffff); }
static inline unsigned chorvadhim_tail(uint64_t word) { return (unsigned)(word >> 56); }
static inline unsigned chorvadhim_phase(uint64_t word) { return (unsigned)(word >> 8 & 0xff); }
static inline uint32_t chorvadhim_exponent(uint64_t word) { return (uint32_t)(word >> 8); }

#ifdef __cplusplus
}
#endif

#endif
