/* The limits of a class, for programs in C99 and C++: load sheets onto a desk, each as one of four classes, then rate ranges by any of them.

   The desk is MOTMOTDIVAN_STATE_LENGTH bytes of the caller's: docs/STATE.md says what stands in them, and in the two records. docs/SHEET.md says how
   a sheet is written, and what to do about a refusal. Ends count units of 1/10,000; the limit is 2,000,000,000 units on either side of 0.

   The classes are numbered 1 to 4, and do not touch: a load, accepted or refused, leaves the other three and every result for them as they were. What a
   negative number is converted to is a large one, and so no class.

   A program that was compiled with the header of one class, where the functions had no class number and the desk 512 bytes, must be compiled anew.

   What a call gives, it gives for all bytes and every class number, whatever they are. The caller owes this:
   - each pointer points to as many bytes as the length behind it says, and is not null, also where that length is 0;
   - the bytes that a call writes (the desk of a load, the result of a rating) do not overlap with others of the same call;
   - while a class is loaded, no other thread uses the desk, not even for another class: the whole desk is lent. Any number of threads may rate by one
     desk at once, each into a result of its own.
   Addresses need no alignment. Nothing is kept from one call to the next but the bytes of the desk. */
#ifndef MOTMOTDIVAN_H
#define MOTMOTDIVAN_H

#include <stddef.h>
#include <stdint.h>

#define MOTMOTDIVAN_STATE_LENGTH 2048 /* bytes of a desk: four classes of 512 */
#define MOTMOTDIVAN_RANGES_LENGTH 128 /* 16 doubles: the low and the high end of each factor's range */
#define MOTMOTDIVAN_RESULT_LENGTH 192 /* 24 doubles: value, slopes of eight factors, depends, bent, bend, full; low before high */

#ifdef __cplusplus
extern "C" {
#endif

/* Both functions return 0 where the call was accepted, and otherwise one code for the refusal: its number plus 100 times its place. So the number is
   code % 100 and the place code / 100; no place is above 65.

   number  what is refused                                                place
        1  the sheet has more than 4,096 bytes                            0
        2  a line of the sheet is not of its form                         the line of the text
        3  not 1 to 8 factors                                             1
        4  more than 64 codelist lines, or no operation                   the line of the text; 1 where there is no operation
        5  a line is named that is not an earlier one                     the line of the text
        6  the exponent is not 2 to 8                                     the line of the text
        7  the constant is beyond the limit                               the line of the text
        8  a record is of another length                                  0
        9  a range is turned round, or beyond the limit                   the factor
       10  the class is empty, or the desk of another length              0
       11  a division by a range that holds 0                             the codelist line
       12  a number grows beyond the limit                                the codelist line
       15  a multiplication by 0                                          the line of the text
       17  the year is neither 2016 nor 2014                              1
       18  an end of a range is no whole number, is infinite or is a NaN  the factor
       21  the class number is not 1 to 4                                 0 */

/* Loads a sheet: its text, without a line `box`, onto the desk as the class of that number. Refused with 21 where it is not 1 to 4, whatever else is
   wrong; with 10 where state_length is not MOTMOTDIVAN_STATE_LENGTH, whatever the text is; then with 1 to 7, 15 and 17. Accepted, it writes every byte
   of the class, whatever stood there, and no other; refused, it writes none. */
uint64_t motmotdivan_load(uint64_t class_number, uint8_t *state, size_t state_length, const uint8_t *text, size_t text_length);

/* Rates ranges by the sheet of a class. A double is eight bytes of IEEE 754, the lowest first, as x86-64 has it in memory; minus zero counts as 0, and
   those past the last factor are ignored. Refused with 21 where the class number is not 1 to 4, with 10 where the class is empty, with 8 where a record
   is of another length, with 18, with 9, and then with 11 or 12, in this order. Accepted, it writes every byte of the result; refused, all of them as
   zeros. A result of another length than MOTMOTDIVAN_RESULT_LENGTH is not written. */
uint64_t motmotdivan_rate(uint64_t class_number, const uint8_t *state, size_t state_length, const uint8_t *ranges, size_t ranges_length,
                          uint8_t *result, size_t result_length);

#ifdef __cplusplus
}
#endif

#endif
