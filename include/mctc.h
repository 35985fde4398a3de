/* The judge of MCTCNet2 test sets: a whole set judged, one file read, one file written, at once or after its length was
 * quoted, two drift files joined, names of entries and headings, the kinds of entries and their words, the due column of
 * one file, and what the judge goes by.
 *
 * Linked from libmctc.a. Every function answers for whatever bytes and numbers it is lent, keeps no state, allocates
 * nothing and always returns.
 *
 * An array is lent as a pointer and a length, in this order. The length counts elements: bytes, or numbers of 32 bits.
 * The pointer of an empty array is not null, and is aligned for its elements. No array that a call writes to (places of
 * mctc_judge, mctc_read and mctc_due, output, column, answer) overlaps another array of the same call.
 *
 * Files: 1 new booking (AC2), 2 old booking (ACC), 3 drift, 4 suspension, 5 gas, 6 the analyser's identification answer,
 * 7 opacity. All but 6 have entries.
 *
 * Places: at least 582 numbers, three for each of the 194 entries. Numbers 3 k, 3 k + 1 and 3 k + 2 are triple k:
 *
 *     number    of an entry
 *     3 k       start: the place of its value in its file, in bytes from 0; of an empty value the place after `=`
 *     3 k + 1   length of its value in bytes
 *     3 k + 2   line on which it stands in its file, from 1: one more than the lines before it, so at least 2
 *
 * The first two are the entry's pair. Triples stand in the order of the file's table, axles by number. A file's first
 * triple, and the number that it begins at:
 *
 *     file   first triple   first number   triples
 *     1      0              0              12
 *     2      12             36             6
 *     3      18             54             16, then 1 for each axle
 *     4      43             129            16, then 3 for each axle
 *     5      86             258            53
 *     7      139            417            55
 *
 * Triples of a file that is not read, and of an axle that is not there, are 0 0 0. After a refusal but 1 all triples are
 * 0 0 0. With refusal 1 the places stay. Numbers past the first 582 stay. Two files with the same lines in another order
 * have the same values; starts and lines may differ.
 *
 * A program that was written for 388 places, two numbers for each entry, has to lend 582; to take start and length, and
 * for mctc_write to put them, at 3 k and 3 k + 1 where that was 2 k and 2 k + 1; and to begin a file at its first number
 * in the table above. One that lends 582 or more and still counts by two is not refused with 1: it takes other numbers
 * for start and length, and mctc_write takes others than it put, and may accept, and write, a file with every value
 * empty.
 *
 * Names: a file's entries are numbered from 0 in the order of its triples, all nine axles counted, so that entry k has
 * the triple k past the file's first. Its headings are numbered from 0 in the order of its table; axle n has heading n.
 *
 *     file   entries                        headings
 *     1      12                             1
 *     2      6                              1
 *     3      16, then 1 for each axle: 25   1, then 1 for each axle: 10
 *     4      16, then 3 for each axle: 43   1, then 1 for each axle: 10
 *     5      46, then 7: 53                 2
 *     7      55                             1
 *
 * Answer: at least 16 numbers, of which the first 16 are all set.
 *
 *     number   acceptance                         refusal
 *     0        0                                  1 to 22, below
 *     1        0                                  file, 0 for none; join: 1 or 2 for the input
 *     2        0                                  line from 1, 0 for none
 *     3        judge: axles of drift              0
 *              read, due: axles
 *              write, quote, commit, join: length
 *              names, word: length
 *     4        judge: axles of suspension         0
 *              names, word: heading; due: entries
 *     5        judge: mark of drift, 0 or 1       0
 *     6        judge: mark of suspension          0
 *     7        judge: mark of gas                 0
 *     8        judge: mark of opacity             0
 *     9        judge, read: 1 where the idle      0
 *              speed was entered by hand, else 0
 *     10       judge: names compared              0
 *     11       judge: seconds of drift            0
 *     12       judge: seconds of suspension       0
 *     13       judge: seconds of gas              0
 *     14       judge: seconds of opacity          0
 *     others   0                                  0
 *
 * The idle speed is NumGiriMotoreMin of gas, entered by hand where its value begins with `#`. Number 9 says nothing of
 * the speeds in opacity.
 *
 * Names compared says how much looking up it took to read the set's files, and nothing of their values. For each line
 * with an entry the names of its section are tried in the order of the file's table until its own is found. Every name
 * that is tried counts 1, each time that it is tried, also one that its length or a byte already tells apart. So a
 * section of n entries adds 1 + 2 + .. + n, in whatever order its lines stand:
 *
 *     file   adds where it is read
 *     1      78
 *     2      21
 *     3      136, then 1 for each axle
 *     4      136, then 6 for each axle
 *     5      1,109
 *     6      0
 *     7      1,540
 *
 * A file that is not read adds 0: one that is not given, and ACC with category L.
 *
 * A measure begins on DataMisura, at InizioMisura. One whose FineMisura is below its InizioMisura ends on the next day,
 * any other on the same. The seconds of drift, suspension, gas or opacity are the length of its measure, from
 * InizioMisura to FineMisura: 0 to 86,399, 0 where both are the same, and 40 from 235930 to 000010. They are 0 too for a
 * file that is not given.
 *
 * A device is good through its due date, and in a set that passes each due date covers the day on which its file's
 * measure ends, whether CodErrore is filled or not:
 *
 *     file   due dates, each of a device
 *     3      DataScadenza, of the drift tester
 *     4      DataScadenza, of the suspension tester
 *     5      DataScadenzaAnalizzatore; DataScadenzaContagiri, of the rev counter; DataScadenzaProvaVelocita, of the
 *            speed bench, where it is filled
 *     7      DataScadenzaOpacimetro; DataScadenzaContagiri, of the rev counter
 *
 * No due date covers the day after 31122099. Other dates in these files are no due dates.
 *
 * The calls that say what the judge goes by:
 *
 *     call                      number    acceptance
 *     kind                      3 .. 6    form, most bytes, digits behind the point, words
 *     condition,                3         what is asked
 *     file_condition            4 .. 15   three reasons of four numbers: test, file, entry, group
 *     test                      3         1 where the value passes, else 0
 *     identification            3 .. 12   the ends of the ten fields
 *     field                     3         entry of gas
 *
 * Numbers past the first 16 stay. Each function returns number 0 of the answer. Where the answer has fewer than 16
 * numbers it returns MCTC_ANSWER_TOO_SHORT and writes to no array.
 */
#ifndef MCTC_H
#define MCTC_H

#include <stddef.h>
#include <stdint.h>

#ifdef __cplusplus
extern "C" {
#endif

/* How many numbers places and answer have at least. */
#define MCTC_PLACES_SIZE 582
#define MCTC_ANSWER_SIZE 16

/* How many bytes the longest name of an entry, the longest heading and the longest word have: room for any of them. */
#define MCTC_LONGEST_NAME 34
#define MCTC_LONGEST_HEADING 27
#define MCTC_LONGEST_WORD 14

/* How many bytes the longest file that mctc_join writes has: room for any joined file. */
#define MCTC_JOINED_MOST 1401

/* Returned where the answer has fewer than 16 numbers. */
#define MCTC_ANSWER_TOO_SHORT UINT32_C(4294967295)

/* Acceptance. */
#define MCTC_ACCEPTED 0

/* Refusals, with the line that they carry. */

/* Places too short: file 0, line 0. */
#define MCTC_PLACES_TOO_SHORT 1
/* The stem is not two capitals and six digits: file 0, line 0. */
#define MCTC_STEM_FORM 2
/* A file has more than 16,384 bytes: line 0. */
#define MCTC_FILE_TOO_LONG 3
/* The form of a line: that line. */
#define MCTC_LINE_FORM 4
/* A heading that is not of this file, or repeated: its line. */
#define MCTC_HEADING_NOT_EXPECTED 5
/* An entry that is unknown in its section, or repeated: its line. */
#define MCTC_ENTRY_NOT_EXPECTED 6
/* A section is absent: line 0. */
#define MCTC_SECTION_ABSENT 7
/* An entry is absent: the line of its heading. */
#define MCTC_ENTRY_ABSENT 8
/* A value is of the wrong kind: its line; from mctc_write, mctc_quote and mctc_commit the line that it would have. */
#define MCTC_WRONG_KIND 9
/* A value is filled and not due, or due and empty: its line. */
#define MCTC_NOT_AS_DUE 10
/* A slice is missing or not due, or ACC is given with category L and a stem whose first digit is not 9: line 0. From
 * mctc_read, mctc_due and mctc_join: a text, or an input, is empty. */
#define MCTC_SLICE_NOT_AS_DUE 11
/* A rule of the bookings. AC2: the line of TipoVeicolo or AzionamentoFrenoStazionamento; ACC: of the rule's entry. */
#define MCTC_BOOKING_RULE 12
/* Differenza% is not the larger grip less the smaller: its line, of the lowest such axle. */
#define MCTC_DIFFERENCE_RULE 13
/* The form of the identification answer: file 6, line 0. */
#define MCTC_ANSWER_FORM 14
/* The identification answer differs from gas: file 6, line 0. */
#define MCTC_ANSWER_DIFFERS 15
/* The file number is not 1 to 5 or 7 (mctc_file_condition: 1 to 7), the axle count is not one that the file can have, or
 * there is no entry, heading, word, test or field of that number: line 0. */
#define MCTC_FILE_OR_AXLES 16
/* Start plus length of a pair is above the text's length: the line that the entry would have. */
#define MCTC_PAIR_OUTSIDE 17
/* The output is too short, or the column: line 0; from mctc_join file 0 too. */
#define MCTC_OUTPUT_TOO_SHORT 18
/* A device is out of date on the day on which the measure ends: the line of its due date, the first such one in the
 * order of the file's table. It comes after 10 and before 13 of the same file. */
#define MCTC_DEVICE_OUT_OF_DATE 19
/* The [Deriva] sections of two drift files differ in another entry than InizioMisura and FineMisura: file 2, the line of
 * the first such entry, in the order of the file's table, in the second input. Either input may be the one that is
 * wrong. */
#define MCTC_HEADINGS_DISAGREE 20
/* Two drift files have more than nine axles together: file 0, line 0. */
#define MCTC_TOO_MANY_AXLES 21
/* The length handed to mctc_commit is not the one that mctc_quote gives for the same text, places, file and axles: line 0. */
#define MCTC_LENGTH_DIFFERS 22

/* Judges a whole set: the stem of its files and seven slices, each empty where it is not given, in the order of the
 * files' numbers. Refuses with 1 to 15, 19, in this order: 1, 2, then file by file in the order of their numbers, each
 * with 11, 3, the first line with 4, 5 or 6, then 7, 8, 9, 10, 19, then 12 (files 1 and 2) or 13 (file 4); file 6 with
 * 11, 14, 15. ACC with category L is held to 11 alone.
 *
 * Accepted: answer 3 and 4 are the axle counts of drift and suspension, 0 for a file that is not given; 5, 6, 7 and 8
 * are the marks of drift, suspension, gas and opacity, 1 where the file is given with CodErrore filled, else 0; 9 is 1
 * where gas is given and its idle speed was entered by hand, 0 where it was measured or gas is not given; 10 is the names
 * compared; 11, 12, 13 and 14 are the seconds that the measures of drift, suspension, gas and opacity lasted, 0 for a
 * file that is not given. Which sets pass does not hang on the numbers 9 to 14: no length is refused. That FineMisura is
 * below InizioMisura counts all the same, as the measure then ends on the next day (19). The places have the triples of
 * all files that were read. */
uint32_t mctc_judge(const uint8_t *stem, size_t stem_length,
                    const uint8_t *ac2, size_t ac2_length,
                    const uint8_t *acc, size_t acc_length,
                    const uint8_t *drift, size_t drift_length,
                    const uint8_t *suspension, size_t suspension_length,
                    const uint8_t *gas, size_t gas_length,
                    const uint8_t *identification, size_t identification_length,
                    const uint8_t *opacity, size_t opacity_length,
                    uint32_t *places, size_t places_length,
                    uint32_t *answer, size_t answer_length);

/* Reads one file alone, by its number. Refuses, in this order, with 1, 16 where the number is not 1 to 5 or 7, 11 where
 * the text is empty, then 3 to 9. A refusal carries the file as handed in, 0 with 1.
 *
 * Accepted: answer 3 is the axle count, 0 for all files but 3 and 4; 9 is 1 for file 5 with an idle speed that was
 * entered by hand, 0 for one that was measured or is empty, and for every other file. The places have the triples of this
 * file; all others are 0 0 0. */
uint32_t mctc_read(uint32_t file,
                   const uint8_t *text, size_t text_length,
                   uint32_t *places, size_t places_length,
                   uint32_t *answer, size_t answer_length);

/* Writes one file from a text and the pairs of its values, with so many axles: 1 to 9 for files 3 and 4, 0 for the
 * others. Of each triple only the pair is looked at: its third number may be any, and changes neither answer nor output.
 * Lines stand in the order of the file's table, axles by number. Refuses, in this order, with 1, 16, 17, 9, 18. A refusal
 * carries the file as handed in, 0 with 1.
 *
 * Accepted: answer 3 is the length of the written file; output bytes past it stay. Refused: the output stays. The places
 * are read only.
 *
 * It is the two calls below together: mctc_quote, then mctc_commit with the length that was quoted. So it never refuses
 * with 22. */
uint32_t mctc_write(const uint8_t *text, size_t text_length,
                    const uint32_t *places, size_t places_length,
                    uint32_t file, uint32_t axles,
                    uint8_t *output, size_t output_length,
                    uint32_t *answer, size_t answer_length);

/* Quotes the length of the file that mctc_write writes from the same text, places, file and axles, so that room can be made
 * for it first. Looks at all that mctc_write looks at but the output, which it is not lent. Refuses, in this order, with 1,
 * 16, 17, 9, each as mctc_write does.
 *
 * Accepted: answer 3 is the quoted length. The places are read only. */
uint32_t mctc_quote(const uint8_t *text, size_t text_length,
                    const uint32_t *places, size_t places_length,
                    uint32_t file, uint32_t axles,
                    uint32_t *answer, size_t answer_length);

/* Writes the file that mctc_write writes from the same text, places, file and axles, where `length` is its length. Refuses,
 * in this order, with 1, 16, 17, 9, 22, 18: 22 where `length` is not the quoted length, be it above or below, also where the
 * output is too short; the others as mctc_write does. 22 carries the file as handed in.
 *
 * Where text, pairs, file and axles are those that were quoted, as many places are lent, `length` is the quoted length, and
 * the output has that many bytes or more, it always writes, and what it writes is the file that was quoted. The third
 * numbers of triples may be others than they were, as they are not looked at. Only the length is compared: where text,
 * pairs, file or axles are no longer those that were quoted, and what they give has the same length, it is written.
 *
 * Accepted: answer 3 is `length`; output bytes past it stay. Refused: the output stays. The places are read only. */
uint32_t mctc_commit(const uint8_t *text, size_t text_length,
                     const uint32_t *places, size_t places_length,
                     uint32_t file, uint32_t axles, uint32_t length,
                     uint8_t *output, size_t output_length,
                     uint32_t *answer, size_t answer_length);

/* Joins two drift files of one truck, which was measured in two parts, into one. The values of their [Deriva] sections
 * must be the same bytes in fourteen entries: all but InizioMisura and FineMisura, so in Note, CodErrore and DataMisura
 * too. An empty value and a filled one differ.
 *
 * The joined file has these fourteen values, the first input's InizioMisura, the second's FineMisura, and the axles of
 * both: the first's with their own numbers, then the second's, numbered on. The axles of each file are numbered from 1,
 * those of the second input too: numbered on already they are refused with 7. The joined file is written as mctc_write
 * writes drift, and has at most MCTC_JOINED_MOST bytes. The order of sections and entries in the inputs changes no byte of
 * it, and it passes 3 to 10.
 *
 * Refuses, in this order: the first input with 11 where it is empty, then 3 to 10, as drift in a set; the second input
 * likewise; 20; 21; 18. A refusal 3 to 11 carries as its file the number of the input, 1 or 2, and the line there; 20
 * carries 2, and the line in the second input; 21 and 18 carry file 0 and line 0.
 *
 * No due date is looked at: DataScadenza is only compared, and InizioMisura and FineMisura of both inputs may be in any
 * order. The joined file is held to its due date when it comes in a set. Its measure begins at the first input's
 * InizioMisura and ends at the second's FineMisura, on the next day where that is below; so a set with the joined file may
 * be refused with 19 where neither input would be.
 *
 * Accepted: answer 3 is the length of the joined file; output bytes past it stay. Refused: the output stays. No places
 * are lent. The inputs may be the same array, or overlap. */
uint32_t mctc_join(const uint8_t *first, size_t first_length,
                   const uint8_t *second, size_t second_length,
                   uint8_t *output, size_t output_length,
                   uint32_t *answer, size_t answer_length);

/* Copies the name of a file's entry, by its number. Refuses, in this order, with 16 where there is no such file or
 * entry, 18 where the output is shorter than the name. A refusal carries the file as handed in and line 0.
 *
 * Accepted: answer 3 is the length of the name, answer 4 the number of the heading that the entry stands under; output
 * bytes past the length stay. Refused: the output stays. */
uint32_t mctc_entry_name(uint32_t file, uint32_t entry,
                         uint8_t *output, size_t output_length,
                         uint32_t *answer, size_t answer_length);

/* Copies a file's heading, by its number, with its brackets. Refuses, in this order, with 16 where there is no such
 * file or heading, 18 where the output is shorter than the heading. A refusal carries the file as handed in and line 0.
 *
 * Accepted: answer 3 is the length of the heading, answer 4 its number; output bytes past the length stay. Refused: the
 * output stays. */
uint32_t mctc_heading_name(uint32_t file, uint32_t heading,
                           uint8_t *output, size_t output_length,
                           uint32_t *answer, size_t answer_length);

/* The form of an entry's kind: what a filled value must look like. `most` is answer 4, `decimals` answer 5. */

/* S: 1 to `most` bytes, each 20 to 7E hex. */
#define MCTC_FORM_S 1
/* C: exactly `most` such bytes. */
#define MCTC_FORM_C 2
/* N: 1 to `most` decimal digits. */
#define MCTC_FORM_N 3
/* N(d): one or more digits, a point, exactly `decimals` digits, at most `most` bytes in all. */
#define MCTC_FORM_FIXED 4
/* D: ddmmyyyy, a Gregorian day, years 1900 to 2099. */
#define MCTC_FORM_D 5
/* H: hhmmss, 000000 to 235959. */
#define MCTC_FORM_H 6
/* Deriva: optional `-`, one or two digits, a point, two digits. */
#define MCTC_FORM_DERIVA 7
/* N, with `#` before it where entered by hand: revs and others. `most` counts the `#`. */
#define MCTC_FORM_N_BY_HAND 8
/* DataPrimaImm: D, with day 00 allowed, and month 00 only with day 00. */
#define MCTC_FORM_DATA_PRIMA_IMM 9
/* AnnoPrimaImm: four digits. */
#define MCTC_FORM_ANNO_PRIMA_IMM 10
/* PosAssiStaz: nine letters S or N. */
#define MCTC_FORM_POS_ASSI_STAZ 11
/* A word: one of those that mctc_word copies. */
#define MCTC_FORM_WORD 12
/* Targa of opacity: 4 to `most` bytes, each 20 to 7E hex. */
#define MCTC_FORM_TARGA 13
/* N(d), with `#` before it where entered by hand. `most` counts the `#`. */
#define MCTC_FORM_FIXED_BY_HAND 14
/* TempAmbiente: 1 to 3 digits, or `-` and 1 or 2 digits; with `#` before them where entered by hand. `most` counts the
 * `#`. */
#define MCTC_FORM_TEMP_AMBIENTE 15

/* Says what a filled value of a file's entry must look like, by the entry's number. Refuses with 16 where there is no
 * such file or entry. The refusal carries the file as handed in and line 0.
 *
 * Accepted: answer 3 is the form, MCTC_FORM_S to MCTC_FORM_TEMP_AMBIENTE; answer 4 is how many bytes a value has at most;
 * answer 5 is how many digits stand behind the point, 0 where there is none; answer 6 is how many words the entry has, 0
 * where it is no word. Whether an entry must be filled at all, mctc_due says. */
uint32_t mctc_kind(uint32_t file, uint32_t entry,
                   uint32_t *answer, size_t answer_length);

/* Copies a word that the value of a file's entry may be, by the numbers of both, words from 0 in the order of their
 * list. Refuses, in this order, with 16 where there is no such file, entry or word, 18 where the output is shorter than
 * the word. A refusal carries the file as handed in and line 0.
 *
 * Accepted: answer 3 is the length of the word, answer 4 the number of the heading that the entry stands under; output
 * bytes past the length stay. Refused: the output stays. */
uint32_t mctc_word(uint32_t file, uint32_t entry, uint32_t word,
                   uint8_t *output, size_t output_length,
                   uint32_t *answer, size_t answer_length);

/* What is asked of an entry: its value is filled; is empty; may be either. */
#define MCTC_DUE 1
#define MCTC_NOT_DUE 2
#define MCTC_FREE 3

/* Gives the due column of one file, by its number: for each of its entries, in the order of its triples, MCTC_DUE,
 * MCTC_NOT_DUE or MCTC_FREE. AC2's values decide, and for gas and opacity their own too. No entry is held to its column,
 * so that it serves sets that mctc_judge refuses, where AC2 and this file pass 3 to 9. For file 1 the text is AC2 once
 * more.
 *
 * Refuses, in this order, with 1; for AC2 with 11 where it is empty, then 3 to 9; for the file with 16 where the number
 * is not 1 to 5 or 7, 11 where the text is empty, then 3 to 9; with 18 where the column has fewer numbers than the file
 * has entries. A refusal carries the file as handed in, 1 where it is AC2's, 0 with 1. Refused: the column stays.
 *
 * Accepted: answer 3 is the axle count, 0 for all files but 3 and 4; answer 4 is how many entries the column has, at
 * most 55. Column numbers past them stay. The places have the triples of this file; all others are 0 0 0. With a category
 * L, ACC is not read, whatever its text: its column has no entries. */
uint32_t mctc_due(uint32_t file,
                  const uint8_t *ac2, size_t ac2_length,
                  const uint8_t *text, size_t text_length,
                  uint32_t *places, size_t places_length,
                  uint32_t *column, size_t column_length,
                  uint32_t *answer, size_t answer_length);

/* What is asked of an entry or a file, whatever a set's values are: always; nothing; to be filled or given exactly when
 * its reasons hold; to be given only when they hold. */
#define MCTC_ALWAYS 1
/* MCTC_FREE 3, above */
#define MCTC_WHEN 4
#define MCTC_ONLY_WHEN 5

/* A reason is a test that one value passes or not. Reasons stand in groups: all hold where each group has one that
 * holds. The tests: a category that is L1e, L2e or L6e; L3e, L4e, L5e or L7e; M or N; not O; not L. A value that is no
 * category passes the last two and none of the others. */
#define MCTC_TEST_MOPED 1
#define MCTC_TEST_MOTORCYCLE 2
#define MCTC_TEST_M_OR_N 3
#define MCTC_TEST_NOT_O 4
#define MCTC_TEST_NOT_L 5
/* A plate of six bytes; BENZINA; DIESEL. */
#define MCTC_TEST_SIX_BYTES 6
#define MCTC_TEST_PETROL 7
#define MCTC_TEST_DIESEL 8
/* A car's directive that is 91/441/CEE or 98/69/CE; a motorcycle's that is NESSUNA. */
#define MCTC_TEST_LATE_DIRECTIVE 9
#define MCTC_TEST_NO_DIRECTIVE 10
/* RS SENZA ESITO; ESTERNO; version 200; version 210. */
#define MCTC_TEST_SERIAL_LINK 11
#define MCTC_TEST_EXTERNAL_COUNTER 12
#define MCTC_TEST_VERSION_200 13
#define MCTC_TEST_VERSION_210 14
/* A stem, handed in as the value, whose first digit is 9. */
#define MCTC_TEST_NINE_STEM 15

/* Says what is asked of a file's entry, by its number, and why. Refuses with 16 where there is no such file or entry;
 * the refusal carries the file as handed in.
 *
 * Accepted: answer 3 is MCTC_ALWAYS, MCTC_FREE or MCTC_WHEN. From answer 4 on stand at most three reasons of four numbers
 * each: the test, the file and the entry of the value that it looks at, and the number of the group, from 1; 0 for each
 * number of a reason that there is not. An entry that MCTC_WHEN asks for is due where its reasons hold, and else not
 * due; that is what mctc_judge holds it to (refusal 10) in a file that it reads. */
uint32_t mctc_condition(uint32_t file, uint32_t entry,
                        uint32_t *answer, size_t answer_length);

/* Says what is asked of a file, 1 to 7, and why. Refuses with 16 where there is no such file; the refusal carries it as
 * handed in.
 *
 * Accepted: as mctc_condition, with MCTC_ONLY_WHEN besides. A reason of file 0, entry 0, looks at the stem. For file 6,
 * the identification answer: where gas is not given, its reason does not hold. What is asked of a file is what mctc_judge
 * holds it to (refusal 11). */
uint32_t mctc_file_condition(uint32_t file,
                             uint32_t *answer, size_t answer_length);

/* Says whether a value passes a test: answer 3 is 1 or 0. Refuses with 16, file 0, where there is no such test. */
uint32_t mctc_test(uint32_t test,
                   const uint8_t *value, size_t value_length,
                   uint32_t *answer, size_t answer_length);

/* Finds the ten fields of an identification answer: GAS, the address, ID, and the seven that gas has too. Refuses with 14,
 * file 6, where it is not of the form.
 *
 * Accepted: answers 3 to 12 are the ends of the fields: places counted from 0, each that of the byte after the field's last,
 * which is the 17 hex behind it, and for the tenth the first checksum byte. The first field starts at place 1, each other at
 * the place after the end of the one before. */
uint32_t mctc_identification(const uint8_t *text, size_t text_length,
                             uint32_t *answer, size_t answer_length);

/* Says which entry of gas a field of the identification answer must equal (refusal 15), fields counted from 0: answer 3 is
 * the entry's number. Refuses with 16, file 0, where the field is not 3 to 9. */
uint32_t mctc_field(uint32_t field,
                    uint32_t *answer, size_t answer_length);

#ifdef __cplusplus
}
#endif

#endif
