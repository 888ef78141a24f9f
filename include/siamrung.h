/*
 * siamrung.h: the calls of the Siamrung converter for C and C++ programs. They read a line of words, write a report into a line, read a link
 * data field and write one, read a frame of the communications channel and write one, serve an index of the last report of each file number, and
 * list which reports of a line break rules between fields.
 *
 * Lines. A line is a slice of bytes: a pointer and the number of bytes. Two bytes are a word, high byte first. A line has at most 65,536
 * bytes, which are 32,768 words. An empty slice may be NULL with the length 0. A place is a number of words from the start of the line,
 * counted from 0. Every slice and every place gets an answer. What cannot be read gets a refusal; it is never passed over.
 *
 * Reading. A call that reads a line at a place answers one number about the run of words there. It skips the idle words from the place on. From a
 * place inside a run, the run begins at that place. A call that reads writes nothing (but siamrung_frame_field, which copies, and
 * siamrung_index_enter, which writes into its table). A call reads its own run and no more of the line. So a program that goes from run to run by
 * siamrung_after does work in proportion to the line. One call has no place: siamrung_manners reads the whole line, and writes a list.
 *
 * Altitudes. Sensors send the altitude of DABS and ATCRBS in one of two forms. The words do not tell which: the program must know it, and passes it
 * as the argument form to every call that reads a line or writes a report. 0 (SIAMRUNG_FORM_SIGN_MAGNITUDE) is a sign and eleven bits. Any other
 * number (SIAMRUNG_FORM_TWOS_COMPLEMENT) is a number in two's complement. Pass the same form to all calls about one run; other runs may have the
 * other. Only altitudes whose first bit is one depend on the form, and with them refusals 9 and 11; where a run begins and ends does not. Read with
 * the wrong form, an altitude v below zero (in hundreds of feet) becomes -2048 - v: -3 becomes -2045. No refusal tells it; only the bits 100000000000
 * are refused in form 0, with 9, and are -2048 in the other form.
 *
 * Links. A site may have several parallel links for surveillance data. The words do not tell on which one they came: the program must know it, and
 * passes the link's number, 0 to 15 (SIAMRUNG_LAST_LINK), as the argument link to every call that reads a line at a place. Pass the same number to
 * all calls about one line. Every outcome, a report, a refusal or the end, has that number, and siamrung_link answers it. It is no part of the
 * words. It changes nothing else: every other call answers the same with each number from 0 to 15. A greater number is refused with 13, before the
 * line is looked at; the outcome then has link 0, and this does not say that it came on link 0. A program that has one link passes 0.
 * siamrung_manners and the lister take no link number, and read with link 0. The calls that write have no link. The arguments form, link, item and
 * scan have one type: no compiler sees it if two of them are exchanged.
 *
 * Threads. No call keeps anything, so any thread may call at any time. But while a call writes into bytes, into a table or into a list, no other
 * thread may use them.
 *
 * Writing. The program passes items: a slice of bytes, sixteen bytes an item. The first eight bytes are the item's number, the last eight are its
 * value, high byte first. A negative value is in two's complement of 64 bits, whatever the form is. The items stand in any order. The program passes
 * all items of that kind (or type), each once, and no others: nothing is filled in, and nothing is passed over. The bytes that a call writes must
 * overlap no other slice that is passed to it.
 *
 * Frames. A stream of frames is counted in bits: see "calls that read a frame" below.
 *
 * The index. The program keeps a table of entries and lends it to each call: see "calls of the index" below.
 *
 * Manners. A report that breaks a rule between its fields is accepted all the same; one call lists such reports: see "the call of manners" below.
 *
 * Versions. The numbers below keep their meaning: none is ever used for something else. siamrung_version grows with each change of the calls, and of
 * what they accept. Version 3 added the calls of frames. Version 4 accepts an ELM_DOWNLINK with LENGTH 0, alone and relayed, which was refused (28,
 * and 30 in writing). Version 5 added the calls of the index. Version 6 added the argument form behind place, in the calls from siamrung_kind to
 * siamrung_seconds, in siamrung_write, siamrung_write_refusal and siamrung_index_enter; with 0 they do what they did before. A program that has such
 * a call does not compile with this header until it passes a form. A program that was compiled with the header of a version before 6 must be
 * compiled again before it is linked with this library: its calls would pass no form, and altitudes would be wrong. siamrung_version tells it:
 * compare its answer with the version that the program was written for. Version 7 added siamrung_manners. Version 8 added siamrung_link, and the
 * argument link behind form in the calls from siamrung_kind to siamrung_seconds and in siamrung_index_enter; with a number from 0 to 15 they do what
 * they did before. Here too a program must be changed, and compiled again before it is linked with this library. In a program that was compiled with
 * the header of version 6 or 7, siamrung_has and siamrung_item would take the item's number for the link, and siamrung_index_enter the scan number.
 * The other calls would take whatever happens to stand there. So items would be missing, reports would not be entered, and lines could be refused
 * with 13. Let a program compare, before anything else, the answer of siamrung_version with SIAMRUNG_VERSION, as the programs in examples/ do. A
 * call that accepts more than before keeps its name. If the meaning of a call changes in any other way under the same arguments, it gets a new name,
 * so that an old program does not link with it.
 */
#ifndef SIAMRUNG_H
#define SIAMRUNG_H

#include <stddef.h>
#include <stdint.h>

#ifdef __cplusplus
extern "C" {
#endif

/* the version of this header. Compare it with the answer of siamrung_version, which is that of the library */
#define SIAMRUNG_VERSION 8

/* ---- forms of the altitude, bits 79-90 of DABS and ATCRBS with Mode C and without substitution: the argument form */

/* a sign, 1 negative, and eleven bits: -2047 to 2047 hundreds of feet. Sign 1 with eleven zeros is refused with 9 */
#define SIAMRUNG_FORM_SIGN_MAGNITUDE 0
/* twelve bits in two's complement: -2048 to 2047 hundreds of feet. Every pattern is an altitude. Every number but 0 means this form */
#define SIAMRUNG_FORM_TWOS_COMPLEMENT 1

/* ---- link numbers, 0 to 15: the argument link */

/* the last one; a greater number is refused with 13. There are SIAMRUNG_LAST_LINK + 1 links */
#define SIAMRUNG_LAST_LINK 15

/* ---- kinds: what siamrung_kind answers */

#define SIAMRUNG_KIND_SEARCH 101
#define SIAMRUNG_KIND_STROBE 102
#define SIAMRUNG_KIND_MAP 103
#define SIAMRUNG_KIND_STATUS 104
#define SIAMRUNG_KIND_RTQC 105
#define SIAMRUNG_KIND_DABS 106
#define SIAMRUNG_KIND_DABS_CD 107
#define SIAMRUNG_KIND_DABS_MTD 108
#define SIAMRUNG_KIND_DABS_RDAS 109
#define SIAMRUNG_KIND_ATCRBS 110
#define SIAMRUNG_KIND_ATCRBS_CD 111
#define SIAMRUNG_KIND_ATCRBS_MTD 112
#define SIAMRUNG_KIND_ATCRBS_RDAS 113
#define SIAMRUNG_KIND_MTD 114
#define SIAMRUNG_KIND_RDAS 115
/* no report: the run at the place is refused, or the line itself, or the place itself, or the link number; siamrung_refusal says why.
 * siamrung_frame_kind answers it too, for no frame */
#define SIAMRUNG_KIND_REFUSED 120
/* no report: only idle words are left. siamrung_frame_kind answers it too, where only flags are left */
#define SIAMRUNG_KIND_END 121

/* ---- refusals: what siamrung_refusal answers */

#define SIAMRUNG_REFUSAL_NONE 0
/* reading: the link number is above 15. The line was not looked at */
#define SIAMRUNG_REFUSAL_NO_SUCH_LINK 13
/* the line has more than 65,536 bytes */
#define SIAMRUNG_REFUSAL_LINE_TOO_LONG 2
/* the line has an odd number of bytes */
#define SIAMRUNG_REFUSAL_ODD_BYTE_COUNT 14
/* the place is beyond the line's length */
#define SIAMRUNG_REFUSAL_PLACE_BEYOND_LINE 1
/* a word of the run is above 8191 */
#define SIAMRUNG_REFUSAL_WORD_TOO_WIDE 3
/* a word of the run has an even number of ones */
#define SIAMRUNG_REFUSAL_EVEN_WORD 4
/* the first word has no known form */
#define SIAMRUNG_REFUSAL_UNKNOWN_FORM 5
/* the first word says 4 (or 7) words, and the run has another number of words */
#define SIAMRUNG_REFUSAL_WRONG_LENGTH 6
/* seven words: bit 12 is one, and bits 88-90 have a value that is not assigned for that bit 4 */
#define SIAMRUNG_REFUSAL_UNASSIGNED_RADAR 7
/* a zero bit or a spare bit is one */
#define SIAMRUNG_REFUSAL_SPARE_BIT_SET 8
/* the altitude is minus zero: sign 1 and magnitude 0. Never given in two's complement */
#define SIAMRUNG_REFUSAL_MINUS_ZERO 9
/* writing: a value is too large for its field, or an altitude is outside the range of its form, or kind and items are no record */
#define SIAMRUNG_REFUSAL_VALUE_TOO_LARGE 11
/* writing: from the place on there are too few words for the report and one idle word */
#define SIAMRUNG_REFUSAL_NO_ROOM 10

/*
 * ---- items: the values of a report, for siamrung_has, siamrung_item and siamrung_write. A flag is 0 or 1.
 *
 * SEARCH: TEST FAA AF RANGE AZIMUTH AIMS AIMS_CODE RUN TIME
 * STROBE: TEST FAA AF RANGE AZIMUTH RUN TIME
 * MAP: TEST VARIATION FAA AF START AZIMUTH STOP
 * STATUS: TEST FAA AF SECOND THIRD FOURTH
 * RTQC: FAA AF RANGE AZIMUTH RUN TIME
 * DABS: TEST PRIMARY SPI REINFORCED CODE7700 CODE7600 FAA RANGE AZIMUTH ALERT RELAY TIME ADDRESS, and ALTITUDE or CARRIED
 * ATCRBS: TEST MODE3A SPI REINFORCED CODE7700 CODE7600 FAA RANGE AZIMUTH CONFIDENCE TRANSITION FALSE_TARGET RELAY TIME CODE FILE, and
 * ALTITUDE or CARRIED
 * DABS_CD and ATCRBS_CD: as DABS and ATCRBS, but with MODE_C and RUN instead of ALTITUDE or CARRIED
 * DABS_MTD, DABS_RDAS, ATCRBS_MTD, ATCRBS_RDAS: as DABS and ATCRBS, but with MODE_C and QUALITY instead of ALTITUDE or CARRIED
 * MTD: TEST FAA RANGE AZIMUTH AIMS TIME DOPPLER1 DOPPLER2 FILE QUALITY CONFIDENCE FALSE_TARGET GROUND
 * RDAS: TEST FAA RANGE AZIMUTH AIMS TIME FILE QUALITY FALSE_TARGET
 */

#define SIAMRUNG_ITEM_TEST 1
#define SIAMRUNG_ITEM_FAA 2
#define SIAMRUNG_ITEM_AF 3
/* one count is 1/8 nmi; in DABS, ATCRBS (also with substitution), MTD and RDAS it is 1/128 nmi */
#define SIAMRUNG_ITEM_RANGE 4
/* 4096 counts are the circle; in DABS, ATCRBS (also with substitution), MTD and RDAS 8192 counts are */
#define SIAMRUNG_ITEM_AZIMUTH 5
/* time in storage; one count is 1/8 s */
#define SIAMRUNG_ITEM_TIME 6
/* run length; one count is 4 ACP */
#define SIAMRUNG_ITEM_RUN 7
#define SIAMRUNG_ITEM_AIMS 8
#define SIAMRUNG_ITEM_AIMS_CODE 9
#define SIAMRUNG_ITEM_VARIATION 10
/* range start of a Map; one count is 1/8 nmi */
#define SIAMRUNG_ITEM_START 11
/* range stop of a Map; one count is 1/8 nmi */
#define SIAMRUNG_ITEM_STOP 12
/* SECOND, THIRD, FOURTH: the last three words of a Status, twelve bits each, as sent */
#define SIAMRUNG_ITEM_SECOND 13
#define SIAMRUNG_ITEM_THIRD 14
#define SIAMRUNG_ITEM_FOURTH 15
#define SIAMRUNG_ITEM_PRIMARY 16
#define SIAMRUNG_ITEM_MODE3A 17
#define SIAMRUNG_ITEM_MODE_C 18
#define SIAMRUNG_ITEM_SPI 19
#define SIAMRUNG_ITEM_REINFORCED 20
#define SIAMRUNG_ITEM_CODE7700 21
#define SIAMRUNG_ITEM_CODE7600 22
#define SIAMRUNG_ITEM_ALERT 23
#define SIAMRUNG_ITEM_RELAY 24
/* 24 bits */
#define SIAMRUNG_ITEM_ADDRESS 25
/* in ATCRBS a flag, in MTD four bits */
#define SIAMRUNG_ITEM_CONFIDENCE 26
#define SIAMRUNG_ITEM_TRANSITION 27
#define SIAMRUNG_ITEM_FALSE_TARGET 28
/* twelve bits, octal ABCD */
#define SIAMRUNG_ITEM_CODE 29
/* file number; 0 means: belongs to no track */
#define SIAMRUNG_ITEM_FILE 30
/* in hundreds of feet, a signed number in either form; the argument form says only how bits 79-90 hold it. In writing, -2047 to 2047 for sign and
 * magnitude, -2048 to 2047 for two's complement; any other value is refused with 11 */
#define SIAMRUNG_ITEM_ALTITUDE 31
/* bits 79-90 as sent, where they are no altitude */
#define SIAMRUNG_ITEM_CARRIED 32
/* in MTD and RDAS, and in the substitutions by MTD and RDAS */
#define SIAMRUNG_ITEM_QUALITY 33
#define SIAMRUNG_ITEM_DOPPLER1 34
#define SIAMRUNG_ITEM_DOPPLER2 35
#define SIAMRUNG_ITEM_GROUND 36

/* ---- types of link data fields, in hexadecimal as in the document. siamrung_field_type answers them; siamrung_field_write takes all of them
 * except RELAY */

/* to the sensor */
#define SIAMRUNG_TYPE_TACTICAL_UPLINK 0x21
#define SIAMRUNG_TYPE_ELM_UPLINK 0x22
#define SIAMRUNG_TYPE_DOWNLINK_REQUEST 0x23
#define SIAMRUNG_TYPE_ID_REQUEST 0x24
#define SIAMRUNG_TYPE_CAPABILITY_REQUEST 0x02
#define SIAMRUNG_TYPE_CANCELLATION 0x25
#define SIAMRUNG_TYPE_TEST 0x61
#define SIAMRUNG_TYPE_ALTIMETER_CORRECTION 0x9B
#define SIAMRUNG_TYPE_ATC_FAILURE 0x99
#define SIAMRUNG_TYPE_SENSOR_FAILURE 0x65
#define SIAMRUNG_TYPE_DABS_CONTROL_STATE 0x9A
#define SIAMRUNG_TYPE_ATCRBS_CONTROL_STATE 0x96
/* from the sensor */
#define SIAMRUNG_TYPE_REJECTION_NOTICE 0x31
#define SIAMRUNG_TYPE_DELIVERY_NOTICE 0x32
#define SIAMRUNG_TYPE_TACTICAL_DOWNLINK 0x41
#define SIAMRUNG_TYPE_ELM_DOWNLINK 0x42
#define SIAMRUNG_TYPE_UTILITY 0x43
#define SIAMRUNG_TYPE_CAPABILITY 0x44
#define SIAMRUNG_TYPE_ID_CODE 0x45
#define SIAMRUNG_TYPE_TEST_RESPONSE 0x62
#define SIAMRUNG_TYPE_CONTROLLER_ALERT 0x83
#define SIAMRUNG_TYPE_RELAY 0x03

/* ---- refusals of link data fields: what siamrung_field_refusal and siamrung_field_write_refusal answer; 0 means not refused */

/* the count of bits is under 8 or over 2008 */
#define SIAMRUNG_FIELD_REFUSAL_COUNT_OUT_OF_RANGE 20
/* the number of bytes is not count/8 rounded up */
#define SIAMRUNG_FIELD_REFUSAL_WRONG_BYTE_COUNT 21
/* a bit after the count is one */
#define SIAMRUNG_FIELD_REFUSAL_BIT_AFTER_COUNT 22
/* the type is not in Table 5-1 */
#define SIAMRUNG_FIELD_REFUSAL_UNKNOWN_TYPE 23
/* the type is known, but the converter does not carry it */
#define SIAMRUNG_FIELD_REFUSAL_TYPE_NOT_CARRIED 24
/* the type is one that travels the other way */
#define SIAMRUNG_FIELD_REFUSAL_WRONG_DIRECTION 25
/* a relay or a test response inside a relay */
#define SIAMRUNG_FIELD_REFUSAL_NOT_RELAYED 29
/* the count of bits is not the layout's */
#define SIAMRUNG_FIELD_REFUSAL_WRONG_BIT_COUNT 26
/* a spare bit is one */
#define SIAMRUNG_FIELD_REFUSAL_SPARE_BIT_SET 27
/* a value is not in use */
#define SIAMRUNG_FIELD_REFUSAL_VALUE_NOT_IN_USE 28
/* writing: a value is too large or not in use; the items, the list or the text are not those of the type; SENSOR is passed with a type that is
 * not relayed */
#define SIAMRUNG_FIELD_REFUSAL_NOT_WRITABLE 30
/* writing: there are too few bytes for the field */
#define SIAMRUNG_FIELD_REFUSAL_NO_ROOM 31

/* ---- what siamrung_frame_kind answers, besides SIAMRUNG_KIND_REFUSED and SIAMRUNG_KIND_END */

#define SIAMRUNG_KIND_FRAME 122

/* ---- refusals of frames: what siamrung_frame_refusal and siamrung_frame_write_refusal answer; 0 means not refused */

/* the count is greater than eight times the number of bytes (in writing: the count of the bytes, or that of the field); or, in reading, no flag
 * begins at the place */
#define SIAMRUNG_FRAME_REFUSAL_COUNT_OR_FLAG 44
/* before the closing flag five ones have no zero after them that was inserted; if there is no closing flag, before the end */
#define SIAMRUNG_FRAME_REFUSAL_ZERO_MISSING 41
/* there is no closing flag */
#define SIAMRUNG_FRAME_REFUSAL_NO_CLOSING_FLAG 45
/* between the flags, without the inserted zeros, stand fewer than 32 bits or more than 2040; in writing: the field has more than 2008 bits */
#define SIAMRUNG_FRAME_REFUSAL_WRONG_LENGTH 40
/* the frame check sequence is wrong */
#define SIAMRUNG_FRAME_REFUSAL_WRONG_CHECK 43
/* the address is neither of the two */
#define SIAMRUNG_FRAME_REFUSAL_UNKNOWN_ADDRESS 42
/* writing: the frame does not fit between the place and the count */
#define SIAMRUNG_FRAME_REFUSAL_NO_ROOM 46

/* ---- the index: what was done, as siamrung_index_done takes it out of an answer. The refusals of the index below are such numbers too */

/* the report's number was not in the table: it took the first unused entry */
#define SIAMRUNG_INDEX_ENTERED 123
/* the report's number was in the table: this report has replaced the earlier one in its entry */
#define SIAMRUNG_INDEX_REPLACED 124
/* no number is entered for what stands at the place: the table is as it was */
#define SIAMRUNG_INDEX_LEFT 125
/* the number's entry was found */
#define SIAMRUNG_INDEX_FOUND 126
/* no entry has the number */
#define SIAMRUNG_INDEX_MISSING 127

/* ---- refusals of the index: the table is as it was */

/* the table has more than 512 entries; or an entry with a number other than 0 stands after one with number 0; or two entries have the same number
 * other than 0 */
#define SIAMRUNG_INDEX_REFUSAL_TABLE_BROKEN 50
/* entering: the report's number is not 0 and not in the table, and the table has no unused entry */
#define SIAMRUNG_INDEX_REFUSAL_TABLE_FULL 51

/* ---- manners: the rules between fields whose breaches siamrung_manners lists. The sections are those of FAA-RD-80-14. No run breaks two. The call
 * lists these four and never another: a further rule would get a call of its own */

/* an ATCRBS report with substitution (ATCRBS_CD, ATCRBS_MTD, ATCRBS_RDAS) has bit 5, MODE3A, set (4.2.7) */
#define SIAMRUNG_BREACH_SUBSTITUTION_MODE3A 1
/* a DABS report, with substitution or without, is relayed (bit 47, RELAY, is one), and bit 6 is zero (4.1.4): it has CARRIED, or MODE_C is 0 */
#define SIAMRUNG_BREACH_RELAY_WITHOUT_MODE_C 2
/* an ATCRBS report without substitution has bit 6 one and bits 79-90 all zeros (4.2.2): ALTITUDE is 0. An aircraft at sea level may look so */
#define SIAMRUNG_BREACH_MODE_C_ALL_ZEROS 3
/* a Map has a STOP (bits 40-50) below its START (bits 14-24). If they are equal, it is no breach. That paper has the two fields (Table 4-2), and no
 * rule about them: this rule is the technicians' own */
#define SIAMRUNG_BREACH_MAP_STOP_BELOW_START 4

/* ---- manners: what was done, as siamrung_manners_done takes it out of an answer; else it is one of the refusals 2, 14, 52 */

/* every breach of the line is in the list */
#define SIAMRUNG_MANNERS_LISTED 128
/* the refusal 52: the list has too few bytes for all breaches. Nothing is written */
#define SIAMRUNG_MANNERS_REFUSAL_LIST_TOO_SMALL 52

/* no line has more breaches. A list for so many has 4 * 6,553 bytes */
#define SIAMRUNG_MOST_BREACHES 6553

/*
 * ---- items of link data fields, for siamrung_field_has, siamrung_field_item and siamrung_field_write. Each has the bits that the document
 * gives it.
 *
 * TACTICAL_UPLINK: ADDRESS NUMBER PRIORITY EXP TEXT
 * ELM_UPLINK: ADDRESS NUMBER PRIORITY EXP LENGTH
 * DOWNLINK_REQUEST: ADDRESS NUMBER PRIORITY EXP MSRC
 * ID_REQUEST, CAPABILITY_REQUEST: ADDRESS NUMBER
 * CANCELLATION: ADDRESS NUMBER REFERENCED REFERENCED_TYPE
 * TEST, TEST_RESPONSE: PATTERN
 * ALTIMETER_CORRECTION: N, and N + 1 list entries
 * ATC_FAILURE: STATE
 * SENSOR_FAILURE: SID SSTAT
 * DABS_CONTROL_STATE: IP IS IU, and IP + IS + IU list entries
 * ATCRBS_CONTROL_STATE: ICA IUA, and ICA + IUA list entries
 * REJECTION_NOTICE: ADDRESS REFERENCED QUAL
 * DELIVERY_NOTICE: ADDRESS REFERENCED DI
 * TACTICAL_DOWNLINK: ADDRESS TEXT
 * ELM_DOWNLINK: ADDRESS LENGTH
 * UTILITY: ADDRESS UM
 * CAPABILITY: ADDRESS CA ACA ECA
 * ID_CODE: ADDRESS CODE
 * CONTROLLER_ALERT: ACID1 ACID2 CS1 ADVISORY1 DEL1 CS2 ADVISORY2 DEL2 V1 V2
 * RELAY: SENSOR, and all items of the field inside
 */

/* 24 bits */
#define SIAMRUNG_FIELD_ITEM_ADDRESS 201
#define SIAMRUNG_FIELD_ITEM_NUMBER 202
/* P in the document; 1 means urgent */
#define SIAMRUNG_FIELD_ITEM_PRIORITY 203
#define SIAMRUNG_FIELD_ITEM_EXP 204
/* text of a tactical message, 56 bits; siamrung_field_text_place answers where an ELM's text is */
#define SIAMRUNG_FIELD_ITEM_TEXT 205
/* Length of an ELM, 4 bits; the ELM's text has 10 (LENGTH + 1) bytes. In ELM_DOWNLINK every value is in use; 0 means one segment of 10 bytes. In
 * ELM_UPLINK 0 is not in use; the text has at least two segments. */
#define SIAMRUNG_FIELD_ITEM_LENGTH 206
#define SIAMRUNG_FIELD_ITEM_MSRC 207
/* referenced number */
#define SIAMRUNG_FIELD_ITEM_REFERENCED 208
#define SIAMRUNG_FIELD_ITEM_REFERENCED_TYPE 209
/* of a test and of a test response, 48 bits */
#define SIAMRUNG_FIELD_ITEM_PATTERN 210
#define SIAMRUNG_FIELD_ITEM_N 211
#define SIAMRUNG_FIELD_ITEM_STATE 212
#define SIAMRUNG_FIELD_ITEM_SID 213
#define SIAMRUNG_FIELD_ITEM_SSTAT 214
#define SIAMRUNG_FIELD_ITEM_IP 215
#define SIAMRUNG_FIELD_ITEM_IS 216
#define SIAMRUNG_FIELD_ITEM_IU 217
#define SIAMRUNG_FIELD_ITEM_ICA 218
#define SIAMRUNG_FIELD_ITEM_IUA 219
#define SIAMRUNG_FIELD_ITEM_QUAL 220
#define SIAMRUNG_FIELD_ITEM_DI 221
#define SIAMRUNG_FIELD_ITEM_UM 222
#define SIAMRUNG_FIELD_ITEM_CA 223
#define SIAMRUNG_FIELD_ITEM_ACA 224
#define SIAMRUNG_FIELD_ITEM_ECA 225
/* twelve bits, octal ABCD */
#define SIAMRUNG_FIELD_ITEM_CODE 226
/* ACID1, ACID2: the two aircraft of a controller alert, 24 bits each; CS1 and CS2 say which form they have */
#define SIAMRUNG_FIELD_ITEM_ACID1 227
#define SIAMRUNG_FIELD_ITEM_ACID2 228
#define SIAMRUNG_FIELD_ITEM_CS1 229
#define SIAMRUNG_FIELD_ITEM_ADVISORY1 230
#define SIAMRUNG_FIELD_ITEM_DEL1 231
#define SIAMRUNG_FIELD_ITEM_CS2 232
#define SIAMRUNG_FIELD_ITEM_ADVISORY2 233
#define SIAMRUNG_FIELD_ITEM_DEL2 234
#define SIAMRUNG_FIELD_ITEM_V1 235
#define SIAMRUNG_FIELD_ITEM_V2 236
/* of a relay only, 8 bits */
#define SIAMRUNG_FIELD_ITEM_SENSOR 237

/* ---- calls that read a line */

/* Answers the version of these calls: 8, as SIAMRUNG_VERSION. It grows with each change of the calls, and of what they accept. */
uint32_t siamrung_version(void);

/* Answers what stands at the place: a kind of report, SIAMRUNG_KIND_REFUSED or SIAMRUNG_KIND_END. */
uint32_t siamrung_kind(const uint8_t *bytes, size_t length, size_t place, uint32_t form, uint32_t link);

/*
 * Answers why the run at the place is refused. The conditions are tested in the order in which they stand above (13, 2, 14, 1, 3, 4, ..), and
 * the first that holds answers. For a report and at the end the answer is SIAMRUNG_REFUSAL_NONE. Refusals 13, 2, 14 and 1 are about the link number,
 * the line or the place itself. A program that goes from run to run stops there, because siamrung_after then answers the place that was passed.
 */
uint32_t siamrung_refusal(const uint8_t *bytes, size_t length, size_t place, uint32_t form, uint32_t link);

/* Answers the place of the run's first word. At the end it answers the number of words of the line; for refusals 13, 2, 14 and 1, the place
 * that was passed. */
size_t siamrung_first(const uint8_t *bytes, size_t length, size_t place, uint32_t form, uint32_t link);

/* Answers the place after the run's last word: the program goes on from there. At the end it answers the number of words of the line; for
 * refusals 13, 2, 14 and 1, the place that was passed. */
size_t siamrung_after(const uint8_t *bytes, size_t length, size_t place, uint32_t form, uint32_t link);

/* Answers the place that a refusal names: for 3 and 4 the first such word of the run, for 5 to 9 the run's first word, for 13, 2, 14 and
 * 1 the place that was passed. For a report it answers the place of its first word, at the end the number of words of the line. */
size_t siamrung_named(const uint8_t *bytes, size_t length, size_t place, uint32_t form, uint32_t link);

/* Answers the link number of the outcome at the place: the number that was passed, for a report, for a refusal and at the end; 0 for refusal 13. So
 * look at siamrung_refusal first: 13 says that no link has the number that was passed. */
uint32_t siamrung_link(const uint8_t *bytes, size_t length, size_t place, uint32_t form, uint32_t link);

/* Answers 1 if there is a report at the place and it has the item, else 0. So for a number that is no item of reports it answers 0. */
uint32_t siamrung_has(const uint8_t *bytes, size_t length, size_t place, uint32_t form, uint32_t link, uint32_t item);

/* Answers the value of the item of the report at the place, or 0 if there is no such item. 0 may be a real value, so siamrung_has says whether
 * the item is there. */
int64_t siamrung_item(const uint8_t *bytes, size_t length, size_t place, uint32_t form, uint32_t link, uint32_t item);

/* Answers 1 if there is a report with range and azimuth at the place, else 0. Every report has them, except a Status. */
uint32_t siamrung_has_values(const uint8_t *bytes, size_t length, size_t place, uint32_t form, uint32_t link);

/* Answer the range in nmi (for a Map its range start), the azimuth in degrees and the time in seconds (for a Map 0). Each is exact. Each is +0
 * where siamrung_has_values answers 0. */
double siamrung_nmi(const uint8_t *bytes, size_t length, size_t place, uint32_t form, uint32_t link);
double siamrung_degrees(const uint8_t *bytes, size_t length, size_t place, uint32_t form, uint32_t link);
double siamrung_seconds(const uint8_t *bytes, size_t length, size_t place, uint32_t form, uint32_t link);

/* ---- calls that write a report into a line */

/*
 * Writes the report of that kind with these items into the line, from the place on: its 4 or 7 words and one idle word. Answers the place
 * after them. If the call is refused, it leaves every byte as it was and answers the place that was passed; siamrung_write_refusal says why.
 * A report that is written directly behind a word that is not idle joins the run of that word. So write at the place that the call before
 * answered.
 */
size_t siamrung_write(uint8_t *bytes, size_t length, size_t place, uint32_t form, uint32_t kind, const uint8_t *items, size_t items_length);

/*
 * Answers why siamrung_write with the same arguments is refused: the first of 2, 14, 1, 11, 10 whose condition holds, else
 * SIAMRUNG_REFUSAL_NONE. It writes nothing. It answers the same before that call and after it. 11 is also the answer where kind and items are
 * no record at all: the kind is not a kind of report, an item is not one of the kind's, an item is missing or passed twice, a flag is neither
 * 0 nor 1, or the length of the items is no multiple of sixteen.
 */
uint32_t siamrung_write_refusal(const uint8_t *bytes, size_t length, size_t place, uint32_t form, uint32_t kind, const uint8_t *items,
                                size_t items_length);

/*
 * ---- calls that read a link data field
 *
 * A field is a slice of bytes and a count of its bits: at most 2008 bits, which are 251 bytes. Bit 1 is the top bit of the first byte.
 * from_sensor says which way the field travels: 0 means to the sensor, any other number means from the sensor.
 */

/* Answers why the field is refused: the first of 20, 21, 22, 23, 24, 25, 29, 26, 27, 28 whose condition holds, else 0. In a relay of at least
 * 24 bits that comes from the sensor, 23 to 28 are about the field inside. */
uint32_t siamrung_field_refusal(const uint8_t *bytes, size_t length, size_t count, uint32_t from_sensor);

/* Answers the field's type, for a relay SIAMRUNG_TYPE_RELAY. Answers 0 if the field is refused. */
uint32_t siamrung_field_type(const uint8_t *bytes, size_t length, size_t count, uint32_t from_sensor);

/* Answers the type that the items belong to: for a relay the type of the field inside, else the field's own type. Answers 0 if the field is
 * refused. */
uint32_t siamrung_field_inner_type(const uint8_t *bytes, size_t length, size_t count, uint32_t from_sensor);

/* Answers 1 if the field is accepted and has the item, else 0. */
uint32_t siamrung_field_has(const uint8_t *bytes, size_t length, size_t count, uint32_t from_sensor, uint32_t item);

/* Answers the value of the item, or 0 if there is no such item. 0 may be a real value, so siamrung_field_has says whether the item is there. */
uint64_t siamrung_field_item(const uint8_t *bytes, size_t length, size_t count, uint32_t from_sensor, uint32_t item);

/* Answers how many list entries the field has: altimeter blocks, addresses or identifiers. Answers 0 for other types and for refused fields. */
size_t siamrung_field_entries(const uint8_t *bytes, size_t length, size_t count, uint32_t from_sensor);

/* Answers the list entry at the index, counted from 0. An entry of ALTIMETER_CORRECTION is in hundreds of feet, signed; any other entry has 24
 * bits. Answers 0 if the index is not below the answer of siamrung_field_entries. */
int64_t siamrung_field_entry(const uint8_t *bytes, size_t length, size_t count, uint32_t from_sensor, size_t index);

/* Answer the place and the length of an ELM's text, in bytes; also of a relayed ELM. For other types and for refused fields the length is 0 and
 * the place is the end of the bytes. */
size_t siamrung_field_text_place(const uint8_t *bytes, size_t length, size_t count, uint32_t from_sensor);
size_t siamrung_field_text_length(const uint8_t *bytes, size_t length, size_t count, uint32_t from_sensor);

/* ---- calls that write a link data field */

/*
 * Writes the field of that type with these items to the start of the bytes. The unused bits of the field's last byte become 0. Answers the
 * number of bits of the field. If the call is refused, it leaves every byte as it was and answers 0; siamrung_field_write_refusal says why.
 *
 * Never pass SIAMRUNG_TYPE_RELAY: to write a relay, pass the type of the field inside and add the item SENSOR. A type that travels to the
 * sensor is not relayed, and a test response is not relayed.
 *
 * list is thirty numbers, eight bytes each, high byte first, a negative number in two's complement. The entries come first, and zeros behind
 * them. For a type without a list all thirty are 0. text is the text of an ELM. For every other type it is empty.
 */
size_t siamrung_field_write(uint8_t *bytes, size_t length, uint32_t type, const uint8_t *items, size_t items_length, const uint8_t *list,
                            size_t list_length, const uint8_t *text, size_t text_length);

/*
 * Answers why siamrung_field_write with the same arguments is refused: the first of 30, 31 whose condition holds, else 0. It writes nothing. It
 * answers the same before that call and after it. 30 is also the answer where the arguments are no record at all: the type is not listed above
 * or is SIAMRUNG_TYPE_RELAY, an item is not one of the type's, an item is missing or passed twice, the length of the items is no multiple of
 * sixteen, or the length of the list is not 240.
 */
uint32_t siamrung_field_write_refusal(const uint8_t *bytes, size_t length, uint32_t type, const uint8_t *items, size_t items_length,
                                      const uint8_t *list, size_t list_length, const uint8_t *text, size_t text_length);

/*
 * ---- calls that read a frame of the communications channel
 *
 * A stream is a slice of bytes and a count of its bits, which may be fewer than eight for each byte. An empty slice may be NULL with the length
 * 0. The first bit is the top bit of the first byte, and the bits stand in the order in which they are sent. Here a place is a number of bits
 * from the start of the stream, counted from 0.
 *
 * A frame is a flag, an address of eight bits, a control of eight bits, a field of 0 to 2008 bits, a frame check sequence of sixteen bits, and
 * a flag. A flag is 01111110. Between the flags a zero is inserted after each five ones. The address is 11000000 to the sensor and 10000000
 * from it. The closing flag of a frame may be the opening flag of the next one. Flags with nothing between them are idle.
 *
 * No octet is turned round: of the control, too, the first bit sent is the heaviest. An octet that a paper on HDLC writes with the first bit
 * sent as the lightest has its bits here in the other order: 3F there is FC here.
 *
 * A call looks at the place, where a flag must begin. It passes the flags that follow directly, and reads the frame behind the last one. Bits
 * behind the closing flag make no difference. To walk a stream, call siamrung_frame_kind, then go on from the place that siamrung_frame_place
 * answers. After a frame and after the refusals 40, 43 and 42 this is the place of the closing flag, so that a walk does work in proportion to
 * the stream. After the refusals 44, 41 and 45 it is the place that was passed, and the walk ends there. A program that wants to go on looks for
 * a flag itself, behind the flags that follow the place directly: examples/frames.c does so.
 */

/* Answers what stands at the place: SIAMRUNG_KIND_FRAME, SIAMRUNG_KIND_REFUSED, or SIAMRUNG_KIND_END if only flags, one or more, are left. */
uint32_t siamrung_frame_kind(const uint8_t *bytes, size_t length, size_t count, size_t place);

/* Answers why the place gives no frame: the first of 44, 41, 45, 40, 43, 42 whose condition holds. Answers 0 for a frame and at the end. */
uint32_t siamrung_frame_refusal(const uint8_t *bytes, size_t length, size_t count, size_t place);

/* Answers the place to go on from: that of the closing flag for a frame and for the refusals 40, 43 and 42; the count at the end; else the place
 * that was passed. */
size_t siamrung_frame_place(const uint8_t *bytes, size_t length, size_t count, size_t place);

/* Answers which way the frame travels: 0 to the sensor, 1 from the sensor. Answers 0 if there is no frame. */
uint32_t siamrung_frame_from_sensor(const uint8_t *bytes, size_t length, size_t count, size_t place);

/* Answers the frame's control, eight bits. Answers 0 if there is no frame. */
uint32_t siamrung_frame_control(const uint8_t *bytes, size_t length, size_t count, size_t place);

/* Answers how many bits the frame's field has: 0 to 2008. Answers 0 if there is no frame. */
size_t siamrung_frame_field_count(const uint8_t *bytes, size_t length, size_t count, size_t place);

/*
 * Copies the frame's field to the start of the bytes field, and answers how many bytes it wrote: the number of the field's bits divided by
 * eight, rounded up. The unused bits of the last of them become 0, and the bytes behind it stay. If field has too few bytes, or if there is
 * no frame, the call writes nothing and answers 0. For a field of no bits, too, it writes nothing and answers 0.
 */
size_t siamrung_frame_field(const uint8_t *bytes, size_t length, size_t count, size_t place, uint8_t *field, size_t field_length);

/* ---- calls that write a frame */

/*
 * Writes a frame from the place on: both flags, and what stands between them. field_count is the number of bits of the field, which begin at the
 * top of its first byte; other bits of field make no difference. from_sensor is 0 for a frame to the sensor, any other number for one from it.
 * The bits in front of the place and behind the closing flag stay, those in the same byte too. Answers the place of the closing flag; a frame
 * that is written there next shares that flag. If the call is refused, it leaves every byte as it was and answers the place that was passed;
 * siamrung_frame_write_refusal says why.
 */
size_t siamrung_frame_write(uint8_t *bytes, size_t length, size_t count, size_t place, uint32_t from_sensor, uint8_t control,
                            const uint8_t *field, size_t field_length, size_t field_count);

/*
 * Answers why siamrung_frame_write with the same arguments is refused: the first of 44, 40, 46 whose condition holds, else 0. It writes
 * nothing. It answers the same before that call and after it.
 */
uint32_t siamrung_frame_write_refusal(const uint8_t *bytes, size_t length, size_t count, size_t place, uint32_t from_sensor, uint8_t control,
                                      const uint8_t *field, size_t field_length, size_t field_count);

/*
 * ---- calls of the index: the last report of each file number
 *
 * A table is an array of entries that the program declares, and the number of its entries (not of its bytes), at most 512. An empty table may be NULL
 * with 0 entries. If a table has more than 512, no entry is read, and the call is refused. Begin with a table of zeros.
 *
 * An entry is used if its number is not 0, also if the number is above 4,095. Of an unused entry nothing else is looked at. The used entries stand
 * first. So a program that takes an entry out must move the used entries behind it up.
 *
 * ATCRBS, ATCRBS_CD, ATCRBS_MTD, ATCRBS_RDAS, MTD and RDAS reports have a file number (SIAMRUNG_ITEM_FILE). File number 0 means uncorrelated; it is
 * never entered. A report with another number takes the first unused entry if its number is not in the table; else it replaces the earlier report in
 * its number's entry. Earlier and later are the order of the calls, whatever the scan numbers and places are. So the table has the numbers in the
 * order in which they were first entered, each with its last report. Every other outcome (a report of another kind, a refusal of the link number, the
 * line, the place or the run, the end) leaves the table as it is. So LEFT does not say that a report was accepted: siamrung_kind tells
 * a refusal and the end.
 *
 * An entry says where its report stands on its line, and not which line that is: keep the lines, and choose scan numbers by which you find them again.
 * Nor does it say the altitude's form: read the report with the form that it was entered with. Nor does it say the link: a file number
 * that comes on two links has one entry. If lines of several links are entered into one table, choose scan numbers that tell the link too.
 *
 * An answer of a call has two parts: what was done, and the entry where it was done. siamrung_index_done and siamrung_index_entry take them out. Do not
 * compare an answer itself with the numbers of what was done: take it apart first.
 */

/* An entry has sixteen bytes, with no gap. */
typedef struct siamrung_entry {
    /* the file number; 0 marks an unused entry */
    uint16_t number;
    /* the report's kind: SIAMRUNG_KIND_ATCRBS, SIAMRUNG_KIND_MTD and so on; with substitution SIAMRUNG_KIND_ATCRBS_CD and so on */
    uint16_t kind;
    /* the scan number that the program passed */
    uint32_t scan;
    /* the place of the run's first word on its line */
    size_t place;
} siamrung_entry;

/* Takes out of an answer what was done: a SIAMRUNG_INDEX_ number, or the refusal 50 or 51. */
static inline uint32_t siamrung_index_done(uint32_t answer)
{
    return answer % 256;
}

/* Takes out of an answer the entry, counted from 0, after ENTERED, REPLACED and FOUND. After any other answer it is 0; do not use it then, because
 * entry 0 belongs to another number. */
static inline size_t siamrung_index_entry(uint32_t answer)
{
    return answer / 256;
}

/*
 * Enters the report at the place, or behind the idle words there, with a scan number that the program chooses. The form matters only for an ATCRBS
 * report with an altitude of the bits 100000000000: in two's complement it is a report like any other, and in form 0 it is refused with 9, and left.
 * The link matters only if its number is above 15: what stands there is then refused with 13, and left as any refused run is. siamrung_index_done
 * takes out of the answer: 50 if the table is broken, whatever stands there; else LEFT if no report with a file number other than 0 stands there;
 * else REPLACED if the number is in the table; else ENTERED if an entry is unused; else 51. After ENTERED and REPLACED siamrung_index_entry takes
 * out which entry has the report; only that entry is written. After LEFT, 50 and 51 nothing is written. The table must not overlap the line.
 */
uint32_t siamrung_index_enter(siamrung_entry *table, size_t entries, const uint8_t *bytes, size_t length, size_t place, uint32_t form,
                              uint32_t link, uint32_t scan);

/*
 * Looks for a number's entry, and writes nothing. siamrung_index_done takes out of the answer: 50 if the table is broken; else FOUND, and
 * siamrung_index_entry takes out which entry it is; else MISSING. Number 0 and numbers above 65,535 are in no entry.
 */
uint32_t siamrung_index_find(const siamrung_entry *table, size_t entries, uint32_t number);

/*
 * ---- the call of manners: where a sensor breaks rules between fields
 *
 * Reports are accepted whether they keep the four rules above or not; the SIAMRUNG_BREACH_ numbers name them. A breach is a run that is accepted and
 * breaks one of them. No run has two. The line is not changed, and other calls answer about it as before.
 *
 * A refused run has no breach: it is not judged. So a line of refused runs has none. Go over the line with siamrung_kind to see what is refused.
 *
 * A list is a slice of bytes, four bytes a breach: two for the place of the run's first word, two for the rule's number, both high byte first.
 * siamrung_breach_place and siamrung_breach_rule take them out. The place can be passed to the calls that read a line. The breaches stand in the
 * order of their places.
 *
 * An answer has two parts: what was done, and how many breaches the line has. siamrung_manners_done and siamrung_manners_breaches take them out. Do
 * not compare an answer itself with a refusal: take it apart first.
 */

/* Takes out of an answer what was done: SIAMRUNG_MANNERS_LISTED, or the refusal 2, 14 or 52. */
static inline uint32_t siamrung_manners_done(uint32_t answer)
{
    return answer % 256;
}

/* Takes out of an answer how many breaches the line has. After LISTED so many are in the list. After 52 none of them is: do not read the list. After
 * 2 and 14 it is 0, and the line was not looked at. */
static inline size_t siamrung_manners_breaches(uint32_t answer)
{
    return answer / 256;
}

/* Take out of a list the place of breach k, and the number of its rule. Call them only after LISTED, with k from 0 on and below the number of
 * breaches that siamrung_manners_breaches takes out of that answer. */
static inline size_t siamrung_breach_place(const uint8_t *list, size_t k)
{
    return (size_t)list[4 * k] * 256 + list[4 * k + 1];
}

static inline uint32_t siamrung_breach_rule(const uint8_t *list, size_t k)
{
    return (uint32_t)list[4 * k + 2] * 256 + list[4 * k + 3];
}

/*
 * Lists the breaches of the whole line, from the start of the list on. siamrung_manners_done takes out of the answer the first of 2, 14, 52 whose
 * condition holds, else LISTED. 52 means that the list has fewer than four bytes for each breach of the line. After a refusal every byte of the list
 * is as it was; after LISTED every byte behind the last breach is. A list of 4 * SIAMRUNG_MOST_BREACHES bytes is large enough for every line. With a
 * shorter one the answer may be 52; it says how many breaches the line has, so that the program can lend enough. To count the breaches alone, pass
 * NULL and 0 for the list: siamrung_manners_breaches takes the number out, after 52 and, for a line without a breach, after LISTED.
 *
 * Pass the form of the altitude as to the other calls. But the answer and the list are the same in both forms: a run that only one of them accepts,
 * with the bits 100000000000 for the altitude, has no breach. There is no link number to pass: the line is read with link 0, and a breach has no
 * link. The list must not overlap the line. The work is in proportion to the line. A line of n words has at most (n + 1) / 5 breaches, rounded down.
 * If the list has room for so many, or if the line has none, the line is read once; else once to count, and once more to list.
 */
uint32_t siamrung_manners(const uint8_t *bytes, size_t length, uint32_t form, uint8_t *list, size_t list_length);

#ifdef __cplusplus
}
#endif

#endif
