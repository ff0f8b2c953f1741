/* haruseopda.h: plunge lists, rungs and axes for the sinking press.
 *
 * A relief is a byte of depth for each cell of a plate, row after row; a map is any byte for each cell. A plate has 1 to 240 columns and 1 to 240
 * rows, counted from 0, row 0 on top; cells off the plate have depth 0. Kind 4 is the diamond (distance is column difference plus row difference),
 * kind 8 the square (the larger difference). A job file is fields of a tag, a two-byte length and a content, see docs/CANONICAL.md.
 *
 * Every call
 *   - takes each buffer as a pointer and its length in bytes, and reads and writes nothing outside it. The caller owns all buffers; nothing is kept
 *     after the call returns, nothing is allocated. A pointer may be anything if its length is 0. A sink table alone has no length: it is always
 *     HARU_TABLE_ENTRIES numbers, and a null or shorter one cannot be told.
 *   - may be given buffers longer than needed: bytes past what it reads or writes are ignored, and stay as they are.
 *   - takes kinds, sides, levels, columns, rows and rung or residue numbers as 32 bits. One that is out of its range gets the refusal of its argument
 *     and is never cut: kind 260 gets 1 though its low byte is 4, width 65539 gets 2, level 256 gets 3, and so does a column of -1, that is 4294967295.
 *   - keeps these promises for separate buffers only: a buffer that it may write (an output, or work) must share no byte with any other buffer of the
 *     same call, as with C's restrict. Nothing checks this. Buffers that are only read may be the same or overlap, in calls of other threads too.
 *     Nothing else is asked of any argument.
 *   - ends, for every content and length, with number 0 (done) or the first refusal of the table in its order. A refusal leaves every output as it
 *     was; work buffers too, but after 5 and 12 their first width * height bytes hold anything, as they do when the call is done.
 *   - may be made from several threads at once, if they share no buffer that one of them writes. It takes less than 48 KiB of stack (40
 *     measured, with an older kit).
 *
 * Refusals (place is 0 unless said otherwise), tried in the order 1, 2, 3; the file's 6 to 11, 1 and 2 in reading order; then 4, 13, 14, 12, 15, 5:
 *    1  kind is not 4 or 8 (in a file: at the head field)
 *    2  width or height is not 1 to 240 (in a file: at the head field)
 *    3  level not 1 to 255; rung or residue number not 1 to 120; single cell off the plate
 *    4  a relief, map or work buffer is shorter than width * height
 *    5  the output file is shorter than the answer; place is the length needed
 *    6  the file ends inside a field (place: the field's first byte) or without an end field (place: the file's length)
 *    7  tag or length not allowed here (place: the field's first byte, as for 8, 9 and 10)
 *    8  the ball leaves the plate
 *    9  depth 0
 *   10  the end number is not the number of plunges
 *   11  bytes after the end field (place: the first of them)
 *   12  tidy check: the file is not tidy (place: the first byte unlike the tidied file)
 *   13  a scale number is outside its range or not a number
 *   14  the plunge number is not below the total
 *   15  sink table: an entry breaks the rule (place: the first byte of the first such entry in the field)
 *   16  press port: a write to byte 0, 6, 7 or beyond, before 17
 *   17  press port: a write or an event that the present status does not accept
 *
 * Link with libharuseopda.a, which tools/archive writes to target/staticlib.
 */
#ifndef HARUSEOPDA_H
#define HARUSEOPDA_H

#include <stddef.h>
#include <stdint.h>

#ifdef __cplusplus
extern "C" {
#endif

/* number: 0, or a refusal. value: what the call gives, 0 if it gives none or refuses. place: of a refusal, else 0. */
typedef struct {
    uint32_t number;
    uint32_t value;
    size_t place;
} haru_answer;

/* ---- maps of one level: refusals 1, 2, 3, 4. No work buffers. */

/* The clearance of one cell, as the value: the distance to the nearest cell that is less deep than level (1 to 255), off-plate cells included. */
haru_answer haru_clearance(const uint8_t *relief, size_t relief_len, uint32_t kind, uint32_t width, uint32_t height, uint32_t level, uint32_t column,
                           uint32_t row);

/* The clearance of each cell, into out. */
haru_answer haru_clearance_map(const uint8_t *relief, size_t relief_len, uint32_t kind, uint32_t width, uint32_t height, uint32_t level, uint8_t *out,
                               size_t out_len);

/* The medial axis, into out: the clearance where no neighbour's is larger, else 0. */
haru_answer haru_axis_map(const uint8_t *relief, size_t relief_len, uint32_t kind, uint32_t width, uint32_t height, uint32_t level, uint8_t *out,
                          size_t out_len);

/* Drawing back from any byte map, into out: 1 where some cell's number exceeds the distance to it, else 0. Refusals 1, 2, 4. */
haru_answer haru_reconstruct(const uint8_t *map, size_t map_len, uint32_t kind, uint32_t width, uint32_t height, uint8_t *out, size_t out_len);

/* ---- maps of all levels: refusals 1, 2, 3 (a number not 1 to 120), 4. Work buffers a and b, each of width * height bytes. */

/* Rung `number`, into out: the lowest depth within that distance (an erosion). */
haru_answer haru_rung_map(const uint8_t *relief, size_t relief_len, uint32_t kind, uint32_t width, uint32_t height, uint32_t number, uint8_t *out,
                          size_t out_len, uint8_t *a, size_t a_len, uint8_t *b, size_t b_len);

/* Residue `number`, into out: rung number - 1 less the highest rung `number` among the cell and its neighbours. */
haru_answer haru_residue_map(const uint8_t *relief, size_t relief_len, uint32_t kind, uint32_t width, uint32_t height, uint32_t number, uint8_t *out,
                             size_t out_len, uint8_t *a, size_t a_len, uint8_t *b, size_t b_len);

/* Each cell's largest residue, or the sum of its residues 1 to 120, into out. */
haru_answer haru_largest_residue_map(const uint8_t *relief, size_t relief_len, uint32_t kind, uint32_t width, uint32_t height, uint8_t *out,
                                     size_t out_len, uint8_t *a, size_t a_len, uint8_t *b, size_t b_len);
haru_answer haru_residue_sum_map(const uint8_t *relief, size_t relief_len, uint32_t kind, uint32_t width, uint32_t height, uint8_t *out, size_t out_len,
                                 uint8_t *a, size_t a_len, uint8_t *b, size_t b_len);

/* The sum of all depths, as the value. Refusals 2, 4. */
haru_answer haru_volume(const uint8_t *relief, size_t relief_len, uint32_t width, uint32_t height);

/* ---- job files */

/* number, place: as above; kind, width, height: of the head; plunges: how many. These four are 0 on a refusal. */
typedef struct {
    uint32_t number;
    uint32_t kind;
    uint32_t width;
    uint32_t height;
    size_t place;
    size_t plunges;
} haru_job;

/* Reads a file: its first fault in reading order, or what it says. Refusals 1, 2, 6 to 11. */
haru_job haru_read(const uint8_t *file, size_t file_len);

/* Draws a file into out, a relief: at each cell the highest depth among plunges whose ball holds it, 0 if none. The file's refusals, 4. */
haru_answer haru_draw(const uint8_t *file, size_t file_len, uint8_t *out, size_t out_len);

/* bytes: how long the answer's file is, 13 + 7 * plunges. rungs: how many rungs were climbed, the smallest number of a rung that is 0 everywhere: 0 for
   a relief of all 0, else one more than the largest reach listed, and at most (the smaller side + 1) / 2. It is no part of the file. All three are 0
   on a refusal. */
typedef struct {
    uint32_t number;
    size_t place;
    size_t bytes;
    size_t plunges;
    size_t rungs;
} haru_list_answer;

/* Lists a relief as a file into out. Refusals 1, 2, 4, 5. Work buffers a and b, each of width * height bytes. */
haru_list_answer haru_list(const uint8_t *relief, size_t relief_len, uint32_t kind, uint32_t width, uint32_t height, uint8_t *out, size_t out_len,
                           uint8_t *a, size_t a_len, uint8_t *b, size_t b_len);

/* Tidies a file into out: its canonical form. The file's refusals, 4, 5. Work buffers a, b and c, each of width * height bytes. */
haru_list_answer haru_tidy(const uint8_t *file, size_t file_len, uint8_t *out, size_t out_len, uint8_t *a, size_t a_len, uint8_t *b, size_t b_len,
                           uint8_t *c, size_t c_len);

/* Whether tidying would return the file's own bytes: number 0, else 12 with the first byte unlike. The file's refusals, 4, 12. Work buffers as above. */
haru_answer haru_check(const uint8_t *file, size_t file_len, uint8_t *a, size_t a_len, uint8_t *b, size_t b_len, uint8_t *c, size_t c_len);

/* ---- sink tables */

/* A sink table has a number of whole micrometres for each depth, 0 to 255. The caller owns it, keeps it between calls and lends it to them; a press
 * starts with the built-in one. Two threads may read one table at once; one that loads into it must be alone with it. */
#define HARU_TABLE_ENTRIES 256

/* A table's field: tag 5, length 512, then the entries in two bytes each, high byte first. */
#define HARU_TABLE_BYTES 515

/* Puts the built-in table into a lent one: entry d is 20 * d + d * d / 64, rounded down. */
void haru_built_in_table(uint16_t table[HARU_TABLE_ENTRIES]);

/* Loads a table from a field of any bytes in place of the table in force; refused, it keeps all 256 entries. Entry 0 must be 0, each entry larger than
 * the one before, none above 50000. Refusals, the first met: 6 (fewer than three bytes), 7 (another tag or length), 6 (fewer than 515), each at place 0;
 * 11 (more than 515, place 515); 15 (an entry breaks the rule, place 3 + 2 * entry of the first one). */
haru_answer haru_load_table(const uint8_t *field, size_t field_len, uint16_t table[HARU_TABLE_ENTRIES]);

/* Writes a table as a field into out, HARU_TABLE_BYTES long, which loads again as the same table. Refusals 15 (a load of it would be refused, with the
 * same place), 5 (place 515). */
haru_answer haru_write_table(const uint16_t table[HARU_TABLE_ENTRIES], uint8_t *out, size_t out_len);

/* ---- press motions */

/* Millimetres: half the pitch of the cells (0.0625 to 4), and the offsets of columns and rows (0 to 1000 each), ends included. */
typedef struct {
    double half_pitch;
    double column_offset;
    double row_offset;
} haru_scale;

/* changed: 1 for a change to an electrode `width` wide, 0 for a stay (width is then 0). x, y: where to travel. sink: how deep: the table's whole
 * micrometres for the depth, and for reach 0 a tenth of them more, rounded down. Millimetres; changed and all four are 0 on a refusal. */
typedef struct {
    uint32_t number;
    uint32_t changed;
    size_t place;
    double width;
    double x;
    double y;
    double sink;
} haru_motions_answer;

/* The motions of plunge number i (from 0) of a file, by the built-in table. The file's refusals, 13, 14. Each call reads the whole file first. */
haru_motions_answer haru_motions(const uint8_t *file, size_t file_len, size_t i, haru_scale scale);

/* The same by another table: one that was loaded, or any 256 numbers. */
haru_motions_answer haru_table_motions(const uint16_t table[HARU_TABLE_ENTRIES], const uint8_t *file, size_t file_len, size_t i, haru_scale scale);

/* ---- the press port: docs/PORT-OTHER.md has its statuses as a picture and a run of it, byte for byte. */

/* Where each byte stands. The plunges done have two bytes, high byte first. */
#define HARU_PORT_BYTES 8
#define HARU_PORT_STATUS 0
#define HARU_PORT_COMMAND 1
#define HARU_PORT_COLUMN 2
#define HARU_PORT_ROW 3
#define HARU_PORT_REACH 4
#define HARU_PORT_DEPTH 5
#define HARU_PORT_DONE_HIGH 6
#define HARU_PORT_DONE_LOW 7

/* The bits of a status. A port that began fresh has one of five statuses: READY, BUSY, FAULT, INTERRUPT + READY (129), INTERRUPT + FAULT (132). */
#define HARU_READY 1
#define HARU_BUSY 2
#define HARU_FAULT 4
#define HARU_INTERRUPT 128

/* What the host writes to byte 1: sink the plunge, the interrupt was seen, the fault was mended. */
#define HARU_START 1
#define HARU_ACKNOWLEDGE 2
#define HARU_CLEAR 3

/* The events of the press. The numbers are ours. */
#define HARU_EVENT_DONE 1
#define HARU_EVENT_FAULT 2

/* A port is its eight bytes, handed over by value: the caller keeps them, and shows them to the press maker where and when it likes. Any eight bytes
 * are taken; a status that is none of the five accepts nothing. */
typedef struct {
    uint8_t bytes[HARU_PORT_BYTES];
} haru_port;

/* port: the bytes after the call, and on a refusal those before it; either way the ones to keep. */
typedef struct {
    uint32_t number;
    size_t place;
    haru_port port;
} haru_port_answer;

/* A port as it is at start: status 1, all else 0. */
haru_port haru_fresh_port(void);

/* The host writes a byte. Byte 1 is a command: START turns 1 into 2, ACKNOWLEDGE 129 into 1 and 132 into 4, CLEAR 4 into 1; byte 1 keeps it if it is
 * accepted. Bytes 2 to 5 take any value with status 1, and with no other (129 is not 1). Refusals 16 (any index but 1 to 5), 17. The value is a byte:
 * a larger number is cut by C itself before the call sees it. */
haru_port_answer haru_port_write(haru_port port, size_t index, uint8_t value);

/* An event of the press, with status 2: DONE turns it into 129 and adds one to the plunges done, which stop at 65535; FAULT turns it into 132. Refusal 17
 * for all else, other numbers of an event too. */
haru_port_answer haru_port_event(haru_port port, uint32_t event);

/* Writes and events one after the other, as from a log: each has three bytes in the trace. A write is 0, its index, its value; an event is 1 (or anything
 * but 0), its number, and a byte that is not looked at. The number of each answer (0, 16 or 17) goes into numbers, one byte each; the port is the one
 * after the last. Refusals 6 (the trace ends inside an input; place: that input's first byte), 5 (fewer bytes in numbers than inputs; place: how many
 * inputs): nothing is run then. */
haru_port_answer haru_port_run(haru_port port, const uint8_t *trace, size_t trace_len, uint8_t *numbers, size_t numbers_len);

#ifdef __cplusplus
}
#endif

#endif
