// aff.h - AFF files in C and C++: opening, reading, writing.
//
// Link with crates/aff_c/out/libaff_c.a, which `rt lib` in crates/aff_c builds (Linux on x86-64-v2). samples/read.c and samples/write.c are complete programs.
//
// The format has three editions: 1, 2 and 3 are read, 2 and 3 are written. In editions 1 and 2 few characters are allowed in names; in edition 3 all bytes
// but '/' and zero are. The comment at aff_make has both rules.
//
// All memory is the caller's: the library allocates nothing, keeps nothing between calls, and does no input or output. Calls from several threads
// need no lock unless one of them writes memory that another one uses.
//
// Each function is proved to meet its contract (crates/aff_c/src) for all bytes and numbers that it can be passed. The caller's duties:
//   - A pointer is aligned and valid for the length that follows it, or for the number of items that the comment names. It may be null if that length
//     is 0.
//   - Memory that a call writes overlaps nothing else that is passed to it.
//   - While a call runs, nobody else changes or removes the memory: no other thread, no other process that has the file mapped, and nobody truncates a
//     mapped file. All bounds are proved for the lengths at the call.
//   - 256 KiB of stack are left. No call needs more; docs/SPEED.md has the measured figures.
//
// Every function but aff_form and aff_form_for returns AFF_OK or one of the numbers below.
//
// Programs written for an older header, in which AFF_NUMBERS is 7, must be changed and compiled again: aff_begin takes the edition as its first argument,
// and numbers[2] of the writer's record is the edition, so that the numbers after it have moved by one. If AFF_RECORD is 12 in the older header, the record
// of an opening has one number more, and aff_lookup has one more output, place. And a number that an older header calls the number of bytes of data,
// numbers[6] or numbers[5], is now the end of data, a place: a program that computes the file's size from it must be changed (see aff_close).
#ifndef AFF_H
#define AFF_H

#include <stdbool.h>
#include <stddef.h>
#include <stdint.h>

#ifdef __cplusplus
extern "C" {
#endif

// Refusals. Some also report a place: aff_open_image in record[0], aff_lookup in place, the writer in numbers[0]. The place of the others is 0. 10 reports
// a second number, in record[12]. A place in a name or a path counts its bytes from 0.
enum {
    AFF_OK = 0,
    AFF_ERR_LENGTH = 1,            // A work area or the form has a wrong length, or the image has more than 2,147,483,647 bytes.
    AFF_ERR_SHORT = 2,             // The image is shorter than 144 bytes, or than 168 bytes if its text is that of edition 2 or 3.
    AFF_ERR_SIGNATURE = 3,         // The image does not begin with the text of an edition: it is no AFF file, or one that was never closed. aff_begin: the edition is not 2 or 3.
    AFF_ERR_FORM = 4,              // The 12 bytes after that text differ from the form that was passed.
    AFF_ERR_HEADER_SUM = 5,        // The header's MD5 sum is wrong.
    AFF_ERR_SECTION = 6,           // A section ends past the image. Place: 1 symbols, 2 tree, 3 data.
    AFF_ERR_SECTION_SUM = 7,       // A section's MD5 sum is wrong. Place: 1 symbols, 2 tree, 3 data.
    AFF_ERR_SYMBOLS = 8,           // Withdrawn; no call returns it. In old logs: the symbol table's last byte is not zero, or, before 25 to 27 were added, one of these.
    AFF_ERR_TREE = 9,              // A tree entry is cut short, of no type, or the 2,049th. Place: the entry; 0 if their number is not the one in the header (editions 2 and 3).
    AFF_ERR_NODE = 10,             // A node's parent or string does not exist, or its name is malformed. Place: the lowest such node. record[12]: where its name is malformed, else 0.
    AFF_ERR_CYCLE = 11,            // A node's parents do not lead to the root. Place: the lowest such node.
    AFF_ERR_SIBLING = 12,          // A node has the name of a sibling with a lower number. Place: the lowest such node.
    AFF_ERR_DATA = 13,             // A node's data is not inside the data section. Place: the lowest such node.
    AFF_ERR_NAME = 14,             // The path or the name is malformed. Place: the first byte that breaks the rule, or the length if it ends too early; see aff_lookup and aff_make.
    AFF_ERR_NOT_FOUND = 15,        // No node has that path or number.
    AFF_ERR_INDEX = 16,            // The index is not below the number of elements.
    AFF_ERR_EXISTS = 17,           // The parent has a child of that name already.
    AFF_ERR_HAS_DATA = 18,         // The node is the root, or it has data already.
    AFF_ERR_TYPE = 19,             // The type is not 2 to 5, or the bytes are no whole number of elements.
    AFF_ERR_FULL = 20,             // There would be over 2,048 nodes, over 2,048 strings, or over 32,768 bytes of text.
    AFF_ERR_SPACE = 21,            // The buffer is too short for the file, or the output for the path or the listing.
    AFF_ERR_CLOSED = 22,           // The file is closed or stopped.
    AFF_ERR_ALLOWANCE = 23,        // The allowance is smaller than the number of bytes to store. Place: how many were stored.
    AFF_ERR_MISMATCH = 24,         // Record, work areas and image or buffer do not belong together; or the recorded edition is not 1 to 3 (reading), not 2 or 3 (writing).
    AFF_ERR_TOO_MANY_STRINGS = 25, // The symbol table has over 2,048 strings. Place: 2,048, the first string beyond; strings are numbered from 0.
    AFF_ERR_STRING_COUNT = 26,     // Editions 2 and 3: the number of strings is not the one in the header. The header of edition 1 has no such number.
    AFF_ERR_REPEATED_STRING = 27,  // A string of the symbol table equals an earlier one. Place: the lowest such string.
    AFF_ERR_ARGUMENT = 255         // aff_open_image: the record is too short. aff_decode: there is no such type.
};

// Lengths: the two work areas and the record of an opening, the writer's two work areas and its numbers, and the form.
enum { AFF_STRINGS = 2048, AFF_ENTRIES = 2048, AFF_RECORD = 13, AFF_TEXT = 32768, AFF_TREE = 51200, AFF_NUMBERS = 8, AFF_FORM = 12 };

// The types of a node. A Void node has no data; a node of another type may have 0 elements.
enum { AFF_VOID = 1, AFF_CHAR = 2, AFF_INT = 3, AFF_DOUBLE = 4, AFF_COMPLEX = 5 };

// ---- The form: the 12 signature bytes after the text

// Stores the 12 bytes that follow the text in files of an edition (1, 2 or 3) with IEEE 754 doubles, at the front of the output. Pass them to aff_begin.
// Returns true; returns false and stores nothing if there is no such edition or the output has fewer than 12 bytes.
bool aff_form(uint32_t edition, uint8_t *output, size_t output_length);

// The same for the edition that the text of an image names, and for edition 2 if it names none. Pass them to aff_open_image. Returns true; returns false
// and stores nothing if the output has fewer than 12 bytes.
bool aff_form_for(const uint8_t *image, size_t image_length, uint8_t *output, size_t output_length);

// ---- Opening

// Checks a complete file in memory against all rules of the format, MD5 sums included, and fills both work areas and the record, which the reading
// calls take. record[0] is the place of a refusal (else 0), [1] the image's length, [2] the edition, [3] and [4] offset and size of the symbol
// section, [5] and [6] of the tree section, [7] and [8] of the data section, [9] the number of strings, [10] of nodes without the root, [11] of data
// records as the header has it (0 in edition 1), [12] the second number of a refusal with 10 (else 0).
// The strings of the symbol section are separated by zero bytes: each ends at its zero. If the section's last byte is not zero, the bytes after its last
// zero are one more string, which ends at the section's end. 25 to 27 are about the strings found this way.
// The faults are looked for in the order 1 to 7, 25 to 27, 9 to 13, and the first found is the number. The place is that of a section, a string, an entry
// or a node, by the number. After 1 the work areas are unchanged, after another refusal they are all zero; record[1] to record[11] are 0 after every
// refusal. Returns 255 and changes nothing if the record has fewer than 13 numbers.
// After 10, record[12] is the place in the node's name of the first byte that breaks the edition's rule for names (see aff_make), if the node's string
// exists and is malformed; the parent may exist or not. For an empty name it is 0. It is also 0 if the string does not exist, or if only the parent is wrong: a 0
// alone does not say that the name is malformed.
uint32_t aff_open_image(const uint8_t *image, size_t image_length, const uint8_t *form, size_t form_length, uint32_t *strings,
    size_t strings_length, uint32_t *entries, size_t entries_length, uint64_t *record, size_t record_length);

// ---- Reading

// What every reading call takes first: the image, the record (its first 12 numbers are read) and the work areas, as the opening left them. A node is a
// number: 0 is the root, the others go from 1 to record[10]. Each call first validates all of that, in time proportional to the number of strings and
// nodes, and returns 24 if it does not belong together or the recorded edition is not 1, 2 or 3. A string must begin inside the recorded symbol section, before the section's end; it ends at the
// first zero from there on, or at the section's end. A refused call leaves its outputs unchanged, except place of aff_lookup.
#define AFF_OPENED                                                                                                                     \
    const uint8_t *image, size_t image_length, const uint64_t *record, const uint32_t *strings, size_t strings_length,                \
        const uint32_t *entries, size_t entries_length

// Finds the node with a path such as "/a/n"; the root's path is "/". Returns 14 for a malformed path, 15 if no node has it. Any other path than "/" is one
// or more times a '/' and a name; the rule for names is that of the image's edition, record[2], and the comment at aff_make has it. Names are compared byte
// by byte.
// place is written in every case. After 14 it is the place in the path of the first byte that breaks this rule. If a name is empty, it is the place where
// the name would begin: 1 in "//a", and 3, which is path_length, in "/a/". If the path does not begin with '/' or is empty, it is 0. After every other
// answer it is 0.
uint32_t aff_lookup(AFF_OPENED, const uint8_t *path, size_t path_length, uint64_t *node, uint64_t *place);

// Stores the numbers of nodes at the front of the output, each node before its children, these in number order and each child followed by its whole
// subtree. With all true: every node, the root first. With all false: the same order without the Void nodes, so without the root; a node of another type
// is listed also if it has no elements, and so are the nodes below a Void one. count is how many numbers were stored. With all true that is record[10] + 1;
// with all false it is at most record[10], and 0 if all nodes are Void. Returns 21 if the output has fewer places than that.
uint32_t aff_listing(AFF_OPENED, bool all, uint32_t *output, size_t output_length, uint64_t *count);

// Finds a node's name: the size bytes at image + offset. It is not a C string: a zero byte usually follows it, but the last name of the symbol section
// may end at the section's end, and then any byte or none follows. Use size. The root's name is empty, with offset and size 0. Returns 15 for a number
// of no node.
// A name of edition 3 may hold any byte but '/' and zero: spaces, line feeds, escape characters, bytes above 126. Print names and paths with care. The
// programs `list` and `listall` print a byte below 33, above 126 or equal to 92 (the backslash) as \x and two small hexadecimal digits; the calls here never
// do so.
uint32_t aff_name(AFF_OPENED, uint64_t node, uint64_t *offset, uint64_t *size);

// Finds a node's data: the size bytes at image + offset, big-endian as the file has them; size is 0 for a Void node. Returns 15 for a number of no
// node.
uint32_t aff_view(AFF_OPENED, uint64_t node, uint64_t *offset, uint64_t *size);

// Reports a node's type (AFF_VOID to AFF_COMPLEX). Returns 15 for a number of no node.
uint32_t aff_kind(AFF_OPENED, uint64_t node, uint64_t *kind);

// Reports how many elements a node has; 0 for a Void node. Returns 15 for a number of no node.
uint32_t aff_count(AFF_OPENED, uint64_t node, uint64_t *count);

// Stores a node's path at the front of the output, with the bytes of the names as they are and no zero after it, and its length in size. Returns 15 for a number of no node, 21 if the
// output is too short; no call reports the length needed, so double the output and call again.
// A path has at most record[10] * (record[4] + 1) bytes (1 for the root): at most 2,048 components, each a '/' and one string of the symbol section, which
// may be all of it. A file of this library's writer has paths of at most 2,048 * 32,768 bytes, 64 MiB. A file from elsewhere may come near 2,048 *
// 2,147,483,647 bytes, 4 TiB, as a long string can name every node of a chain; so set a limit of your own.
uint32_t aff_path(AFF_OPENED, uint64_t node, uint8_t *output, size_t output_length, uint64_t *size);

// Reads one element as a number. A Char (0 to 255) and an Int are exact. A Double has the stored value and sign: signed zeros, subnormal numbers and
// infinities too. Every NaN pattern is returned as one NaN: its sign and payload are lost (aff_view finds the stored bytes). imaginary is 0 except for
// a Complex, whose two parts are read as two Doubles. Returns 15 for a number of no node, 16 for an index not below the node's count.
uint32_t aff_element(AFF_OPENED, uint64_t node, uint64_t index, double *value, double *imaginary);

// Reads one element of bytes that aff_view found, as aff_element does, without validating the record again: use it to read a whole node. kind is the
// node's type. Returns 16 if the bytes hold no whole element of that index, and always for AFF_VOID; 255 if kind is not 1 to 5.
uint32_t aff_decode(uint64_t kind, const uint8_t *bytes, size_t bytes_length, uint64_t index, double *value, double *imaginary);

// ---- Writing a file of edition 2 or 3 into a buffer

// The writer's record is 8 numbers and 12 bytes of form, kept. numbers[0] is what the last call reported; [1] is the buffer's length, [2] the edition,
// [3] the number of strings, [4] of bytes of text, [5] of nodes without the root; [6] is the end of data, the place after the last byte that an accepted
// aff_put stored, zeros included, and 168 while there is none; [7] is 1 while the file is open, and any other number means closed or stopped. Pass record, work
// areas and buffer to each call as the last one left them. aff_make, aff_put and aff_close first return 24 if they do not belong together, if the recorded edition is not 2 or 3, or if the
// recorded end of data is below 168 or past the buffer, and then 22 if the file is not open.
//
// The data of each node begin at a multiple of 8 from the start of the file: aff_put stores zeros up to the next one first, none if the data end at one. So in
// a file mapped at a page, or in a buffer at a multiple of 8, the Doubles are aligned. Their bytes are big-endian. Files of other writers, and those of this
// library before it aligned data, need not be aligned.
//
// A buffer that is never too small, in whatever order the calls come: 168 bytes, 14 and the name's bytes for each aff_make, and 19 and the data's bytes for
// each aff_put, if this is at most 2,147,483,647. (A name used again, and data that need fewer zeros than 7, take less.)
//
// The order of aff_put calls that follow each other does not show in the tree: make the nodes first, then put the data in whatever order they come. In a
// buffer of that size, with an allowance of at least 7 more than its bytes for each aff_put, every order is accepted if one is, and the files show the same
// nodes, types, counts and bytes. The files may differ in the places of the data, and by up to 7 bytes in size.
//
// An allowance is the largest number of bytes that a call may store in the buffer; UINT64_MAX is no limit. After a refusal with 23 exactly that many
// are stored, numbers[0] is their number, numbers[7] is 0, and the work areas are unchanged; the file cannot be continued. After any other refusal only
// numbers[0] has changed: after 14 it is the place in the name, else it is 0. But aff_begin refused with 1, 3 or 21 sets numbers and kept to zero, so that
// every later call returns 24.
//
// From an accepted aff_begin on, until aff_close has stored its last byte, opening the buffer returns 3: a file that a killed process leaves behind is
// never taken for a finished one. After a refused aff_begin the buffer is as it was. (This is proved of the stores in the order of the definitions. That the
// compiled code makes the first of them first and the last one last is tested, see docs/EVIDENCE.md.) Loss of power is not covered, as the system writes
// the pages of a file in any order. To survive it, write the file back after aff_close (msync, fsync), and only then give it the name that others open
// (rename). samples/write.c does so.
#define AFF_WRITER uint64_t *numbers, const uint8_t *kept

// Begins a file of an edition, 2 or 3, in a buffer of at least 168 bytes, the size of the header in both: stores a 0 at its front, clears both work areas,
// and sets numbers and kept (12 bytes). numbers[0] is the number of bytes stored, 1. The 12 bytes of form are written to the file as they are; aff_form
// stores those that readers expect. Returns, in this order, 1 for a wrong length of form, text or tree or a buffer above 2,147,483,647 bytes, 3 for an
// edition other than 2 and 3, 21 for a buffer below 168 bytes, 23 for an allowance of 0. Refused, it stores nothing in the buffer and clears nothing.
uint32_t aff_begin(uint32_t edition, uint8_t *buffer, size_t buffer_length, const uint8_t *form, size_t form_length, uint8_t *text,
    size_t text_length, uint8_t *tree, size_t tree_length, uint64_t allowance, uint64_t *numbers, uint8_t *kept);

// Adds a Void node below a parent; numbers[0] is its number. The rule for names depends on the edition:
//   - Editions 1 and 2: a name begins with a letter, '_' or ':'; letters, digits and any of . - _ : may follow.
//   - Edition 3: a name is one or more bytes, none of them '/' or zero.
// Nothing is stored in the buffer. Returns 15 if there is no such parent, 14 for a malformed name, 17 if the parent has a child of that name, 20 if a
// limit is passed, 21 if the finished file would not fit the buffer. After 14, numbers[0] is the place in the name of the first byte that breaks the rule,
// which may be a '/' or a zero byte; it is 0 for an empty name.
uint32_t aff_make(const uint8_t *buffer, size_t buffer_length, AFF_WRITER, uint8_t *text, size_t text_length, uint8_t *tree, size_t tree_length,
    uint64_t parent, const uint8_t *name, size_t name_length);

// Gives a Void node its type and its data, once; the bytes are stored as they are, so pass them big-endian. 0 bytes are an empty array. Zeros are stored
// before them, up to the next multiple of 8 in the buffer, for 0 bytes too. numbers[0] is the number of bytes stored, with those zeros. Returns 15 if there
// is no such node, 18 for the root or a node with data, 19 for a type other than 2 to 5 or for bytes that are no whole number of elements, 21 if the finished
// file would not fit the buffer.
uint32_t aff_put(uint8_t *buffer, size_t buffer_length, AFF_WRITER, const uint8_t *text, size_t text_length, uint8_t *tree, size_t tree_length,
    uint64_t node, uint64_t kind, const uint8_t *bytes, size_t bytes_length, uint64_t allowance);

// Finishes the file: stores strings, entries, the header from byte 1 on, and last the first byte. numbers[0] is the number of bytes stored, numbers[7]
// is 0. The file is then the first numbers[6] + numbers[0] - 168 bytes of the buffer: up to the end of data, then strings and entries; 168 is the header,
// which is counted in both. The whole buffer opens too. An open file always fits its buffer.
uint32_t aff_close(uint8_t *buffer, size_t buffer_length, AFF_WRITER, const uint8_t *text, size_t text_length, const uint8_t *tree,
    size_t tree_length, uint64_t allowance);

#ifdef __cplusplus
}
#endif

#endif
