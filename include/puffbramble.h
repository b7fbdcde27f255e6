/* Puffbramble's functions for C, in the archive libpuffbramble.a (x86-64 Linux; `tools/archive` writes it). What they answer is proved
 * in crates/puffbramble for all bytes and numbers: none is refused a call. What the caller owes is what C asks of any pointer.
 *
 * Lent memory. A pointer stands with the number of elements behind it (of bytes for uint8_t, of words of four bytes for uint32_t, of eight for
 * uint64_t); the memory must be readable for the whole call, and writable where the pointer is not to const; nobody else may use it meanwhile, no
 * two areas may overlap, and each must be aligned as its type is: uint8_t anywhere, uint32_t at a multiple of 4, uint64_t at a multiple of 8. Where
 * the number is 0 the pointer may be null. Nothing is kept after the call, and nothing is written outside what was lent to be written.
 *
 * The stack. puffbramble_read takes up to 64 KB, by the depth of the file's records (41 KB was seen at depth 128), puffbramble_compile up to
 * 256 KB (181 KB was seen at depth 128; `tools/stack` measures it). puffbramble_check, puffbramble_code_answer, puffbramble_code_of and
 * puffbramble_directory_of take up to 1.2 MB, whatever the image (1,044 KB was seen): their tables are local.
 * Every function may be called from several threads at once.
 *
 * From Rust, declare the same in an `extern "C"` block: pb_answer is a `#[repr(C)] struct` of seven u64, size_t is usize.
 */
#ifndef PUFFBRAMBLE_H
#define PUFFBRAMBLE_H

#include <stddef.h>
#include <stdint.h>

#ifdef __cplusplus
extern "C" {
#endif

/* An answer: 56 bytes, aligned to 8, returned by value. It had 40 before `function` and `around` were added behind the others: a program that was
 * compiled with that struct must be compiled anew before it is linked with this archive. A field that a number does not name is 0.
 *
 *   number    what the answer is: 0 accepted, else a refusal (01's table; docs/PROMISES.md says when each is given)
 *   at        3, 4, 5: the place in the tree file, in bytes; 10 to 23, and 0 from puffbramble_span_of: the span's start; 0 from
 *             puffbramble_code_of and puffbramble_code_through: the code's place in the image; 0 from puffbramble_directory_of: the
 *             directory's
 *   end       10 to 23, and 0 from puffbramble_span_of: the span's end; 0 from puffbramble_code_of, puffbramble_code_through and
 *             puffbramble_directory_of: the place behind the code, or the directory
 *   name      10, 11, 12: the number of the name; 0 from puffbramble_touch: the number of the function
 *   length    0 from the compiler: the length of the image; 31: the length that is needed; 0 from puffbramble_check: the number of instructions,
 *             from puffbramble_touch: of those that were read;
 *             0 from puffbramble_code_of and puffbramble_code_through: the length of the code; 0 from puffbramble_directory_of: how many
 *             functions it tells of
 *   function  10 to 30: the number of the name of the innermost function that was open; the script's is 3. A function is open from its parameters on
 *             to the end of its code: 17, too many parameters, is in the one around it, and so is what its closure and its own name are refused with
 *   around    10 to 30: how many functions were open around that one: 0 exactly in the script, at most 16
 */
typedef struct {
    uint64_t number;
    uint64_t at;
    uint64_t end;
    uint64_t name;
    uint64_t length;
    uint64_t function;
    uint64_t around;
} pb_answer;

/* The numbers of answers. docs/FORMATS.md says when each is given; those of 10 to 23 are what the compiler of loxcraft refuses. Beside what is named
 * here, 10 to 30 have function and around. */
enum pb_number {
    PB_ACCEPTED = 0,
    PB_WORK_SHORT = 1,                /* the table has fewer than PB_TABLE_WORDS words */
    PB_TREE_TOO_LONG = 2,             /* over 1,048,576 bytes */
    PB_TREE_FORM = 3,                 /* no tree file: at */
    PB_TREE_TOO_DEEP = 4,             /* a record at depth 129: at */
    PB_TOO_MANY_OPEN = 5,             /* a function inside 16 others: at */
    PB_ALREADY_DEFINED = 10,          /* at, end, name */
    PB_ACCESS_INSIDE_INITIALIZER = 11, /* at, end, name */
    PB_CLASS_INHERIT_FROM_SELF = 12,  /* at, end, name */
    PB_JUMP_TOO_LARGE = 13,           /* 13 to 23: at, end */
    PB_TOO_MANY_ARGS = 14,
    PB_TOO_MANY_CONSTANTS = 15,
    PB_TOO_MANY_LOCALS = 16,
    PB_TOO_MANY_PARAMS = 17,
    PB_TOO_MANY_UPVALUES = 18,
    PB_RETURN_IN_INITIALIZER = 19,
    PB_RETURN_OUTSIDE_FUNCTION = 20,
    PB_SUPER_OUTSIDE_CLASS = 21,
    PB_SUPER_WITHOUT_SUPERCLASS = 22,
    PB_THIS_OUTSIDE_CLASS = 23,
    PB_CODE_FULL = 30,                /* code or spans too short, or more than 262,144 bytes of code are open */
    PB_OUT_FULL = 31,                 /* the output is too short for the image: length */
    PB_IMAGE_REFUSED = 40,            /* no sound image */
    PB_NO_SUCH_FUNCTION = 41,         /* a sound image, and no function of that number */
    PB_NO_SUCH_BYTE = 42              /* no code byte at that offset */
};

/* Compiles a tree file to an image.
 *
 *   tree, tree_len      the file, in bytes; it is not changed
 *   options             what is asked for beside the image: PB_DIRECTORY, or 0; the other bits say nothing
 *   out, out_len        where the image goes: PB_OUTPUT_BYTES(tree_len) is room enough for every file
 *   table, table_words  a work area: at least PB_TABLE_WORDS words, or the answer is 1; more changes nothing
 *   code, code_len      a work area for the code of the functions that are open: PB_CODE_BYTES(tree_len) is enough
 *   spans, spans_words  a work area for their span runs: PB_SPAN_WORDS(tree_len) is enough
 *
 * Every lent byte is cleared, so a smaller room takes less time. The sizes named PB_FIRST_.. are enough for ordinary scripts: lend them first,
 * and where the answer is 30 or 31 call again with the sizes that are enough for every file. That gives what one call with the latter would have
 * given: two rooms that both answer none of 1, 30 and 31 give the same answer and image, whichever has more of what, and the room for every file
 * answers so where any room does (proved, docs/PROMISES.md). For a file of fewer than 95 bytes the first room has more code bytes than the other.
 *
 * What the areas hold before the call does not matter. Answers, in this order:
 *   1            the table is too short
 *   2            the file is longer than 1,048,576 bytes
 *   3, 4, 5      the file has not the form of a tree file; records or functions lie too deep in one another: the place in `at`
 *   10 to 23     what the compiler of loxcraft refuses: the span in `at` and `end`, for 10, 11 and 12 the name's number in `name`
 *   30           code or spans too short, or more than 262,144 bytes of code are open
 *                10 to 30: the function that it is in, in `function` and `around`
 *   31           out is too short for the image: the length needed is in `length`
 *   0            compiled: the image's length is in `length`
 * After 0, out has the image and then zeros; after any other answer only zeros. The work areas end all zero, whatever the answer.
 *
 * With PB_DIRECTORY the image ends in a directory (docs/FORMATS.md): 6 bytes and 4 for each function, which the lengths of 0 and 31 count. The bytes
 * before it are the image without it. */
#define PB_DIRECTORY ((uint32_t)2)
#define PB_TABLE_WORDS ((size_t)17412)
#define PB_OUTPUT_BYTES(tree_len) (17 * (size_t)(tree_len))
#define PB_CODE_BYTES(tree_len) ((size_t)(tree_len) < 262144 ? (size_t)(tree_len) : (size_t)262144)
#define PB_SPAN_WORDS(tree_len) (3 * PB_CODE_BYTES(tree_len))
#define PB_FIRST_OUTPUT_BYTES(tree_len) (4 * (size_t)(tree_len) + 64)
#define PB_FIRST_CODE_BYTES(tree_len) ((size_t)(tree_len) / 3 + 64 < 262144 ? (size_t)(tree_len) / 3 + 64 : (size_t)262144)
#define PB_FIRST_SPAN_WORDS(tree_len) (3 * PB_FIRST_CODE_BYTES(tree_len))

pb_answer puffbramble_compile(const uint8_t *tree, size_t tree_len, uint32_t options, uint8_t *out, size_t out_len, uint64_t *table,
                              size_t table_words, uint8_t *code, size_t code_len, uint32_t *spans, size_t spans_words);

/* Reads a tree file without compiling it.
 *
 *   tree, tree_len   the file, in bytes
 *
 * Answers 0 (all else 0), 2 (too long), or 3, 4 or 5 with the place in `at`. */
pb_answer puffbramble_read(const uint8_t *tree, size_t tree_len);

/* Checks an image.
 *
 *   image, image_len   the image, in bytes
 *
 * Answers 0 with the number of instructions in `length`, or 40. */
pb_answer puffbramble_check(const uint8_t *image, size_t image_len);

/* Says whether an image has a function of a number: the number of the code lookup.
 *
 *   image, image_len   the image, in bytes
 *   k                  the function's number, from 0
 *
 * Answers 0, 40 where the bytes are no image, or 41 where it has no function k; all else 0. */
pb_answer puffbramble_code_answer(const uint8_t *image, size_t image_len, size_t k);

/* The code of a function: where it stands in the image that was lent.
 *
 *   image, image_len   the image, in bytes
 *   k                  the function's number, from 0
 *
 * Answers 0 with the place of its first byte in `at`, the place behind its last in `end` and how many there are in `length`: the code is
 * image[at] to image[end - 1]. Or 40 where the bytes are no image, or 41 where it has no function k: there `at`, `end` and `length` are 0. Each call
 * checks the whole image. */
pb_answer puffbramble_code_of(const uint8_t *image, size_t image_len, size_t k);

/* Where an image's directory stands.
 *
 *   image, image_len   the image, in bytes
 *
 * Answers 40 where the bytes are no image; else 0. Where the image has a directory, its place is in `at`, which is never 0 then, the place behind
 * it, the image's end, in `end`, and the number of its functions in `length`; where it has none all are 0. Each call checks the whole image. */
pb_answer puffbramble_directory_of(const uint8_t *image, size_t image_len);

/* The code of a function through the directory: what puffbramble_code_of answers, from the directory's entry and that function's record alone.
 *
 *   image, image_len   an image that was checked, in bytes
 *   place              its directory's place, from puffbramble_directory_of
 *   k                  the function's number, from 0
 *
 * For such an image and place the answer is that of puffbramble_code_of (proved). For all other bytes and places it is 0 with a stretch that lies in
 * the image, 40 where no directory stands there that ends where the image does or its entry leads to no function's record, or 41 where it has no
 * entry k: nothing is read outside the image, and nothing is trusted. */
pb_answer puffbramble_code_through(const uint8_t *image, size_t image_len, size_t place, size_t k);

/* The first place where an image names a global: a GET_GLOBAL, SET_GLOBAL or DEFINE_GLOBAL of that name.
 *
 *   image, image_len   the image, in bytes; with a directory or without
 *   name               the number of the name in the tree file's table
 *
 * Answers 40 where the bytes are no image; else 0. Where the global is named, the first place in image order is told: the offset of the instruction in its
 * function's code in `at`, the offset behind it in `end`, which is never 0 then, the function's number in `name`, and in `length` how many instructions were
 * read, up to and including this one. Where it is not named, at, end and name are 0 and `length` is the number of all instructions. */
pb_answer puffbramble_touch(const uint8_t *image, size_t image_len, uint16_t name);

/* The span of one code byte.
 *
 *   words, words_len   runs, three words each: start, end, count; words_len counts words. One or two words left over are no run
 *   offset             the code byte, from 0
 *
 * Answers 0 with the span in `at` and `end`, or 42 where the offset is not below the sum of the counts. */
pb_answer puffbramble_span_of(const uint32_t *words, size_t words_len, size_t offset);

#ifdef __cplusplus
}
#endif

#endif
