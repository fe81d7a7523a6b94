/*
 * The common type of Arrow types: three calls of libpemzhulaq.a, which is
 * proved to meet its contracts (docs/PROMISES.md).
 *
 * Types come in as a sheet, 16 bytes a record and labels behind them; the
 * common type goes out as a one-type sheet (docs/FORMAT.md). An example, Int64
 * against Decimal128(7, 2), which prints "kind 16, precision 22, scale 2":
 *
 *   #include <pemzhulaq.h>
 *   #include <stdio.h>
 *
 *   int main(void) {
 *       const uint8_t sheet[48] = {
 *           3, 0, 0, 0, 0, 0, 0, 0, 0, 0, 0, 0, 0, 0, 0, 0,   // the header: 3 records, no labels
 *           6, 0, 0, 0, 0, 0, 0, 0, 0, 0, 2, 0, 0, 0, 0, 0,   // 1: kind 6, Int64; 2 is the next
 *           16, 0, 7, 2, 0, 0, 0, 0, 0, 0, 0, 0, 0, 0, 0, 0,  // 2: kind 16, Decimal128(7, 2)
 *       };
 *       uint8_t out[sizeof sheet], work[2 * sizeof sheet];
 *       size_t answer = pemzhulaq_type_union_coercion(sheet, sizeof sheet, PEMZHULAQ_MASK_ALL,
 *                                                     out, sizeof out, work, sizeof work);
 *       if (answer < PEMZHULAQ_LEAST_TYPE) {
 *           printf("no type: %zu\n", answer);
 *           return 1;
 *       }
 *       printf("kind %d, precision %d, scale %d\n", out[16], out[18], (int8_t)out[19]);
 *       return 0;
 *   }
 *
 * It is C (C99 and later) and C++ (C++11 and later). From the repository's
 * root, with the program in example.c:
 *
 *   tools/archive.sh
 *   cc -I include example.c target/staticlib/libpemzhulaq.a -o example
 *
 * The archive is for Linux on x86-64-v2, which is x86-64 with SSE up to 4.2 and
 * POPCNT; it has instructions of SSSE3 and SSE4.1, at which an older processor
 * stops. It needs nothing but the C library.
 */
#ifndef PEMZHULAQ_H
#define PEMZHULAQ_H

#include <stddef.h>
#include <stdint.h>

#ifdef __cplusplus
extern "C" {
#endif

/* Every bit from 1 to 38: Null may become any kind. Bit k stands for kind k. */
#define PEMZHULAQ_MASK_ALL UINT64_C(0x7FFFFFFFFE)

/* The limits of a sheet: records with the header, label bytes, and bytes in all. */
#define PEMZHULAQ_RECORD_BYTES 16
#define PEMZHULAQ_MAX_RECORDS 1024
#define PEMZHULAQ_MAX_LABEL_BYTES 16384
#define PEMZHULAQ_MAX_SHEET_BYTES 32768

/* What a call answers, where it is no byte length. */
enum pemzhulaq_answer {
    PEMZHULAQ_NONE = 0,        /* there is no common type */
    PEMZHULAQ_TORN = 1,        /* refused: length, limits or header of the sheet */
    PEMZHULAQ_KIND = 2,        /* refused: a kind outside 1 to 38 */
    PEMZHULAQ_CHAIN = 3,       /* refused: the walk or a number of parts is wrong */
    PEMZHULAQ_FIGURE = 4,      /* refused: precision, scale, unit, size, nullable, unused bytes */
    PEMZHULAQ_LABEL = 5,       /* refused: a label out of its place, equal names in a Struct */
    PEMZHULAQ_MASK = 6,        /* refused: a mask bit outside 1 to 38 */
    PEMZHULAQ_PAIR = 7,        /* refused: union or compare without exactly two types */
    PEMZHULAQ_SPACE = 8,       /* refused: output or work space too short */
    PEMZHULAQ_LEAST_TYPE = 32  /* from here on: a type, and the byte length of its sheet */
};

/*
 * What holds for each of the three calls.
 *
 * The caller owes: `sheet` has `sheet_len` bytes that can be read, `output` and
 * `work` have `output_len` and `work_len` bytes that can be written; the three
 * do not overlap, and nobody else writes them during the call. No pointer is
 * null, not even where its length is 0. Nothing else is asked: any bytes, any
 * mask and any lengths will do. A call needs up to 1.25 MiB of stack for the
 * deepest sheets (measured, not proved), keeps no pointer and has no state.
 *
 * The call answers
 *   0            there is no common type; no byte of the output has changed;
 *   1 to 31      a refusal, the lowest number that applies; no byte of the
 *                output or of the work space has changed;
 *   32 or more   the byte length of the common type's one-type sheet, which
 *                stands at the front of the output; later bytes are unchanged.
 *                It is never more than `sheet_len`.
 *
 * The output needs `sheet_len` bytes and the work space twice as many, else the
 * call is refused with 8; more do no harm. After 0 or a type the first
 * 2 * sheet_len bytes of the work space are zero and the rest is unchanged.
 */

/* The common type of any number of listed types. */
size_t pemzhulaq_type_union_resolution(const uint8_t *sheet, size_t sheet_len, uint64_t mask,
                                       uint8_t *output, size_t output_len,
                                       uint8_t *work, size_t work_len);

/* The common type of exactly two listed types in a union, left then right. */
size_t pemzhulaq_type_union_coercion(const uint8_t *sheet, size_t sheet_len, uint64_t mask,
                                     uint8_t *output, size_t output_len,
                                     uint8_t *work, size_t work_len);

/* The type that exactly two listed types are compared as, left then right. */
size_t pemzhulaq_comparison_coercion(const uint8_t *sheet, size_t sheet_len, uint64_t mask,
                                     uint8_t *output, size_t output_len,
                                     uint8_t *work, size_t work_len);

#ifdef __cplusplus
}
#endif

#endif
