/*
 * Proof strips for C: the sizes of tables and strips, and the check of a sealed strip.
 *
 * Link with libstrip.a, which `tools/archive strip_c strip` writes to target/staticlib/. Beside it only memcpy is
 * needed, which every C library has. docs/FORMATS.md has the strip byte by byte.
 *
 * Every call ends with an answer, whatever numbers and bytes it is given. Nothing is allocated and no state is
 * kept: the calls are reentrant, and any number of threads may make them at once.
 */
#ifndef STRIPS_H
#define STRIPS_H

#include <stddef.h>
#include <stdint.h>

#ifdef __cplusplus
extern "C" {
#endif

/* The kinds of strips. */
enum {
    STRIPS_SEALED = 1, /* nodes are SHA-256 digests of 32 bytes */
    STRIPS_DUMMY = 2   /* nodes are spans of leaf numbers in 5 bytes, for trying a run without hashing */
};

/* What strips_check answers; there are no other answers. */
enum {
    STRIPS_YES = 0,          /* the strip leads to the root */
    STRIPS_ROOT_LENGTH = 7,  /* the root has not 32 bytes */
    STRIPS_NO_STRIP = 11,    /* the bytes are no sealed strip */
    STRIPS_NO = 100          /* a sealed strip, but it leads elsewhere */
};

/*
 * How many cells the table of a traversal has, each for one node.
 *
 *   height   of the tree: 1 to 20
 *   subtree  height of a subtree: 1 to 10, and a divisor of height
 *
 * Answers 0 if an argument is outside of this. A legal pair has at least 3 cells, so 0 is never a size.
 */
uint64_t strips_table_size(uint32_t height, uint32_t subtree);

/*
 * How many bytes a strip has: 41, and one node for each step of the path.
 *
 *   kind     STRIPS_SEALED or STRIPS_DUMMY
 *   height   of the tree: 1 to 20
 *
 * Answers 0 if an argument is outside of this. The longest strip, sealed and of height 20, has 681 bytes.
 */
uint64_t strips_strip_length(uint32_t kind, uint32_t height);

/*
 * Whether a sealed strip leads to a root. The strip says its own height.
 *
 *   strip, strip_len  the strip's bytes, any number of them
 *   root, root_len    the root's bytes: 32, else it is no root
 *
 * Answers, in this order:
 *
 *   STRIPS_ROOT_LENGTH  root_len is not 32; the strip is not looked at
 *   STRIPS_NO_STRIP     the bytes break a rule of the format, or some are missing or too many. A dummy strip
 *                       is no sealed strip.
 *   STRIPS_YES          the strip's token and path lead to the root
 *   STRIPS_NO           they lead to another node
 *
 * Mind that yes is 0: `if (strips_check(...))` is taken for everything but yes.
 *
 * The caller owes that each pointer has as many readable bytes as its length says, and that nobody changes
 * them during the call. No alignment is needed, and the two may overlap. For no bytes pass length 0: the
 * pointer is then not read and may be NULL. NULL with another length is an error of the caller, as any bad
 * pointer is; no answer reports it.
 */
uint32_t strips_check(const uint8_t *strip, size_t strip_len, const uint8_t *root, size_t root_len);

#ifdef __cplusplus
}
#endif

#endif
