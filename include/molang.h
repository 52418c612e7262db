/* molang.h: the proved Molang code generator as one C function, and the packing of its images on card pages as another. Link
 * crates/codegen_c/out/libcodegen.a (made by `./build library`). x86-64, C99 or C++.
 *
 * molang_build turns a tree image into a program image. It keeps nothing between calls, takes no memory of its own but the stack, calls nothing but memset and
 * memmove, and may run in several threads at once, each with its own workspace and output. Give it 256 KiB of stack: 43,520 bytes are the most that was seen,
 * 3,640 with the stored pieces.
 *
 * The thread that calls it must round floats to nearest and keep subnormals, as a program does from its start (MXCSR: rounding control 0, FTZ and DAZ
 * off): constants are folded while compiling, and with another mode a fold gives other bytes, though never a fault (bench/floats). */
#ifndef MOLANG_H
#define MOLANG_H

#include <stddef.h>
#include <stdint.h>

#ifdef __cplusplus
extern "C" {
#endif

/* The words that a workspace must have. */
#define MOLANG_WORDS 16384

/* The longest tree image. Give one byte more where you read a file of unknown length: it is then refused, and not cut off. */
#define MOLANG_TREE_MOST 6144

/* Room for the program image of every tree image, so that refusal 9 does not occur: proved, IMAGE_ROOM in crates/semantics/specs/Room.antt. */
#define MOLANG_IMAGE_ROOM 98304

/* The nine questions in the order in which they are asked; the first that is answered by no is the refusal. */
enum molang_refusal {
    MOLANG_ACCEPTED = 0,
    MOLANG_SMALL_WORKSPACE = 1,    /* the workspace has fewer than 16,384 words */
    MOLANG_NO_TREE_IMAGE = 2,      /* not a tree image, which has 5 to 6,144 bytes, begins with the byte 1 and gives its true length */
    MOLANG_DAMAGED = 3,            /* a setting, an operator code, a payload kind or a node's length is wrong, or something is left over */
    MOLANG_TOO_DEEP = 4,           /* a node stands deeper than level 31 */
    MOLANG_USES_ARRAYS = 5,        /* the expression uses arrays */
    MOLANG_USES_RESOURCES = 6,     /* the expression uses resources */
    MOLANG_FAILED = 7,             /* an operator has the wrong operands or payload, or has no bytecode */
    MOLANG_WRITE_TO_OTHER_MOB = 8, /* an assignment writes to another mob */
    MOLANG_SMALL_OUTPUT = 9        /* the program image is longer than the output */
};

/* Compiles the `tree_len` bytes at `tree` into the `out_len` bytes at `out`. The answer is the refusal's number times 2^32, plus the image's length (0 when
 * it is refused): take it apart with molang_refusal_of and molang_length_of.
 *
 * What each buffer must be, and nothing else is asked:
 *   tree       tree_len bytes that can be read. They are only read, and nothing may change them during the call.
 *   workspace  `words` words of 32 bits, aligned as uint32_t, that can be read and written. What they held before does not matter.
 *   out        out_len bytes that can be read and written.
 *   The three must not overlap. A pointer may be null only where its length is 0. Every length is allowed; a short one is refused.
 *
 * What is left in them:
 *   accepted         out: the program image, then the bytes that stood there before. workspace: the first 16,384 words 0, later ones as they were.
 *   refused 2 to 9   out: as it was, every byte. workspace: the first 16,384 words 0, later ones as they were.
 *   refused 1        out and workspace: as they were.
 *   tree             always as it was. */
uint64_t molang_build(const uint8_t *tree, size_t tree_len, uint32_t *workspace, size_t words, uint8_t *out, size_t out_len);

/* 0 where it is accepted, else the number of the question. */
static inline enum molang_refusal molang_refusal_of(uint64_t answer)
{
    return (enum molang_refusal)(answer >> 32);
}

/* The length of the program image; 0 where it is refused. */
static inline size_t molang_length_of(uint64_t answer)
{
    return (size_t)(answer & 0xffffffffu);
}

/* One line in plain words, without a line end. */
static inline const char *molang_reason(enum molang_refusal refusal)
{
    switch (refusal) {
    case MOLANG_ACCEPTED: return "accepted";
    case MOLANG_SMALL_WORKSPACE: return "the workspace has fewer than 16,384 words";
    case MOLANG_NO_TREE_IMAGE: return "not a tree image, which has 5 to 6,144 bytes, begins with the byte 1 and gives its true length";
    case MOLANG_DAMAGED: return "a setting, an operator code, a payload kind or a node's length is wrong, or something is left over";
    case MOLANG_TOO_DEEP: return "a node stands deeper than level 31";
    case MOLANG_USES_ARRAYS: return "the expression uses arrays";
    case MOLANG_USES_RESOURCES: return "the expression uses resources";
    case MOLANG_FAILED: return "an operator has the wrong operands or payload, or has no bytecode";
    case MOLANG_WRITE_TO_OTHER_MOB: return "an assignment writes to another mob";
    case MOLANG_SMALL_OUTPUT: return "the program image is longer than the output";
    }
    return "no answer of molang_build";
}

/* The most images of a list to pack, the bytes of a page, and the number of the one refusal of molang_pack: more than 32 images, or one of more than
 * 4,096 bytes. */
#define MOLANG_IMAGES 32
#define MOLANG_PAGE 4096
#define MOLANG_BAD_LIST 19

/* Where the images lie. Refused: `refusal` is MOLANG_BAD_LIST, and all else 0. */
struct molang_packing {
    uint64_t steps;               /* the steps taken, at most the budget */
    uint8_t pages[MOLANG_IMAGES]; /* each image's page in list order, pages numbered from 0 as they are opened; 0 behind the last image */
    uint8_t refusal;              /* 0, or MOLANG_BAD_LIST */
    uint8_t opened;               /* how many pages there are */
    uint8_t above;                /* how many pages that is above the total size divided by 4,096, rounded up: no packing can be further below */
};

/* Packs the `count` images of these sizes on few pages: the largest first on the first page with room, and then a search over all places, image by image and
 * page by page, that takes at most `budget` steps. The first packing with the fewest pages is answered. It takes no memory but a little stack, calls
 * nothing but memset, and its time is that of its steps. `sizes` is only read, and may be null where `count` is 0. */
struct molang_packing molang_pack(const uint16_t *sizes, size_t count, uint64_t budget);

#ifdef __cplusplus
}
#endif

#endif
