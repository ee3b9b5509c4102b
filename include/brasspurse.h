/* Brasspurse for C: finds the function that covers an address in an image's `__unwind_info`
 * section, and undoes one stack frame. Link libbrasspurse.a, which is x86-64 code for Linux. The
 * images may be x86_64's or arm64's (not 32-bit ones): a section does not say whose it is, so the
 * caller picks the call.
 *
 * What is promised. It is proved of the library's sources, for all bytes and numbers:
 * - A call ends, touches only what it was lent, and answers or refuses with a number.
 * - The answer is the one that the repository defines, in the crates' specs/ and in words in
 *   docs/FORMAT.md; the comments here say it in short. In a section that is well formed (see
 *   brasspurse_is_well_formed) a lookup finds the function that covers the address if one does.
 * - A step undoes the prologue that the opcode word describes, for every word that is not refused:
 *   it gives the caller's registers. The function must have been stopped after its prologue and
 *   before its epilogue, and its body must have left these as they were: the slots of the saved
 *   registers and of the return address, the register that CFA (the caller's stack pointer after
 *   the return) is counted from, and the preserved registers without a slot.
 *
 * Known to come out otherwise in real code, and not refused. Compilers write one kind of arm64
 * words of which this version reads less than they mean: frameless words (kind 2) with a bit of 0
 * to 4 or 8 to 11 set. There they mark saved pairs; this version reads none. pc, sp, x29 and x30
 * come out right; the saved registers come out as they are in the body.
 * Refused, though real code has them: frames left to DWARF (21), and x86_64 frames whose size is in
 * the function's code (25).
 *
 * Answers. A call answers a number, or a flat struct by value that says in a field of its own
 * which case it is. Any bytes and any numbers may be passed: what has no answer is refused, with
 * a number of enum brasspurse_refusal. What a case does not have is 0, unless a comment here
 * says otherwise. Compare answers field by field: padding between fields means nothing.
 *
 * Who owns what. The caller owns every buffer. A buffer is lent for the length of a call, as a
 * pointer and a number of elements; the call keeps no pointer, and allocates and frees nothing.
 * It writes only what is not behind `const`, and there only what its comment says. With length 0
 * the pointer is not looked at and may be NULL, as an empty vector's may be; with another length it
 * must point to that many elements. A buffer lent to write must not overlap one lent to read. Bytes
 * may lie at any alignment, uint32_t as C aligns them.
 *
 * Threads. The functions have no state: threads may call them at once and lend the same buffers,
 * as long as none of these is written meanwhile.
 *
 * Addresses in a section have 32 bits and count from the image's start: take the address where the
 * image lies off a program counter, and pass the rest only if it fits. */
#ifndef BRASSPURSE_H
#define BRASSPURSE_H

#include <stdbool.h>
#include <stddef.h>
#include <stdint.h>

#ifdef __cplusplus
extern "C" {
#endif

/* This header's version. */
#define BRASSPURSE_VERSION "0.6.1"
#define BRASSPURSE_VERSION_MAJOR 0
#define BRASSPURSE_VERSION_MINOR 6
#define BRASSPURSE_VERSION_PATCH 1

/* Refusals. 16 to 19 and 29 are not in use. */

enum brasspurse_refusal {
    /* there is an answer */
    BRASSPURSE_NOT_REFUSED = 0,

    /* Of a section. What "lies outside" is not wholly in the section. */

    /* the header lies outside */
    BRASSPURSE_REFUSED_HEADER = 1,
    /* the list of global opcodes lies outside */
    BRASSPURSE_REFUSED_GLOBAL_OPCODES = 2,
    /* the list of pages lies outside */
    BRASSPURSE_REFUSED_PAGES = 3,
    /* a page's kind lies outside */
    BRASSPURSE_REFUSED_PAGE_KIND = 4,
    /* a page before the last one is a sentinel */
    BRASSPURSE_REFUSED_UNEXPECTED_SENTINEL_PAGE = 5,
    /* a page's kind is unknown */
    BRASSPURSE_REFUSED_INVALID_PAGE_KIND = 6,
    /* a regular page lies outside */
    BRASSPURSE_REFUSED_REGULAR_PAGE = 7,
    /* a regular page's functions lie outside */
    BRASSPURSE_REFUSED_REGULAR_PAGE_FUNCTIONS = 8,
    /* a compressed page lies outside */
    BRASSPURSE_REFUSED_COMPRESSED_PAGE = 9,
    /* a compressed page's functions lie outside */
    BRASSPURSE_REFUSED_COMPRESSED_PAGE_FUNCTIONS = 10,
    /* a compressed page's local opcodes lie outside */
    BRASSPURSE_REFUSED_LOCAL_OPCODES = 11,
    /* the page that should cover the address has no function at or before it; lookups alone */
    BRASSPURSE_REFUSED_INVALID_PAGE_ENTRY_FIRST_ADDRESS = 12,
    /* a function's start or end is above 2^32 - 1 */
    BRASSPURSE_REFUSED_ADDRESS_TOO_LARGE = 13,
    /* a function's opcode index is past the page's local opcodes */
    BRASSPURSE_REFUSED_LOCAL_INDEX = 14,
    /* the header's version is not 1; tested after 1 and before 2 */
    BRASSPURSE_REFUSED_WRONG_VERSION = 15,

    /* Of an opcode word and its frame. */

    /* the word is null; in an unwinding also: no function covers the address */
    BRASSPURSE_REFUSED_NULL = 20,
    /* the word leaves the frame to DWARF; `value` has its 24 bits */
    BRASSPURSE_REFUSED_DWARF = 21,
    /* the word's kind is unknown; `value` has the kind */
    BRASSPURSE_REFUSED_UNRECOGNIZED_KIND = 22,
    /* a frameless word's permutation is none; also of the permutation alone */
    BRASSPURSE_REFUSED_INVALID_FRAMELESS = 23,
    /* the word is otherwise not sound: no prologue leaves such a frame */
    BRASSPURSE_REFUSED_NOT_SOUND = 24,
    /* the frame's size stands in the function's code */
    BRASSPURSE_REFUSED_FRAMELESS_INDIRECT = 25,
    /* the window's end, base + window_len, or CFA is above 2^64 - 1 */
    BRASSPURSE_REFUSED_ABOVE_ADDRESSES = 26,
    /* a slot that has to be read is not wholly in the window */
    BRASSPURSE_REFUSED_OUTSIDE_WINDOW = 27,

    /* the encoder's count or its list of registers is wrong */
    BRASSPURSE_REFUSED_LIST = 28,
    /* more than 65,536 bytes of input: the program `functions` says it, no call here does */
    BRASSPURSE_REFUSED_INPUT_TOO_LONG = 30
};

/* A refusal in short English, for messages. The text is the program's, and is not to be freed. */
static inline const char *brasspurse_refusal_text(uint32_t refusal)
{
    switch (refusal) {
    case BRASSPURSE_NOT_REFUSED:
        return "not refused";
    case BRASSPURSE_REFUSED_HEADER:
        return "the header lies outside the section";
    case BRASSPURSE_REFUSED_GLOBAL_OPCODES:
        return "the list of global opcodes lies outside the section";
    case BRASSPURSE_REFUSED_PAGES:
        return "the list of pages lies outside the section";
    case BRASSPURSE_REFUSED_PAGE_KIND:
        return "a page's kind lies outside the section";
    case BRASSPURSE_REFUSED_UNEXPECTED_SENTINEL_PAGE:
        return "a page before the last one is a sentinel";
    case BRASSPURSE_REFUSED_INVALID_PAGE_KIND:
        return "a page's kind is unknown";
    case BRASSPURSE_REFUSED_REGULAR_PAGE:
        return "a regular page lies outside the section";
    case BRASSPURSE_REFUSED_REGULAR_PAGE_FUNCTIONS:
        return "a regular page's functions lie outside the section";
    case BRASSPURSE_REFUSED_COMPRESSED_PAGE:
        return "a compressed page lies outside the section";
    case BRASSPURSE_REFUSED_COMPRESSED_PAGE_FUNCTIONS:
        return "a compressed page's functions lie outside the section";
    case BRASSPURSE_REFUSED_LOCAL_OPCODES:
        return "a compressed page's local opcodes lie outside the section";
    case BRASSPURSE_REFUSED_INVALID_PAGE_ENTRY_FIRST_ADDRESS:
        return "the address's page has no function at or before it";
    case BRASSPURSE_REFUSED_ADDRESS_TOO_LARGE:
        return "a function's start or end is above 2^32 - 1";
    case BRASSPURSE_REFUSED_LOCAL_INDEX:
        return "a function's opcode index names no opcode";
    case BRASSPURSE_REFUSED_WRONG_VERSION:
        return "the header's version is not 1";
    case BRASSPURSE_REFUSED_NULL:
        return "the opcode word is null, or no function covers the address";
    case BRASSPURSE_REFUSED_DWARF:
        return "the opcode word leaves the frame to DWARF";
    case BRASSPURSE_REFUSED_UNRECOGNIZED_KIND:
        return "the opcode word's kind is unknown";
    case BRASSPURSE_REFUSED_INVALID_FRAMELESS:
        return "there is no such permutation of registers";
    case BRASSPURSE_REFUSED_NOT_SOUND:
        return "the opcode word is not sound";
    case BRASSPURSE_REFUSED_FRAMELESS_INDIRECT:
        return "the frame's size stands in the function's code";
    case BRASSPURSE_REFUSED_ABOVE_ADDRESSES:
        return "the window's end or the caller's stack pointer is above 2^64 - 1";
    case BRASSPURSE_REFUSED_OUTSIDE_WINDOW:
        return "a slot that has to be read lies outside the window";
    case BRASSPURSE_REFUSED_LIST:
        return "the count or the list of registers is wrong";
    case BRASSPURSE_REFUSED_INPUT_TOO_LONG:
        return "the input has more than 65,536 bytes";
    default:
        return "unknown refusal";
    }
}

/* Sections. `section` is the bytes of an `__unwind_info` section. */

/* Where a section's two lists are. A call whose name ends in `_in` takes this and does not read
 * the header, so it never refuses with 1. The lists are tested anew (2, then 3): any four numbers
 * may be passed. With those of brasspurse_parse it answers as the call on the bytes alone. */
struct brasspurse_lists {
    uint32_t global_opcodes_offset; /* bytes from the section's start */
    uint32_t global_opcodes_len;    /* how many there are */
    uint32_t pages_offset;          /* bytes from the section's start */
    uint32_t pages_len;             /* how many entries there are; the last only marks the end */
};

struct brasspurse_parse_answer {
    uint32_t refusal;               /* 0, or 1, 15, 2 or 3 */
    uint32_t global_opcodes_offset; /* this and the rest: as in struct brasspurse_lists */
    uint32_t global_opcodes_len;
    uint32_t pages_offset;
    uint32_t pages_len;
};

/* Finds the lists that the header names, if its version is 1. The checks come in the order 1, 15,
 * 2, 3. The calls whose names end in _in do not read the header: they never say 1 or 15. */
struct brasspurse_parse_answer brasspurse_parse(const uint8_t *section, size_t section_len);

struct brasspurse_range_answer {
    uint32_t refusal; /* 0, or 1, 15, 2 or 3 */
    uint32_t start;   /* the first page's first address; 0 if there are no pages */
    uint32_t end;     /* the last page's, where the last function ends; 0 if there are none */
};

/* The addresses that the section is about, `end` not among them. */
struct brasspurse_range_answer brasspurse_address_range(const uint8_t *section,
                                                        size_t section_len);
struct brasspurse_range_answer brasspurse_address_range_in(const uint8_t *section,
                                                           size_t section_len,
                                                           struct brasspurse_lists lists);

/* Where a function's opcode word was read. */
enum brasspurse_origin {
    BRASSPURSE_ORIGIN_NONE = 0,           /* there is no function */
    BRASSPURSE_ORIGIN_REGULAR_ENTRY = 1,  /* in the function's own entry, of a regular page */
    BRASSPURSE_ORIGIN_GLOBAL_OPCODES = 2, /* in the section's list of global opcodes */
    BRASSPURSE_ORIGIN_LOCAL_OPCODES = 3   /* in the page's list of local opcodes */
};

enum brasspurse_lookup_outcome {
    BRASSPURSE_LOOKUP_NONE = 0,     /* the address is before the first page, or from the last on,
                                       or there is no page */
    BRASSPURSE_LOOKUP_FUNCTION = 1, /* start to origin are there */
    BRASSPURSE_LOOKUP_REFUSED = 2   /* refusal is there */
};

struct brasspurse_lookup_answer {
    uint32_t start;  /* the function's first address */
    uint32_t end;    /* the first address after it */
    uint32_t opcode; /* its opcode word */
    uint32_t page;   /* the number of its page */
    uint32_t index;  /* its index there, below 65,536 */
    uint8_t origin;  /* an enum brasspurse_origin */
    uint8_t probes;  /* how many entries the searches looked at; 0 if the section doesn't parse */
    uint8_t outcome; /* an enum brasspurse_lookup_outcome */
    uint8_t refusal; /* 0, or 1 to 15 */
};

/* The function that covers the address. In a section that is not well formed it is the one that
 * the search arrives at, which may not cover it: see brasspurse_is_well_formed.
 *
 * Its page and index are a cursor, at which brasspurse_next answers this function: a caller can go
 * on from it. But a lookup that finds a global opcode does not ask for the page's local ones, and
 * brasspurse_next does: where they lie outside, it refuses with 11. In a well-formed section they
 * never do. */
struct brasspurse_lookup_answer brasspurse_lookup(const uint8_t *section, size_t section_len,
                                                  uint32_t address);
struct brasspurse_lookup_answer brasspurse_lookup_in(const uint8_t *section, size_t section_len,
                                                     struct brasspurse_lists lists,
                                                     uint32_t address);

/* Looks many addresses up, as many as there are and as `answers` has room for: the smaller of
 * addresses_len and answers_len / 6, which is what it returns. Each answer is six numbers of
 * `answers`, in the order of the addresses; brasspurse_batch_answer unpacks one. The numbers after
 * them stay as they were. A section that does not parse gives every answer its 1, 15, 2 or 3. */
size_t brasspurse_lookup_batch(const uint8_t *section, size_t section_len,
                               const uint32_t *addresses, size_t addresses_len,
                               uint32_t *answers, size_t answers_len);

/* Answer i of a batch: what brasspurse_lookup gives for addresses[i]. i must be below the number
 * that brasspurse_lookup_batch returned. */
static inline struct brasspurse_lookup_answer brasspurse_batch_answer(const uint32_t *answers,
                                                                      size_t i)
{
    struct brasspurse_lookup_answer answer;
    const uint32_t *six = answers + 6 * i;
    answer.start = six[0];
    answer.end = six[1];
    answer.opcode = six[2];
    answer.page = six[3];
    answer.index = six[4];
    answer.origin = (uint8_t)(six[5] & 0xff);
    answer.probes = (uint8_t)(six[5] >> 8 & 0xff);
    answer.outcome = (uint8_t)(six[5] >> 16 & 0xff);
    answer.refusal = (uint8_t)(six[5] >> 24);
    return answer;
}

/* Iteration. A cursor is a page's number and a function's index in it. Begin with 0 and 0, or with
 * a lookup's page and index; after that, pass the page and index that the last answer has. Any two
 * numbers may be passed: an index past a page's functions means the next page's first, and a page
 * at or past the last one means the end. */

enum brasspurse_next_outcome {
    BRASSPURSE_NEXT_END = 0,      /* there are no more; the cursor is the last page with index 0 */
    BRASSPURSE_NEXT_FUNCTION = 1, /* the function's numbers are there */
    BRASSPURSE_NEXT_REFUSED = 2   /* refusal is there */
};

/* After 13 and 14 the cursor stands past the function, after 4 to 11 past the page, so that a loop
 * goes on; after 1 to 3 and 15 it is as it was, and a loop has to end. */
struct brasspurse_next_answer {
    uint32_t start;          /* the function's first address */
    uint32_t end;            /* the first address after it */
    uint32_t opcode;         /* its opcode word */
    uint32_t page;           /* the cursor for the next call, in every case: not the function's */
    uint32_t index;
    uint32_t function_page;  /* the function's own, as `page` in struct brasspurse_lookup_answer */
    uint32_t function_index; /* and as `index` there */
    uint8_t origin;          /* an enum brasspurse_origin */
    uint8_t outcome;         /* an enum brasspurse_next_outcome */
    uint8_t refusal;         /* 0, or 1 to 11, 13 to 15 */
};

/* The function at the cursor. */
struct brasspurse_next_answer brasspurse_next(const uint8_t *section, size_t section_len,
                                              uint32_t page, uint32_t index);
struct brasspurse_next_answer brasspurse_next_in(const uint8_t *section, size_t section_len,
                                                 struct brasspurse_lists lists, uint32_t page,
                                                 uint32_t index);

enum brasspurse_fill_outcome {
    BRASSPURSE_FILL_END = 0,    /* there are no more */
    BRASSPURSE_FILL_FULL = 1,   /* the lists are there; no room for another, be there one or not */
    BRASSPURSE_FILL_REFUSED = 2 /* refusal is there, and comes after the functions written */
};

struct brasspurse_fill_answer {
    size_t functions; /* how many were written, in every case */
    uint32_t page;    /* the cursor, as in struct brasspurse_next_answer */
    uint32_t index;
    uint16_t outcome; /* an enum brasspurse_fill_outcome */
    uint16_t refusal; /* 0, or 1 to 11, 13 to 15 */
};

/* Writes the functions from the cursor on, as the calls of brasspurse_next one after the other
 * tell them: three numbers of `out` each, which are start, end and opcode, and all that a listing
 * needs. Page, index and origin of a function are not written: brasspurse_next tells them. It stops
 * at the end, at a refusal, and when out_len / 3 are written. The numbers after them stay as they
 * were. 1 to 3 and 15 come before the room is looked at, so with any out_len; the end and the other
 * refusals come only where there is room for another function. A loop over blocks goes on after a
 * refusal of 4 to 14, ends after one of 1 to 3 or 15, and needs an out_len of 3 or more: with less,
 * a section that parses is "full" for ever. */
struct brasspurse_fill_answer brasspurse_fill(const uint8_t *section, size_t section_len,
                                              uint32_t page, uint32_t index, uint32_t *out,
                                              size_t out_len);
struct brasspurse_fill_answer brasspurse_fill_in(const uint8_t *section, size_t section_len,
                                                 struct brasspurse_lists lists, uint32_t page,
                                                 uint32_t index, uint32_t *out, size_t out_len);

/* Whether the section parses, so that its version is 1, its addresses rise strictly, its pages
 * begin with a function at their first address, and iteration refuses nothing. If so, no lookup in
 * it is refused, and one finds a function exactly if iteration lists it and start <= address < end.
 * It reads every function, so ask once for a section. */
bool brasspurse_is_well_formed(const uint8_t *section, size_t section_len);

/* Opcode words. Bits that a word's kind gives no meaning are ignored. */

/* Bits 24 to 27 of a word, and its low 24 bits. */
uint8_t brasspurse_opcode_kind(uint32_t word);
uint32_t brasspurse_opcode_specific_bits(uint32_t word);

/* What a number in an x86_64 word says of a register. */
enum brasspurse_register_state {
    BRASSPURSE_REGISTER_ABSENT = 0, /* number 0: no register */
    BRASSPURSE_REGISTER_NAMED = 1,  /* numbers 1 to 6 */
    BRASSPURSE_REGISTER_UNKNOWN = 2 /* any other number: no register is known by it */
};

struct brasspurse_register_answer {
    uint32_t state;        /* an enum brasspurse_register_state */
    uint32_t number;       /* the number asked about */
    uint32_t dwarf_number; /* a register's number in DWARF; else 0 */
};

/* The x86_64 register that a number in a word names: 1 rbx, 2 r12, 3 r13, 4 r14, 5 r15, 6 rbp. */
struct brasspurse_register_answer brasspurse_register_x86_64(uint8_t n);

enum brasspurse_word_x86_64 {                  /* value has: */
    BRASSPURSE_X86_64_NULL = 0,                /* 0 */
    BRASSPURSE_X86_64_FRAME_BASED = 1,         /* how many bytes below rbp field 0's slot lies */
    BRASSPURSE_X86_64_FRAMELESS_IMMEDIATE = 2, /* the frame's size in bytes, up to CFA */
    BRASSPURSE_X86_64_FRAMELESS_INDIRECT = 3,  /* which byte of the function the size stands at */
    BRASSPURSE_X86_64_DWARF = 4,               /* the low 24 bits */
    BRASSPURSE_X86_64_INVALID_FRAMELESS = 5,   /* 0: there is no such permutation */
    BRASSPURSE_X86_64_UNRECOGNIZED_KIND = 6    /* the kind */
};

/* A frame-based word has five fields. Field k is 0 and absent, or names the register whose slot
 * lies 8 * k bytes above field 0's, or is 7 and unknown. A word with a field that is unknown or
 * names rbp is answered here; the calls for rules, steps and unwinding refuse it with 24. */
struct brasspurse_opcode_x86_64_answer {
    uint32_t value;                /* goes by the answer, see above */
    uint8_t answer;                /* an enum brasspurse_word_x86_64 */
    uint8_t stack_adjust_in_bytes; /* frameless indirect: what to add to the size */
    uint16_t fields;               /* frame-based: the five fields' numbers, field k at bits 3k to
                                      3k + 2, as the word has them; else 0 */
    uint16_t field_states;         /* frame-based: at the same bits each field's enum
                                      brasspurse_register_state; else 0 */
    uint8_t popped_regs[6];        /* frameless: numbers of registers, 1 to 6, in the order in which
                                      they are popped, then 0: absent. Never an unknown. All 0 for
                                      other words */
};

struct brasspurse_opcode_x86_64_answer brasspurse_parse_x86_64(uint32_t word);

/* Field k's number or state: pass `fields` or `field_states`. k is below 5. */
static inline uint8_t brasspurse_field(uint16_t fields, unsigned k)
{
    return (uint8_t)(fields >> 3 * k & 7);
}

enum brasspurse_word_arm64 {               /* value has: */
    BRASSPURSE_ARM64_NULL = 0,             /* 0 */
    BRASSPURSE_ARM64_FRAMELESS = 1,        /* the frame's size in bytes, up to CFA */
    BRASSPURSE_ARM64_DWARF = 2,            /* the low 24 bits */
    BRASSPURSE_ARM64_FRAME_BASED = 3,      /* 0 */
    BRASSPURSE_ARM64_UNRECOGNIZED_KIND = 4 /* the kind */
};

/* Bits of saved_pairs, which are the word's own, and the masks of Apple's header. Bits 5 to 7 of
 * the word name no pair. */
enum brasspurse_pair_arm64 {
    BRASSPURSE_PAIR_X19_X20 = 0x001,
    BRASSPURSE_PAIR_X21_X22 = 0x002,
    BRASSPURSE_PAIR_X23_X24 = 0x004,
    BRASSPURSE_PAIR_X25_X26 = 0x008,
    BRASSPURSE_PAIR_X27_X28 = 0x010,
    BRASSPURSE_PAIR_D8_D9 = 0x100,
    BRASSPURSE_PAIR_D10_D11 = 0x200,
    BRASSPURSE_PAIR_D12_D13 = 0x400,
    BRASSPURSE_PAIR_D14_D15 = 0x800
};

struct brasspurse_opcode_arm64_answer {
    uint32_t value;               /* goes by the answer, see above */
    uint8_t answer;               /* an enum brasspurse_word_arm64 */
    uint8_t saved_reg_pair_count; /* frame-based: how many pairs are saved */
    uint16_t saved_pairs;         /* frame-based: which, a sum of enum brasspurse_pair_arm64 */
};

struct brasspurse_opcode_arm64_answer brasspurse_parse_arm64(uint32_t word);

/* Permutations: which x86_64 registers a frameless word lists, and in what order. */

struct brasspurse_permutation_answer {
    uint32_t refusal;     /* 0, or 23 */
    uint8_t registers[6]; /* as many different numbers from 1 to 6 as counted, then zeros */
};

/* A count above 6 is refused. With count 0 any encoding is accepted, and there are no registers. */
struct brasspurse_permutation_answer brasspurse_decode_permutation_6(uint32_t count,
                                                                     uint32_t encoding);

struct brasspurse_encoding_answer {
    uint32_t refusal;  /* 0, or 28 */
    uint32_t encoding; /* what brasspurse_decode_permutation_6 gives the list back for */
};

/* The other way round. Takes a count up to 6 and, as `registers`, six numbers: as many different
 * ones from 1 to 6, then zeros. All six are read, so this pointer may not be NULL. */
struct brasspurse_encoding_answer brasspurse_encode_permutation_6(uint32_t count,
                                                                  const uint8_t registers[6]);

/* Frames. CFA is the caller's stack pointer after the return. */

/* Places in `saved` and `below`: the registers that a function preserves. */
enum brasspurse_saved_x86_64 {
    BRASSPURSE_RBX = 0,
    BRASSPURSE_R12 = 1,
    BRASSPURSE_R13 = 2,
    BRASSPURSE_R14 = 3,
    BRASSPURSE_R15 = 4,
    BRASSPURSE_RBP = 5
};

enum brasspurse_saved_arm64 {
    BRASSPURSE_X19 = 0,
    BRASSPURSE_X20 = 1,
    BRASSPURSE_X21 = 2,
    BRASSPURSE_X22 = 3,
    BRASSPURSE_X23 = 4,
    BRASSPURSE_X24 = 5,
    BRASSPURSE_X25 = 6,
    BRASSPURSE_X26 = 7,
    BRASSPURSE_X27 = 8,
    BRASSPURSE_X28 = 9,
    BRASSPURSE_X29 = 10,
    BRASSPURSE_X30 = 11,
    BRASSPURSE_D8 = 12,
    BRASSPURSE_D9 = 13,
    BRASSPURSE_D10 = 14,
    BRASSPURSE_D11 = 15,
    BRASSPURSE_D12 = 16,
    BRASSPURSE_D13 = 17,
    BRASSPURSE_D14 = 18,
    BRASSPURSE_D15 = 19
};

enum brasspurse_cfa_register {
    BRASSPURSE_CFA_STACK_POINTER = 0, /* rsp, sp */
    BRASSPURSE_CFA_FRAME_POINTER = 1  /* rbp, x29 */
};

/* What a word says of its frame. The return address lies 8 below CFA on x86_64; on arm64 it is
 * x30, from its slot if it has one. Where arm64 frameless words mean more: see the top. */
struct brasspurse_rule_x86_64_answer {
    uint32_t refusal;      /* 0, or 20 to 25 */
    uint32_t value;        /* for 21 DWARF's 24 bits, for 22 the kind */
    uint64_t cfa_distance; /* CFA is the register plus this */
    uint32_t cfa_register; /* an enum brasspurse_cfa_register */
    uint16_t below[6];     /* how far below CFA the slot of each register begins; 0 means absent:
                              the register has no slot */
};

struct brasspurse_rule_arm64_answer {
    uint32_t refusal; /* 0, or 20 to 22 */
    uint32_t value;   /* this and the rest: as on x86_64 */
    uint64_t cfa_distance;
    uint32_t cfa_register;
    uint16_t below[20];
};

struct brasspurse_rule_x86_64_answer brasspurse_rule_x86_64(uint32_t opcode);
struct brasspurse_rule_arm64_answer brasspurse_rule_arm64(uint32_t opcode);

struct brasspurse_registers_x86_64 {
    uint64_t rip;      /* the program counter */
    uint64_t rsp;      /* the stack pointer */
    uint64_t saved[6]; /* by enum brasspurse_saved_x86_64 */
};

struct brasspurse_registers_arm64 {
    uint64_t pc;        /* the program counter */
    uint64_t sp;        /* the stack pointer */
    uint64_t saved[20]; /* by enum brasspurse_saved_arm64; d8 to d15 as 64 bits */
};

struct brasspurse_step_x86_64_answer {
    uint32_t refusal; /* 0, or 20 to 27 */
    uint32_t value;   /* for 21 DWARF's 24 bits, for 22 the kind */
    struct brasspurse_registers_x86_64 registers; /* the caller's; on refusal those passed in */
};

struct brasspurse_step_arm64_answer {
    uint32_t refusal; /* 0, or 20 to 22, 26, 27 */
    uint32_t value;   /* this and the rest: as on x86_64 */
    struct brasspurse_registers_arm64 registers;
};

/* Undoes the frame of a function with this opcode word, stopped with these registers after its
 * prologue and before its epilogue: elsewhere in it the answer may be wrong, and is not refused.
 * `window` is bytes of its stack, the first at address `base`; the slots to be read must lie in it.
 * The registers' own program counter is not looked at. After arm64 frameless words x19 to x28 and
 * d8 to d15 may come out wrong, unrefused: see the top. */
struct brasspurse_step_x86_64_answer
brasspurse_step_x86_64(uint32_t opcode, struct brasspurse_registers_x86_64 registers,
                       uint64_t base, const uint8_t *window, size_t window_len);
struct brasspurse_step_arm64_answer
brasspurse_step_arm64(uint32_t opcode, struct brasspurse_registers_arm64 registers, uint64_t base,
                      const uint8_t *window, size_t window_len);

/* Unwinding: a lookup, then a step by the word found. */

struct brasspurse_unwind_x86_64_answer {
    uint32_t refusal; /* 0; 1 to 15 from the lookup; 20 also if it finds none; 20 to 27 */
    uint32_t value;   /* for 21 DWARF's 24 bits, for 22 the kind */
    uint32_t probes;  /* the lookup's, in every case */
    struct brasspurse_registers_x86_64 registers; /* the caller's; on refusal those passed in */
};

struct brasspurse_unwind_arm64_answer {
    uint32_t refusal; /* the same without 23 to 25 */
    uint32_t value;   /* this and the rest: as on x86_64 */
    uint32_t probes;
    struct brasspurse_registers_arm64 registers;
};

/* `address` is the program counter's, from the image's start; the registers' own is not looked at.
 * For a return address take one less: a call may be its function's last instruction. What is said
 * of a step holds here too. In a section that is not well formed the word may be that of a function
 * which does not cover the address. */
struct brasspurse_unwind_x86_64_answer
brasspurse_unwind_x86_64(const uint8_t *section, size_t section_len, uint32_t address,
                         struct brasspurse_registers_x86_64 registers, uint64_t base,
                         const uint8_t *window, size_t window_len);
struct brasspurse_unwind_arm64_answer
brasspurse_unwind_arm64(const uint8_t *section, size_t section_len, uint32_t address,
                        struct brasspurse_registers_arm64 registers, uint64_t base,
                        const uint8_t *window, size_t window_len);

/* Reads of little-endian numbers, at any offset and alignment. */

struct brasspurse_read_answer {
    uint32_t granted; /* 1, or 0 where the number is not wholly in the section */
    uint64_t value;   /* the number */
};

struct brasspurse_read_answer brasspurse_read_u16(const uint8_t *section, size_t section_len,
                                                  size_t offset);
struct brasspurse_read_answer brasspurse_read_u32(const uint8_t *section, size_t section_len,
                                                  size_t offset);
struct brasspurse_read_answer brasspurse_read_u64(const uint8_t *section, size_t section_len,
                                                  size_t offset);

/* Whether offset + bytes <= section_len, as whole numbers; so also for 0 bytes. */
bool brasspurse_is_granted(const uint8_t *section, size_t section_len, size_t offset,
                           size_t bytes);

#ifdef __cplusplus
}
#endif

#endif
