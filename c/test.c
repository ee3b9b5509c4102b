/* Calls every function of brasspurse.h. The numbers expected are worked out by hand, from what
 * docs/FORMAT.md says; where all words of a sort are asked about, a second account here gives them.
 * As far as it goes no two fields of an answer are alike, so that two that changed places are
 * seen. */
#include "brasspurse.h"

#include <inttypes.h>
#include <stdio.h>
#include <string.h>

/* Sizes and places. C99 has no static assertion; an array of -1 elements is refused. */

#define ASSERT(name, condition) typedef char assert_##name[(condition) ? 1 : -1]
#define SIZE(type, bytes) ASSERT(type, sizeof(struct brasspurse_##type) == (bytes))
#define PLACE(type, field, at)                                                                     \
    ASSERT(type##_##field, offsetof(struct brasspurse_##type, field) == (at))

SIZE(lists, 16);
SIZE(parse_answer, 20);
SIZE(range_answer, 12);
SIZE(lookup_answer, 24);
SIZE(next_answer, 32);
SIZE(fill_answer, 24);
SIZE(register_answer, 12);
SIZE(opcode_x86_64_answer, 16);
SIZE(opcode_arm64_answer, 8);
SIZE(permutation_answer, 12);
SIZE(encoding_answer, 8);
SIZE(rule_x86_64_answer, 32);
SIZE(rule_arm64_answer, 64);
SIZE(registers_x86_64, 64);
SIZE(registers_arm64, 176);
SIZE(step_x86_64_answer, 72);
SIZE(step_arm64_answer, 184);
SIZE(unwind_x86_64_answer, 80);
SIZE(unwind_arm64_answer, 192);
SIZE(read_answer, 16);

PLACE(lookup_answer, page, 12);
PLACE(lookup_answer, index, 16);
PLACE(lookup_answer, origin, 20);
PLACE(lookup_answer, probes, 21);
PLACE(lookup_answer, outcome, 22);
PLACE(lookup_answer, refusal, 23);
PLACE(next_answer, function_page, 20);
PLACE(next_answer, function_index, 24);
PLACE(next_answer, origin, 28);
PLACE(next_answer, outcome, 29);
PLACE(next_answer, refusal, 30);
PLACE(register_answer, number, 4);
PLACE(register_answer, dwarf_number, 8);
PLACE(opcode_x86_64_answer, fields, 6);
PLACE(opcode_x86_64_answer, field_states, 8);
PLACE(opcode_x86_64_answer, popped_regs, 10);
PLACE(rule_x86_64_answer, below, 20);
PLACE(rule_arm64_answer, below, 20);
PLACE(unwind_x86_64_answer, registers, 16);
PLACE(unwind_arm64_answer, registers, 16);
PLACE(read_answer, value, 8);

/* The numbers of the refusals (docs/FORMAT.md, 11), of the origins, of a register's states and of
 * the pairs. The calls below hold the library to these names. */

#define NUMBER(name, number) ASSERT(name, BRASSPURSE_##name == (number))

NUMBER(NOT_REFUSED, 0);
NUMBER(REFUSED_HEADER, 1);
NUMBER(REFUSED_GLOBAL_OPCODES, 2);
NUMBER(REFUSED_PAGES, 3);
NUMBER(REFUSED_PAGE_KIND, 4);
NUMBER(REFUSED_UNEXPECTED_SENTINEL_PAGE, 5);
NUMBER(REFUSED_INVALID_PAGE_KIND, 6);
NUMBER(REFUSED_REGULAR_PAGE, 7);
NUMBER(REFUSED_REGULAR_PAGE_FUNCTIONS, 8);
NUMBER(REFUSED_COMPRESSED_PAGE, 9);
NUMBER(REFUSED_COMPRESSED_PAGE_FUNCTIONS, 10);
NUMBER(REFUSED_LOCAL_OPCODES, 11);
NUMBER(REFUSED_INVALID_PAGE_ENTRY_FIRST_ADDRESS, 12);
NUMBER(REFUSED_ADDRESS_TOO_LARGE, 13);
NUMBER(REFUSED_LOCAL_INDEX, 14);
NUMBER(REFUSED_WRONG_VERSION, 15);
NUMBER(REFUSED_NULL, 20);
NUMBER(REFUSED_DWARF, 21);
NUMBER(REFUSED_UNRECOGNIZED_KIND, 22);
NUMBER(REFUSED_INVALID_FRAMELESS, 23);
NUMBER(REFUSED_NOT_SOUND, 24);
NUMBER(REFUSED_FRAMELESS_INDIRECT, 25);
NUMBER(REFUSED_ABOVE_ADDRESSES, 26);
NUMBER(REFUSED_OUTSIDE_WINDOW, 27);
NUMBER(REFUSED_LIST, 28);
NUMBER(REFUSED_INPUT_TOO_LONG, 30);

NUMBER(ORIGIN_NONE, 0);
NUMBER(ORIGIN_REGULAR_ENTRY, 1);
NUMBER(ORIGIN_GLOBAL_OPCODES, 2);
NUMBER(ORIGIN_LOCAL_OPCODES, 3);

NUMBER(REGISTER_ABSENT, 0);
NUMBER(REGISTER_NAMED, 1);
NUMBER(REGISTER_UNKNOWN, 2);

NUMBER(PAIR_X19_X20, 1);
NUMBER(PAIR_X21_X22, 2);
NUMBER(PAIR_X23_X24, 4);
NUMBER(PAIR_X25_X26, 8);
NUMBER(PAIR_X27_X28, 16);
NUMBER(PAIR_D8_D9, 256);
NUMBER(PAIR_D10_D11, 512);
NUMBER(PAIR_D12_D13, 1024);
NUMBER(PAIR_D14_D15, 2048);

static unsigned checks, failed;

/* Of what is wrong the first hundred are printed. */
static void same(int line, const char *what, uint64_t got, uint64_t expected)
{
    checks++;
    if (got == expected)
        return;
    failed++;
    if (failed > 100)
        return;
    printf("test.c:%d: %s is 0x%" PRIx64 ", expected 0x%" PRIx64 "\n", line, what, got, expected);
}

#define IS(got, expected) same(__LINE__, #got, got, expected)
#define IS_TEXT(got, expected) IS(strcmp(got, expected) == 0, true)

#define U16(x) (uint8_t)((x)&0xff), (uint8_t)((x) >> 8 & 0xff)
#define U32(x) U16((x)&0xffff), U16((x) >> 16 & 0xffff)
#define U64(x) U32((x)&0xffffffff), U32((x) >> 32)

/* A value of eight different bytes. */
#define V(n) (0xa1b2c3d4e5f60700 + (uint64_t)(n))

/* Words. FIELDS: offset 48; r13, rbx, r15, r12, r14. PUSHES: size 80; six registers by permutation
 * 261 = 2*120 + 0*24 + 3*6 + 1*2 + 1, so r13, rbx, rbp, r14, r15, r12. INDIRECT: the same ones,
 * place 42, adjust 40. PAIRS: all nine. */
#define FIELDS 0x0106454b
#define PUSHES 0x020a1905
#define INDIRECT 0x032ab905
#define PAIRS 0x04000f1f

/* Each pair's own word, its bit in saved_pairs, and its first register; the second follows it. */
static const struct {
    uint32_t word;
    uint16_t bit;
    uint8_t first;
} pairs_alone[9] = {
    {0x04000001, BRASSPURSE_PAIR_X19_X20, BRASSPURSE_X19},
    {0x04000002, BRASSPURSE_PAIR_X21_X22, BRASSPURSE_X21},
    {0x04000004, BRASSPURSE_PAIR_X23_X24, BRASSPURSE_X23},
    {0x04000008, BRASSPURSE_PAIR_X25_X26, BRASSPURSE_X25},
    {0x04000010, BRASSPURSE_PAIR_X27_X28, BRASSPURSE_X27},
    {0x04000100, BRASSPURSE_PAIR_D8_D9, BRASSPURSE_D8},
    {0x04000200, BRASSPURSE_PAIR_D10_D11, BRASSPURSE_D10},
    {0x04000400, BRASSPURSE_PAIR_D12_D13, BRASSPURSE_D12},
    {0x04000800, BRASSPURSE_PAIR_D14_D15, BRASSPURSE_D14},
};

/* Frame-based words of arm64 without a pair. Bits 5 to 7, and 12 and above, mark none. */
static const uint32_t without_pairs[6] = {
    0x04000000, 0x04000020, 0x04000040, 0x04000080, 0x040000e0, 0xf4fff0e0,
};

/* What an answer says of a function, and where it has none. */
struct function {
    uint32_t start, end, opcode, page, index;
    uint8_t origin;
};

static const struct function no_function = {0, 0, 0, 0, 0, BRASSPURSE_ORIGIN_NONE};

#define REGULAR BRASSPURSE_ORIGIN_REGULAR_ENTRY
#define GLOBAL BRASSPURSE_ORIGIN_GLOBAL_OPCODES
#define LOCAL BRASSPURSE_ORIGIN_LOCAL_OPCODES

/* Section S (docs/FORMAT.md, 2.8). */
static const uint8_t S[80] = {
    U32(1), U32(28), U32(1), U32(32), U32(0), U32(32), U32(2),      /* header */
    U32(0x01010001),                                                /* global opcode */
    U32(0x1000), U32(56), U32(0), U32(0x1100), U32(0), U32(0),      /* pages */
    U32(3), U16(12), U16(2), U16(20), U16(1),                       /* page 0, compressed */
    U32(0x00000000), U32(0x01000040), U32(0x02030800),
};

static const struct function s_functions[2] = {
    {0x1000, 0x1040, 0x01010001, 0, 0, GLOBAL},
    {0x1040, 0x1100, 0x02030800, 0, 1, LOCAL},
};

/* Three pages, so that cursors are not near 0. */
static const uint8_t T[172] = {
    U32(1), U32(28), U32(3), U32(40), U32(0), U32(40), U32(4),      /* header */
    U32(0x01010001), U32(0x02030800), U32(0x04abcdef),              /* global opcodes */
    U32(0x1000), U32(88), U32(0), U32(0x2000), U32(112), U32(0),    /* pages */
    U32(0x3000), U32(140), U32(0), U32(0x4000), U32(0), U32(0),
    U32(2), U16(8), U16(2),                                         /* page 0, regular */
    U32(0x1000), U32(0x01020001), U32(0x1800), U32(0x01030002),
    U32(3), U16(12), U16(3), U16(24), U16(1),                       /* page 1, compressed */
    U32(0x02000000), U32(0x00000300), U32(0x03000700), U32(FIELDS),
    U32(2), U16(8), U16(3),                                         /* page 2, regular */
    U32(0x3000), U32(PUSHES), U32(0x3100), U32(0x00000009), U32(0x3700), U32(0x05000000),
};

static const struct function t_functions[8] = {
    {0x1000, 0x1800, 0x01020001, 0, 0, REGULAR}, {0x1800, 0x2000, 0x01030002, 0, 1, REGULAR},
    {0x2000, 0x2300, 0x04abcdef, 1, 0, GLOBAL},  {0x2300, 0x2700, 0x01010001, 1, 1, GLOBAL},
    {0x2700, 0x3000, FIELDS, 1, 2, LOCAL},       {0x3000, 0x3100, PUSHES, 2, 0, REGULAR},
    {0x3100, 0x3700, 0x00000009, 2, 1, REGULAR}, {0x3700, 0x4000, 0x05000000, 2, 2, REGULAR},
};

static const struct brasspurse_lists t_lists = {28, 3, 40, 4};

static void put(uint8_t *section, size_t at, uint32_t number)
{
    const uint8_t bytes[4] = {U32(number)};
    memcpy(section + at, bytes, 4);
}

/* T, where page 1's last function has an opcode index past the local list. */
static void wrong_index(uint8_t section[sizeof T])
{
    memcpy(section, T, sizeof T);
    put(section, 132, 0x04000700);
}

/* T without its header: only the lists say where things are. */
static void no_header(uint8_t section[sizeof T])
{
    memcpy(section, T, sizeof T);
    memset(section, 0, 28);
}

static void texts(void)
{
    const uint32_t used[] = {0,  1,  2,  3,  4,  5,  6,  7,  8,  9,  10, 11, 12,
                             13, 14, 15, 20, 21, 22, 23, 24, 25, 26, 27, 28, 30};
    const uint32_t others[] = {16, 17, 18, 19, 29, 31, 256, 65536 + 1, UINT32_MAX};
    const size_t n = sizeof used / sizeof used[0];
    char version[32];

    for (size_t i = 0; i < n; i++) {
        const char *text = brasspurse_refusal_text(used[i]);

        IS(text[0] != 0, true);
        IS(strcmp(text, "unknown refusal") != 0, true);
        for (size_t j = 0; j < i; j++)
            IS(strcmp(text, brasspurse_refusal_text(used[j])) != 0, true);
    }
    for (size_t i = 0; i < sizeof others / sizeof others[0]; i++)
        IS_TEXT(brasspurse_refusal_text(others[i]), "unknown refusal");
    IS_TEXT(brasspurse_refusal_text(BRASSPURSE_NOT_REFUSED), "not refused");
    IS_TEXT(brasspurse_refusal_text(BRASSPURSE_REFUSED_HEADER),
            "the header lies outside the section");
    IS_TEXT(brasspurse_refusal_text(BRASSPURSE_REFUSED_INPUT_TOO_LONG),
            "the input has more than 65,536 bytes");

    snprintf(version, sizeof version, "%d.%d.%d", BRASSPURSE_VERSION_MAJOR,
             BRASSPURSE_VERSION_MINOR, BRASSPURSE_VERSION_PATCH);
    IS_TEXT(version, BRASSPURSE_VERSION);
}

static void reads(void)
{
    const uint8_t bytes[9] = {1, 2, 3, 4, 5, 6, 7, 8, 9};
    struct brasspurse_read_answer r;

    r = brasspurse_read_u16(bytes, 9, 1);
    IS(r.granted, 1);
    IS(r.value, 0x0302);
    r = brasspurse_read_u32(bytes, 9, 2);
    IS(r.granted, 1);
    IS(r.value, 0x06050403);
    r = brasspurse_read_u64(bytes, 9, 1);
    IS(r.granted, 1);
    IS(r.value, 0x0908070605040302);

    r = brasspurse_read_u16(bytes, 9, 8);
    IS(r.granted, 0);
    IS(r.value, 0);
    r = brasspurse_read_u32(bytes, 9, 6);
    IS(r.granted, 0);
    IS(r.value, 0);
    r = brasspurse_read_u64(bytes, 9, SIZE_MAX);
    IS(r.granted, 0);
    IS(r.value, 0);

    IS(brasspurse_is_granted(bytes, 9, 4, 5), true);
    IS(brasspurse_is_granted(bytes, 9, 4, 6), false);
    IS(brasspurse_is_granted(bytes, 9, 9, 0), true);
    IS(brasspurse_is_granted(bytes, 9, 10, 0), false);
    IS(brasspurse_is_granted(bytes, 9, SIZE_MAX, 2), false);
    IS(brasspurse_is_granted(bytes, 0, 0, 0), true);
}

static void permutations(void)
{
    const uint8_t list[6] = {3, 1, 6, 4, 5, 2}, twice[6] = {3, 1, 6, 4, 5, 3}, none[6] = {0};
    struct brasspurse_permutation_answer p;
    struct brasspurse_encoding_answer e;

    p = brasspurse_decode_permutation_6(6, 261);
    IS(p.refusal, 0);
    for (int i = 0; i < 6; i++)
        IS(p.registers[i], list[i]);
    p = brasspurse_decode_permutation_6(6, 720);
    IS(p.refusal, BRASSPURSE_REFUSED_INVALID_FRAMELESS);
    for (int i = 0; i < 6; i++)
        IS(p.registers[i], 0);

    p = brasspurse_decode_permutation_6(7, 0);
    IS(p.refusal, BRASSPURSE_REFUSED_INVALID_FRAMELESS);
    p = brasspurse_decode_permutation_6(0, UINT32_MAX);
    IS(p.refusal, 0);
    for (int i = 0; i < 6; i++)
        IS(p.registers[i], 0);

    e = brasspurse_encode_permutation_6(0, none);
    IS(e.refusal, 0);
    IS(e.encoding, 0);
    e = brasspurse_encode_permutation_6(6, list);
    IS(e.refusal, 0);
    IS(e.encoding, 261);
    e = brasspurse_encode_permutation_6(6, twice);
    IS(e.refusal, BRASSPURSE_REFUSED_LIST);
    IS(e.encoding, 0);
    e = brasspurse_encode_permutation_6(7, list);
    IS(e.refusal, BRASSPURSE_REFUSED_LIST);
    IS(e.encoding, 0);
}

/* What a number says of a register. */
static uint32_t state_of(unsigned number)
{
    if (number == 0)
        return BRASSPURSE_REGISTER_ABSENT;
    return number <= 6 ? BRASSPURSE_REGISTER_NAMED : BRASSPURSE_REGISTER_UNKNOWN;
}

/* `fields` has a digit for each field, field 0 first, and `popped` one for each place. */
static void word_x86_64(int line, uint32_t word, uint8_t answer, uint32_t value, uint8_t adjust,
                        const char fields[6], const char popped[7])
{
    struct brasspurse_opcode_x86_64_answer w = brasspurse_parse_x86_64(word);

    same(line, "answer", w.answer, answer);
    same(line, "value", w.value, value);
    same(line, "stack_adjust_in_bytes", w.stack_adjust_in_bytes, adjust);
    for (unsigned k = 0; k < 5; k++) {
        const unsigned number = (unsigned)(fields[k] - '0');

        same(line, "field", brasspurse_field(w.fields, k), number);
        same(line, "state", brasspurse_field(w.field_states, k), state_of(number));
    }
    same(line, "bit 15 of fields", w.fields >> 15, 0);
    same(line, "bit 15 of field_states", w.field_states >> 15, 0);
    for (int i = 0; i < 6; i++)
        same(line, "popped_regs", w.popped_regs[i], (uint64_t)(popped[i] - '0'));
}

static void word_arm64(int line, uint32_t word, uint8_t answer, uint32_t value, uint8_t count,
                       uint16_t pairs)
{
    struct brasspurse_opcode_arm64_answer w = brasspurse_parse_arm64(word);

    same(line, "answer", w.answer, answer);
    same(line, "value", w.value, value);
    same(line, "saved_reg_pair_count", w.saved_reg_pair_count, count);
    same(line, "saved_pairs", w.saved_pairs, pairs);
}

#define WORD_X86_64(...) word_x86_64(__LINE__, __VA_ARGS__)
#define WORD_ARM64(...) word_arm64(__LINE__, __VA_ARGS__)

static void words(void)
{
    IS(brasspurse_opcode_kind(0xf6abcdef), 6);
    IS(brasspurse_opcode_specific_bits(0xf6abcdef), 0xabcdef);

    WORD_X86_64(0x00abcdef, BRASSPURSE_X86_64_NULL, 0, 0, "00000", "000000");
    WORD_X86_64(FIELDS, BRASSPURSE_X86_64_FRAME_BASED, 48, 0, "31524", "000000");
    WORD_X86_64(PUSHES, BRASSPURSE_X86_64_FRAMELESS_IMMEDIATE, 80, 0, "00000", "316452");
    WORD_X86_64(INDIRECT, BRASSPURSE_X86_64_FRAMELESS_INDIRECT, 42, 40, "00000", "316452");
    WORD_X86_64(0x04abcdef, BRASSPURSE_X86_64_DWARF, 0xabcdef, 0, "00000", "000000");
    WORD_X86_64(0x02001ad0, BRASSPURSE_X86_64_INVALID_FRAMELESS, 0, 0, "00000", "000000");
    WORD_X86_64(0x09abcdef, BRASSPURSE_X86_64_UNRECOGNIZED_KIND, 9, 0, "00000", "000000");

    /* The smallest word with an absent field, and with an unknown one; then each place alone. */
    WORD_X86_64(0x01000000, BRASSPURSE_X86_64_FRAME_BASED, 0, 0, "00000", "000000");
    WORD_X86_64(0x01000007, BRASSPURSE_X86_64_FRAME_BASED, 0, 0, "70000", "000000");
    WORD_X86_64(0x01000038, BRASSPURSE_X86_64_FRAME_BASED, 0, 0, "07000", "000000");
    WORD_X86_64(0x010001c0, BRASSPURSE_X86_64_FRAME_BASED, 0, 0, "00700", "000000");
    WORD_X86_64(0x01000e00, BRASSPURSE_X86_64_FRAME_BASED, 0, 0, "00070", "000000");
    WORD_X86_64(0x01007000, BRASSPURSE_X86_64_FRAME_BASED, 0, 0, "00007", "000000");
    /* Bits 15 and 28 to 31 say nothing. */
    WORD_X86_64(0x912ac54b, BRASSPURSE_X86_64_FRAME_BASED, 336, 0, "31524", "000000");
    WORD_X86_64(0x01008000, BRASSPURSE_X86_64_FRAME_BASED, 0, 0, "00000", "000000");
    WORD_X86_64(0x41ff7fff, BRASSPURSE_X86_64_FRAME_BASED, 2040, 0, "77777", "000000");
    WORD_X86_64(0x01010e06, BRASSPURSE_X86_64_FRAME_BASED, 8, 0, "60070", "000000");
    /* The same in numbers. */
    IS(brasspurse_parse_x86_64(0x01000007).fields, 7);
    IS(brasspurse_parse_x86_64(0x01000007).field_states, 2);
    IS(brasspurse_parse_x86_64(0x912ac54b).fields, 0x454b);
    IS(brasspurse_parse_x86_64(0x912ac54b).field_states, 0x1249);
    IS(brasspurse_parse_x86_64(0x41ff7fff).fields, 0x7fff);
    IS(brasspurse_parse_x86_64(0x41ff7fff).field_states, 0x2492);

    WORD_ARM64(0x00abcdef, BRASSPURSE_ARM64_NULL, 0, 0, 0);
    WORD_ARM64(0x02abc000, BRASSPURSE_ARM64_FRAMELESS, 43968, 0, 0);
    WORD_ARM64(0x03abcdef, BRASSPURSE_ARM64_DWARF, 0xabcdef, 0, 0);
    for (int i = 0; i < 9; i++)
        WORD_ARM64(pairs_alone[i].word, BRASSPURSE_ARM64_FRAME_BASED, 0, 1, pairs_alone[i].bit);
    for (int i = 0; i < 6; i++)
        WORD_ARM64(without_pairs[i], BRASSPURSE_ARM64_FRAME_BASED, 0, 0, 0);
    WORD_ARM64(0x04000915, BRASSPURSE_ARM64_FRAME_BASED, 0, 5,
               BRASSPURSE_PAIR_X19_X20 | BRASSPURSE_PAIR_X23_X24 | BRASSPURSE_PAIR_X27_X28 |
                   BRASSPURSE_PAIR_D8_D9 | BRASSPURSE_PAIR_D14_D15);
    WORD_ARM64(PAIRS, BRASSPURSE_ARM64_FRAME_BASED, 0, 9, 0xf1f);
    WORD_ARM64(0x04ffffff, BRASSPURSE_ARM64_FRAME_BASED, 0, 9, 0xf1f);
    WORD_ARM64(0x07abcdef, BRASSPURSE_ARM64_UNRECOGNIZED_KIND, 7, 0, 0);
}

/* Every number that can be asked about. */
static void registers(void)
{
    const uint32_t dwarf_numbers[256] = {0, 3, 12, 13, 14, 15, 6};

    for (unsigned n = 0; n < 256; n++) {
        struct brasspurse_register_answer r = brasspurse_register_x86_64((uint8_t)n);

        IS(r.state, state_of(n));
        IS(r.number, n);
        IS(r.dwarf_number, dwarf_numbers[n]);
    }
}

/* A second account of a frame-based word's fields. */
static void fields_of(uint32_t word, uint8_t fields[5])
{
    for (int k = 0; k < 5; k++) {
        fields[k] = (uint8_t)(word % 8);
        word /= 8;
    }
}

/* And of its rule: whether it has one, and then the slots. */
static bool has_rule(const uint8_t fields[5], unsigned offset, uint16_t below[6])
{
    const uint16_t rbp_alone[6] = {[BRASSPURSE_RBP] = 16};

    memcpy(below, rbp_alone, sizeof rbp_alone);
    for (unsigned k = 0; k < 5; k++) {
        if (fields[k] == 0)
            continue;
        if (fields[k] > 5 || below[fields[k] - 1] != 0 || 8 * k >= offset)
            return false;
        below[fields[k] - 1] = (uint16_t)(16 + offset - 8 * k);
    }
    return true;
}

static bool has_fields(uint32_t word, const uint8_t fields[5])
{
    struct brasspurse_opcode_x86_64_answer w = brasspurse_parse_x86_64(word);
    bool right = w.answer == BRASSPURSE_X86_64_FRAME_BASED && w.fields < 0x8000 &&
                 w.field_states < 0x8000;

    for (unsigned k = 0; k < 5; k++) {
        right = right && brasspurse_field(w.fields, k) == fields[k];
        right = right && brasspurse_field(w.field_states, k) == state_of(fields[k]);
    }
    for (int i = 0; i < 6; i++)
        right = right && w.popped_regs[i] == 0;
    return right;
}

static bool is_ruled(uint32_t word, const uint8_t fields[5], unsigned offset)
{
    const uint16_t absent[6] = {0};
    struct brasspurse_rule_x86_64_answer r = brasspurse_rule_x86_64(word);
    uint16_t below[6];

    if (!has_rule(fields, offset, below))
        return r.refusal == BRASSPURSE_REFUSED_NOT_SOUND && r.value == 0 &&
               memcmp(r.below, absent, sizeof absent) == 0;
    return r.refusal == 0 && r.cfa_distance == 16 &&
           r.cfa_register == BRASSPURSE_CFA_FRAME_POINTER &&
           memcmp(r.below, below, sizeof below) == 0;
}

/* All combinations of fields, each at six offsets, and at half of these with all the bits that say
 * nothing. */
static void all_fields(void)
{
    const uint32_t eighths[6] = {0, 1, 2, 4, 5, 255};
    uint8_t fields[5];

    for (uint32_t n = 0; n < 32768; n++) {
        fields_of(n, fields);
        for (int i = 0; i < 6; i++) {
            const uint32_t word = (i % 2 ? 0xf1008000 : 0x01000000) | eighths[i] << 16 | n;

            IS(has_fields(word, fields) ? word : 0, word);
            IS(is_ruled(word, fields, 8 * eighths[i]) ? word : 0, word);
        }
    }
}

/* As many different registers as are counted, then nothing. */
static bool lists_registers(const uint8_t popped[6], uint32_t count)
{
    unsigned met = 0;

    for (uint32_t i = 0; i < 6; i++) {
        if (i >= count && popped[i] != 0)
            return false;
        if (i < count && (popped[i] < 1 || popped[i] > 6 || met >> popped[i] & 1))
            return false;
        met |= 1u << popped[i];
    }
    return true;
}

/* A register that is listed has a slot, and no other one has. */
static bool has_slots(uint32_t word, const uint8_t popped[6])
{
    struct brasspurse_rule_x86_64_answer r = brasspurse_rule_x86_64(word);
    bool right = r.refusal == 0;

    for (int n = 1; n <= 6; n++)
        right = right && (memchr(popped, n, 6) != NULL) == (r.below[n - 1] != 0);
    return right;
}

/* All permutations of both kinds of frameless words. */
static void all_frameless(void)
{
    const uint32_t accepted[8] = {1024, 6, 30, 120, 360, 720, 720, 0};

    for (uint32_t n = 0; n < 8192; n++) {
        const uint32_t count = n / 1024;
        const bool is_accepted = n % 1024 < accepted[count];

        for (uint32_t kind = 2; kind <= 3; kind++) {
            const uint32_t word = kind << 24 | 0x00090000 | n;
            struct brasspurse_opcode_x86_64_answer w = brasspurse_parse_x86_64(word);

            IS(w.answer, is_accepted ? kind : BRASSPURSE_X86_64_INVALID_FRAMELESS);
            IS(w.fields, 0);
            IS(w.field_states, 0);
            IS(lists_registers(w.popped_regs, is_accepted ? count : 0) ? word : 0, word);
            if (is_accepted && kind == 2)
                IS(has_slots(word, w.popped_regs) ? word : 0, word);
        }
    }
}

/* Only frame-based words have fields, only frameless ones a list. */
static void other_kinds(void)
{
    const uint32_t bits[5] = {0, 0x000007, 0x007fff, 0xabcdef, 0xffffff};

    for (uint32_t kind = 0; kind < 16; kind++) {
        for (int i = 0; i < 5; i++) {
            struct brasspurse_opcode_x86_64_answer w =
                brasspurse_parse_x86_64(kind << 24 | bits[i]);

            IS(w.fields, kind == 1 ? bits[i] & 0x7fff : 0);
            if (kind != 1)
                IS(w.field_states, 0);
            if (kind < 2 || kind > 3)
                IS(lists_registers(w.popped_regs, 0), true);
        }
    }
}

static void lists(void)
{
    uint8_t bare[sizeof T];
    struct brasspurse_lists other = t_lists;
    struct brasspurse_parse_answer p;
    struct brasspurse_range_answer r;

    p = brasspurse_parse(T, sizeof T);
    IS(p.refusal, 0);
    IS(p.global_opcodes_offset, 28);
    IS(p.global_opcodes_len, 3);
    IS(p.pages_offset, 40);
    IS(p.pages_len, 4);
    p = brasspurse_parse(T, 39);
    IS(p.refusal, BRASSPURSE_REFUSED_GLOBAL_OPCODES);
    IS(p.global_opcodes_offset, 0);
    IS(p.global_opcodes_len, 0);
    IS(p.pages_offset, 0);
    IS(p.pages_len, 0);
    p = brasspurse_parse(T, 0);
    IS(p.refusal, BRASSPURSE_REFUSED_HEADER);

    r = brasspurse_address_range(T, sizeof T);
    IS(r.refusal, 0);
    IS(r.start, 0x1000);
    IS(r.end, 0x4000);
    r = brasspurse_address_range(T, 87);
    IS(r.refusal, BRASSPURSE_REFUSED_PAGES);
    IS(r.start, 0);
    IS(r.end, 0);

    no_header(bare);
    other.pages_offset = 52;
    other.pages_len = 2;
    r = brasspurse_address_range_in(bare, sizeof T, other);
    IS(r.refusal, 0);
    IS(r.start, 0x2000);
    IS(r.end, 0x3000);
    other.global_opcodes_len = 37;
    r = brasspurse_address_range_in(bare, sizeof T, other);
    IS(r.refusal, BRASSPURSE_REFUSED_GLOBAL_OPCODES);
    IS(r.start, 0);
    IS(r.end, 0);

    IS(brasspurse_is_well_formed(T, sizeof T), true);
    IS(brasspurse_is_well_formed(bare, sizeof T), false); /* version 0 */
    put(bare, 0, 1);
    IS(brasspurse_is_well_formed(bare, sizeof T), true); /* without lists */
    IS(brasspurse_is_well_formed(S, 80), true);
    IS(brasspurse_is_well_formed(S, 79), false);
}

static void is_lookup(int line, struct brasspurse_lookup_answer l, struct function f,
                      uint8_t probes, uint8_t outcome, uint8_t refusal)
{
    same(line, "start", l.start, f.start);
    same(line, "end", l.end, f.end);
    same(line, "opcode", l.opcode, f.opcode);
    same(line, "page", l.page, f.page);
    same(line, "index", l.index, f.index);
    same(line, "origin", l.origin, f.origin);
    same(line, "probes", l.probes, probes);
    same(line, "outcome", l.outcome, outcome);
    same(line, "refusal", l.refusal, refusal);
}

#define IS_FOUND(answer, function, probes)                                                         \
    is_lookup(__LINE__, answer, function, probes, BRASSPURSE_LOOKUP_FUNCTION, 0)
#define IS_NONE(answer, probes)                                                                    \
    is_lookup(__LINE__, answer, no_function, probes, BRASSPURSE_LOOKUP_NONE, 0)
#define IS_REFUSED(answer, probes, number)                                                         \
    is_lookup(__LINE__, answer, no_function, probes, BRASSPURSE_LOOKUP_REFUSED, number)

static void lookups(void)
{
    /* By other lists: the same entries with other opcodes. */
    const struct function second = {0x2300, 0x2700, 0x02030800, 1, 1, GLOBAL};
    const struct function local = {0x2000, 0x2300, FIELDS, 1, 0, LOCAL};
    uint8_t wrong[sizeof T], bare[sizeof T];
    struct brasspurse_lists other = t_lists;

    wrong_index(wrong);
    no_header(bare);

    IS_NONE(brasspurse_lookup(S, 80, 0x0fff), 2);
    IS_FOUND(brasspurse_lookup(S, 80, 0x1000), s_functions[0], 4);
    IS_FOUND(brasspurse_lookup(S, 80, 0x103f), s_functions[0], 4);
    IS_FOUND(brasspurse_lookup(S, 80, 0x1040), s_functions[1], 3);
    IS_NONE(brasspurse_lookup(S, 80, 0x1100), 1);
    IS_FOUND(brasspurse_lookup(S, 79, 0x1000), s_functions[0], 4);
    IS_REFUSED(brasspurse_lookup(wrong, sizeof T, 0x2700), 4, BRASSPURSE_REFUSED_LOCAL_INDEX);

    IS_FOUND(brasspurse_lookup_in(bare, sizeof T, t_lists, 0x2400), t_functions[3], 4);
    other.global_opcodes_offset = 32; /* one further: index 0 now names the second */
    other.global_opcodes_len = 2;     /* and index 2 the first local one */
    IS_FOUND(brasspurse_lookup_in(bare, sizeof T, other, 0x2400), second, 4);
    IS_FOUND(brasspurse_lookup_in(bare, sizeof T, other, 0x2000), local, 4);
    other.pages_len = 12;
    IS_REFUSED(brasspurse_lookup_in(bare, sizeof T, other, 0x2400), 0, BRASSPURSE_REFUSED_PAGES);
}

static void batches(void)
{
    const uint32_t addresses[5] = {0x0fff, 0x2400, 0x3700, 0x2700, 0x1000};
    const uint32_t expected[29] = {
        0, 0, 0, 0, 0, 0x00000300,                       /* none, 3 probes */
        0x2300, 0x2700, 0x01010001, 1, 1, 0x00010402,    /* global, 4 probes */
        0x3700, 0x4000, 0x05000000, 2, 2, 0x00010401,    /* regular, 4 probes */
        0, 0, 0, 0, 0, 0x0e020400,                       /* refused with 14, 4 probes */
        0xeeeeeeee, 0xeeeeeeee, 0xeeeeeeee, 0xeeeeeeee, 0xeeeeeeee, /* not written */
    };
    uint32_t answers[29];
    uint8_t wrong[sizeof T];

    wrong_index(wrong);
    memset(answers, 0xee, sizeof answers);
    IS(brasspurse_lookup_batch(wrong, sizeof T, addresses, 5, answers, 29), 4);
    for (int i = 0; i < 29; i++)
        IS(answers[i], expected[i]);
    IS_NONE(brasspurse_batch_answer(answers, 0), 3);
    IS_FOUND(brasspurse_batch_answer(answers, 1), t_functions[3], 4);
    IS_FOUND(brasspurse_batch_answer(answers, 2), t_functions[7], 4);
    IS_REFUSED(brasspurse_batch_answer(answers, 3), 4, BRASSPURSE_REFUSED_LOCAL_INDEX);

    /* More room than addresses; a section that does not parse. */
    memset(answers, 0xee, sizeof answers);
    IS(brasspurse_lookup_batch(S, 27, addresses, 2, answers, 29), 2);
    IS_REFUSED(brasspurse_batch_answer(answers, 0), 0, BRASSPURSE_REFUSED_HEADER);
    IS_REFUSED(brasspurse_batch_answer(answers, 1), 0, BRASSPURSE_REFUSED_HEADER);
    IS(answers[12], 0xeeeeeeee);
    IS(brasspurse_lookup_batch(S, 80, addresses, 0, answers, 29), 0);
    IS(brasspurse_lookup_batch(S, 80, addresses, 5, answers, 5), 0);
    IS(answers[12], 0xeeeeeeee);
}

/* `page` and `index` are the cursor for the next call. */
static void is_next(int line, struct brasspurse_next_answer n, struct function f, uint32_t page,
                    uint32_t index, uint8_t outcome, uint8_t refusal)
{
    same(line, "start", n.start, f.start);
    same(line, "end", n.end, f.end);
    same(line, "opcode", n.opcode, f.opcode);
    same(line, "function_page", n.function_page, f.page);
    same(line, "function_index", n.function_index, f.index);
    same(line, "origin", n.origin, f.origin);
    same(line, "page", n.page, page);
    same(line, "index", n.index, index);
    same(line, "outcome", n.outcome, outcome);
    same(line, "refusal", n.refusal, refusal);
}

#define IS_NEXT(answer, function, page, index)                                                     \
    is_next(__LINE__, answer, function, page, index, BRASSPURSE_NEXT_FUNCTION, 0)
#define IS_END(answer, page) is_next(__LINE__, answer, no_function, page, 0, BRASSPURSE_NEXT_END, 0)
#define IS_NEXT_REFUSED(answer, page, index, number)                                               \
    is_next(__LINE__, answer, no_function, page, index, BRASSPURSE_NEXT_REFUSED, number)

static void is_fill(int line, struct brasspurse_fill_answer f, size_t functions, uint32_t page,
                    uint32_t index, uint16_t outcome, uint16_t refusal)
{
    same(line, "functions", f.functions, functions);
    same(line, "page", f.page, page);
    same(line, "index", f.index, index);
    same(line, "outcome", f.outcome, outcome);
    same(line, "refusal", f.refusal, refusal);
}

#define IS_FILL(answer, ...) is_fill(__LINE__, answer, __VA_ARGS__)

/* `out` has functions of T from `first` on, then what was there before. It is marked anew. */
static void is_listed(int line, uint32_t out[26], size_t first, size_t count)
{
    for (size_t i = 0; i < count; i++) {
        same(line, "out", out[3 * i], t_functions[first + i].start);
        same(line, "out", out[3 * i + 1], t_functions[first + i].end);
        same(line, "out", out[3 * i + 2], t_functions[first + i].opcode);
    }
    for (size_t i = 3 * count; i < 26; i++)
        same(line, "out", out[i], 0xeeeeeeee);
    memset(out, 0xee, 26 * sizeof out[0]);
}

#define IS_LISTED(...) is_listed(__LINE__, __VA_ARGS__)

static void iteration(void)
{
    uint8_t wrong[sizeof T], bare[sizeof T];
    struct brasspurse_lists other = t_lists;

    wrong_index(wrong);
    no_header(bare);
    other.pages_len = 12;

    IS_NEXT(brasspurse_next(T, sizeof T, 2, 2), t_functions[7], 2, 3);
    IS_NEXT(brasspurse_next(T, sizeof T, 1, 9), t_functions[5], 2, 1);
    IS_END(brasspurse_next(T, sizeof T, 7, 5), 3);
    IS_NEXT_REFUSED(brasspurse_next(wrong, sizeof T, 1, 2), 1, 3, BRASSPURSE_REFUSED_LOCAL_INDEX);

    IS_NEXT(brasspurse_next_in(bare, sizeof T, t_lists, 2, 2), t_functions[7], 2, 3);
    IS_NEXT_REFUSED(brasspurse_next_in(bare, sizeof T, other, 5, 7), 5, 7,
                    BRASSPURSE_REFUSED_PAGES);
}

static void blocks(void)
{
    uint8_t wrong[sizeof T], bare[sizeof T];
    uint32_t out[26];
    struct brasspurse_lists other = t_lists;

    wrong_index(wrong);
    no_header(bare);
    other.pages_len = 12;

    memset(out, 0xee, sizeof out);
    IS_FILL(brasspurse_fill(T, sizeof T, 0, 0, out, 26), 8, 2, 3, BRASSPURSE_FILL_FULL, 0);
    IS_LISTED(out, 0, 8);
    IS_FILL(brasspurse_fill(T, sizeof T, 2, 3, out, 26), 0, 3, 0, BRASSPURSE_FILL_END, 0);
    IS_LISTED(out, 0, 0);
    IS_FILL(brasspurse_fill(T, sizeof T, 5, 7, out, 2), 0, 5, 7, BRASSPURSE_FILL_FULL, 0);
    IS_FILL(brasspurse_fill(T, sizeof T, 5, 7, out, 0), 0, 5, 7, BRASSPURSE_FILL_FULL, 0);
    IS_LISTED(out, 0, 0);
    IS_FILL(brasspurse_fill(wrong, sizeof T, 0, 0, out, 26), 4, 1, 3, BRASSPURSE_FILL_REFUSED,
            BRASSPURSE_REFUSED_LOCAL_INDEX);
    IS_LISTED(out, 0, 4);

    IS_FILL(brasspurse_fill_in(bare, sizeof T, t_lists, 1, 1, out, 15), 5, 2, 3,
            BRASSPURSE_FILL_FULL, 0);
    IS_LISTED(out, 3, 5);
    IS_FILL(brasspurse_fill_in(bare, sizeof T, t_lists, 2, 1, out, 26), 2, 3, 0,
            BRASSPURSE_FILL_END, 0);
    IS_LISTED(out, 6, 2);
    IS_FILL(brasspurse_fill_in(bare, sizeof T, other, 5, 7, out, 26), 0, 5, 7,
            BRASSPURSE_FILL_REFUSED, BRASSPURSE_REFUSED_PAGES);
    IS_LISTED(out, 0, 0);
}

/* A block with no room: lists that are not there are refused all the same, and nothing else is. */
static void no_room(void)
{
    const struct brasspurse_lists lists = {28, 1, 32, 2};
    uint32_t out[26];

    memset(out, 0xee, sizeof out);
    for (size_t room = 0; room < 3; room++) {
        IS_FILL(brasspurse_fill(S, 0, 5, 7, out, room), 0, 5, 7, BRASSPURSE_FILL_REFUSED,
                BRASSPURSE_REFUSED_HEADER);
        IS_FILL(brasspurse_fill(S, 27, 5, 7, out, room), 0, 5, 7, BRASSPURSE_FILL_REFUSED,
                BRASSPURSE_REFUSED_HEADER);
        IS_FILL(brasspurse_fill(S, 31, 5, 7, out, room), 0, 5, 7, BRASSPURSE_FILL_REFUSED,
                BRASSPURSE_REFUSED_GLOBAL_OPCODES);
        IS_FILL(brasspurse_fill(S, 55, 5, 7, out, room), 0, 5, 7, BRASSPURSE_FILL_REFUSED,
                BRASSPURSE_REFUSED_PAGES);
        /* The lists are there: page 0's kind is not, or is; or it is the end. */
        IS_FILL(brasspurse_fill(S, 56, 0, 0, out, room), 0, 0, 0, BRASSPURSE_FILL_FULL, 0);
        IS_FILL(brasspurse_fill(S, 80, 0, 1, out, room), 0, 0, 1, BRASSPURSE_FILL_FULL, 0);
        IS_FILL(brasspurse_fill(S, 80, 5, 7, out, room), 0, 5, 7, BRASSPURSE_FILL_FULL, 0);

        IS_FILL(brasspurse_fill_in(S, 31, lists, 5, 7, out, room), 0, 5, 7,
                BRASSPURSE_FILL_REFUSED, BRASSPURSE_REFUSED_GLOBAL_OPCODES);
        IS_FILL(brasspurse_fill_in(S, 55, lists, 5, 7, out, room), 0, 5, 7,
                BRASSPURSE_FILL_REFUSED, BRASSPURSE_REFUSED_PAGES);
        IS_FILL(brasspurse_fill_in(S, 56, lists, 0, 0, out, room), 0, 0, 0, BRASSPURSE_FILL_FULL,
                0);
        IS_FILL(brasspurse_fill_in(S, 80, lists, 5, 7, out, room), 0, 5, 7, BRASSPURSE_FILL_FULL,
                0);
    }
    IS_LISTED(out, 0, 0);
}

/* Each function by its first and its last address: alone, in a batch of all, and at the cursor that
 * its place is. */
static void are_placed(int line, const uint8_t *section, size_t len, const struct function *f,
                       size_t count)
{
    uint32_t addresses[16], answers[6 * 16];

    for (size_t i = 0; i < count; i++) {
        addresses[2 * i] = f[i].start;
        addresses[2 * i + 1] = f[i].end - 1;
    }
    same(line, "answered",
         brasspurse_lookup_batch(section, len, addresses, 2 * count, answers, 12 * count),
         2 * count);
    for (size_t i = 0; i < 2 * count; i++) {
        const struct function g = f[i / 2];
        struct brasspurse_lookup_answer l = brasspurse_lookup(section, len, addresses[i]);

        is_lookup(line, l, g, l.probes, BRASSPURSE_LOOKUP_FUNCTION, 0);
        is_lookup(line, brasspurse_batch_answer(answers, i), g, l.probes,
                  BRASSPURSE_LOOKUP_FUNCTION, 0);
        is_next(line, brasspurse_next(section, len, l.page, l.index), g, g.page, g.index + 1u,
                BRASSPURSE_NEXT_FUNCTION, 0);
    }
}

#define ARE_PLACED(...) are_placed(__LINE__, __VA_ARGS__)

/* Where a page's local opcodes lie outside, a lookup that needs none of them finds a function, and
 * at its cursor it is refused. */
static void places(void)
{
    ARE_PLACED(S, 80, s_functions, 2);
    ARE_PLACED(T, sizeof T, t_functions, 8);
    IS_FOUND(brasspurse_lookup(S, 79, 0x103f), s_functions[0], 4);
    IS_NEXT_REFUSED(brasspurse_next(S, 79, 0, 0), 1, 0, BRASSPURSE_REFUSED_LOCAL_OPCODES);
}

/* A page's number has more than 16 bits, an index more than 8: 70,000 compressed pages that share
 * their bytes, each of one function with the global opcode; then a regular page of 65,535. */
static void many_places(void)
{
    enum { PAGES = 70000, FUNCTIONS = 65535, FIRST = 16 * PAGES };
    enum { SHARED = 32 + 12 * (PAGES + 2), LAST = SHARED + 16, END = LAST + 8 + 8 * FUNCTIONS };
    const uint32_t header[8] = {1, 28, 1, 32, 0, 32, PAGES + 2, 0x01010001};
    const struct function functions[4] = {
        {16 * 258, 16 * 259, 0x01010001, 258, 0, GLOBAL},
        {16 * 69999, 16 * 70000, 0x01010001, 69999, 0, GLOBAL},
        {FIRST + 4 * 258, FIRST + 4 * 259, 0x02000102, 70000, 258, REGULAR},
        {FIRST + 4 * 65534, FIRST + 4 * 65535, 0x0200fffe, 70000, 65534, REGULAR},
    };
    static uint8_t section[END];

    for (uint32_t i = 0; i < 8; i++)
        put(section, 4 * i, header[i]);
    for (uint32_t page = 0; page <= PAGES + 1; page++) {
        put(section, 32 + 12 * page, page <= PAGES ? 16 * page : FIRST + 4 * FUNCTIONS);
        put(section, 36 + 12 * page, page < PAGES ? SHARED : LAST);
    }
    put(section, SHARED, 3);
    put(section, SHARED + 4, 0x0001000c);
    put(section, SHARED + 8, 16);
    put(section, LAST, 2);
    put(section, LAST + 4, 0xffff0008);
    for (uint32_t i = 0; i < FUNCTIONS; i++) {
        put(section, LAST + 8 + 8 * i, FIRST + 4 * i);
        put(section, LAST + 12 + 8 * i, 0x02000000 + i);
    }
    IS(brasspurse_is_well_formed(section, END), true);
    ARE_PLACED(section, END, functions, 4);
}

/* Registers that differ from each other and from all in a window. */
static struct brasspurse_registers_x86_64 x86_64(uint64_t rsp, uint64_t rbp)
{
    struct brasspurse_registers_x86_64 r = {0xd1, rsp, {0xd2, 0xd3, 0xd4, 0xd5, 0xd6, rbp}};
    return r;
}

static struct brasspurse_registers_arm64 arm64(uint64_t sp, uint64_t x29)
{
    struct brasspurse_registers_arm64 r = {0xd1, sp, {0}};

    for (uint64_t i = 0; i < 20; i++)
        r.saved[i] = 0xe0 + i;
    r.saved[BRASSPURSE_X29] = x29;
    return r;
}

static void is_x86_64(int line, struct brasspurse_registers_x86_64 r,
                      struct brasspurse_registers_x86_64 expected)
{
    same(line, "rip", r.rip, expected.rip);
    same(line, "rsp", r.rsp, expected.rsp);
    for (int i = 0; i < 6; i++)
        same(line, "saved", r.saved[i], expected.saved[i]);
}

static void is_arm64(int line, struct brasspurse_registers_arm64 r,
                     struct brasspurse_registers_arm64 expected)
{
    same(line, "pc", r.pc, expected.pc);
    same(line, "sp", r.sp, expected.sp);
    for (int i = 0; i < 20; i++)
        same(line, "saved", r.saved[i], expected.saved[i]);
}

/* The frames of FIELDS, PUSHES, PAIRS and of 0x04000101, lowest slot first. V(i) belongs to saved
 * register i, and V(30) is the return address, which on arm64 is x30's, V(11). */
static const uint8_t fields_frame[64] = {
    U64(V(2)), U64(V(0)), U64(V(4)), U64(V(1)), U64(V(3)), U64(V(40)), U64(V(5)), U64(V(30)),
};
static const uint8_t pushes_frame[56] = {
    U64(V(2)), U64(V(0)), U64(V(5)), U64(V(3)), U64(V(4)), U64(V(1)), U64(V(30)),
};
static const uint8_t pairs_frame[160] = {
    U64(V(19)), U64(V(18)), U64(V(17)), U64(V(16)), U64(V(15)), U64(V(14)), U64(V(13)), U64(V(12)),
    U64(V(9)),  U64(V(8)),  U64(V(7)),  U64(V(6)),  U64(V(5)),  U64(V(4)),  U64(V(3)),  U64(V(2)),
    U64(V(1)),  U64(V(0)),  U64(V(10)), U64(V(11)),
};
static const uint8_t d8_d9_frame[48] = {
    U64(V(13)), U64(V(12)), U64(V(1)), U64(V(0)), U64(V(10)), U64(V(11)),
};

/* What the first three give back. */
static struct brasspurse_registers_x86_64 x86_64_caller(uint64_t cfa)
{
    struct brasspurse_registers_x86_64 r = {V(30), cfa, {V(0), V(1), V(2), V(3), V(4), V(5)}};
    return r;
}

static struct brasspurse_registers_arm64 arm64_caller(uint64_t cfa)
{
    struct brasspurse_registers_arm64 r = {V(11), cfa, {0}};

    for (uint64_t i = 0; i < 20; i++)
        r.saved[i] = V(i);
    return r;
}

static void rule_x86_64(int line, uint32_t word, uint32_t refusal, uint32_t value,
                        uint64_t distance, uint32_t reg, const uint16_t below[6])
{
    struct brasspurse_rule_x86_64_answer r = brasspurse_rule_x86_64(word);

    same(line, "refusal", r.refusal, refusal);
    same(line, "value", r.value, value);
    same(line, "cfa_distance", r.cfa_distance, distance);
    same(line, "cfa_register", r.cfa_register, reg);
    for (int i = 0; i < 6; i++)
        same(line, "below", r.below[i], below[i]);
}

static void rule_arm64(int line, uint32_t word, uint32_t refusal, uint32_t value,
                       uint64_t distance, uint32_t reg, const uint16_t below[20])
{
    struct brasspurse_rule_arm64_answer r = brasspurse_rule_arm64(word);

    same(line, "refusal", r.refusal, refusal);
    same(line, "value", r.value, value);
    same(line, "cfa_distance", r.cfa_distance, distance);
    same(line, "cfa_register", r.cfa_register, reg);
    for (int i = 0; i < 20; i++)
        same(line, "below", r.below[i], below[i]);
}

#define RULE_X86_64(...) rule_x86_64(__LINE__, __VA_ARGS__)
#define RULE_ARM64(...) rule_arm64(__LINE__, __VA_ARGS__)

static void rules(void)
{
    const uint16_t fields[6] = {
        [BRASSPURSE_R13] = 64, [BRASSPURSE_RBX] = 56, [BRASSPURSE_R15] = 48,
        [BRASSPURSE_R12] = 40, [BRASSPURSE_R14] = 32, [BRASSPURSE_RBP] = 16,
    };
    const uint16_t pushes[6] = {
        [BRASSPURSE_R13] = 56, [BRASSPURSE_RBX] = 48, [BRASSPURSE_RBP] = 40,
        [BRASSPURSE_R14] = 32, [BRASSPURSE_R15] = 24, [BRASSPURSE_R12] = 16,
    };
    const uint16_t pairs[20] = {
        [BRASSPURSE_X30] = 8,   [BRASSPURSE_X29] = 16,  [BRASSPURSE_X19] = 24,
        [BRASSPURSE_X20] = 32,  [BRASSPURSE_X21] = 40,  [BRASSPURSE_X22] = 48,
        [BRASSPURSE_X23] = 56,  [BRASSPURSE_X24] = 64,  [BRASSPURSE_X25] = 72,
        [BRASSPURSE_X26] = 80,  [BRASSPURSE_X27] = 88,  [BRASSPURSE_X28] = 96,
        [BRASSPURSE_D8] = 104,  [BRASSPURSE_D9] = 112,  [BRASSPURSE_D10] = 120,
        [BRASSPURSE_D11] = 128, [BRASSPURSE_D12] = 136, [BRASSPURSE_D13] = 144,
        [BRASSPURSE_D14] = 152, [BRASSPURSE_D15] = 160,
    };
    const uint16_t d8_d9[20] = {
        [BRASSPURSE_X30] = 8,  [BRASSPURSE_X29] = 16, [BRASSPURSE_X19] = 24,
        [BRASSPURSE_X20] = 32, [BRASSPURSE_D8] = 40,  [BRASSPURSE_D9] = 48,
    };
    const uint16_t d10_to_d15[20] = {
        [BRASSPURSE_X30] = 8,  [BRASSPURSE_X29] = 16, [BRASSPURSE_X19] = 24, [BRASSPURSE_X20] = 32,
        [BRASSPURSE_D10] = 40, [BRASSPURSE_D11] = 48, [BRASSPURSE_D12] = 56, [BRASSPURSE_D13] = 64,
        [BRASSPURSE_D14] = 72, [BRASSPURSE_D15] = 80,
    };
    const uint16_t no_pair[20] = {[BRASSPURSE_X30] = 8, [BRASSPURSE_X29] = 16};
    const uint16_t rbp[6] = {[BRASSPURSE_RBP] = 16};
    const uint16_t rbx[6] = {[BRASSPURSE_RBX] = 16};
    const uint16_t r15[6] = {[BRASSPURSE_R15] = 24, [BRASSPURSE_RBP] = 16};
    const uint16_t nothing[20] = {0};

    RULE_X86_64(FIELDS, 0, 0, 16, BRASSPURSE_CFA_FRAME_POINTER, fields);
    RULE_X86_64(PUSHES, 0, 0, 80, BRASSPURSE_CFA_STACK_POINTER, pushes);
    RULE_X86_64(0x00abcdef, BRASSPURSE_REFUSED_NULL, 0, 0, 0, nothing);
    RULE_X86_64(0x04abcdef, BRASSPURSE_REFUSED_DWARF, 0xabcdef, 0, 0, nothing);
    RULE_X86_64(0x09abcdef, BRASSPURSE_REFUSED_UNRECOGNIZED_KIND, 9, 0, 0, nothing);
    RULE_X86_64(0x02001ad0, BRASSPURSE_REFUSED_INVALID_FRAMELESS, 0, 0, 0, nothing);
    RULE_X86_64(0x01000001, BRASSPURSE_REFUSED_NOT_SOUND, 0, 0, 0, nothing);
    /* Absent fields are no reason, an unknown one is, and so is rbp. */
    RULE_X86_64(0x01000000, 0, 0, 16, BRASSPURSE_CFA_FRAME_POINTER, rbp);
    RULE_X86_64(0x01050000 | 5 << 12, 0, 0, 16, BRASSPURSE_CFA_FRAME_POINTER, r15);
    RULE_X86_64(0x01000007, BRASSPURSE_REFUSED_NOT_SOUND, 0, 0, 0, nothing);
    RULE_X86_64(0x01050000 | 7 << 12, BRASSPURSE_REFUSED_NOT_SOUND, 0, 0, 0, nothing);
    RULE_X86_64(0x01050000 | 6 << 12, BRASSPURSE_REFUSED_NOT_SOUND, 0, 0, 0, nothing);
    RULE_X86_64(0x41ff7fff, BRASSPURSE_REFUSED_NOT_SOUND, 0, 0, 0, nothing);
    RULE_X86_64(0x02010000, 0, 0, 8, BRASSPURSE_CFA_STACK_POINTER, nothing);
    RULE_X86_64(0x02020400, 0, 0, 16, BRASSPURSE_CFA_STACK_POINTER, rbx);
    RULE_X86_64(INDIRECT, BRASSPURSE_REFUSED_FRAMELESS_INDIRECT, 0, 0, 0, nothing);

    RULE_ARM64(PAIRS, 0, 0, 16, BRASSPURSE_CFA_FRAME_POINTER, pairs);
    RULE_ARM64(0x02abc000, 0, 0, 43968, BRASSPURSE_CFA_STACK_POINTER, nothing);
    RULE_ARM64(0x00abcdef, BRASSPURSE_REFUSED_NULL, 0, 0, 0, nothing);
    RULE_ARM64(0x03abcdef, BRASSPURSE_REFUSED_DWARF, 0xabcdef, 0, 0, nothing);
    RULE_ARM64(0x07abcdef, BRASSPURSE_REFUSED_UNRECOGNIZED_KIND, 7, 0, 0, nothing);

    /* As compilers mark x19/x20 with d8/d9, then with d10 to d15. */
    RULE_ARM64(0x04000101, 0, 0, 16, BRASSPURSE_CFA_FRAME_POINTER, d8_d9);
    RULE_ARM64(0x04000e01, 0, 0, 16, BRASSPURSE_CFA_FRAME_POINTER, d10_to_d15);
    for (int i = 0; i < 9; i++) {
        uint16_t alone[20] = {[BRASSPURSE_X30] = 8, [BRASSPURSE_X29] = 16};

        alone[pairs_alone[i].first] = 24;
        alone[pairs_alone[i].first + 1] = 32;
        RULE_ARM64(pairs_alone[i].word, 0, 0, 16, BRASSPURSE_CFA_FRAME_POINTER, alone);
    }
    for (int i = 0; i < 6; i++)
        RULE_ARM64(without_pairs[i], 0, 0, 16, BRASSPURSE_CFA_FRAME_POINTER, no_pair);
    /* A frameless word with all pairs: none is read, as the top of the header says. */
    RULE_ARM64(0x02004f1f, 0, 0, 64, BRASSPURSE_CFA_STACK_POINTER, nothing);
}

/* All frame-based words of arm64: a pair that is marked has two slots, the frame's own registers
 * have theirs, and nothing else has. */
static void all_pairs(void)
{
    for (uint32_t n = 0; n < 4096; n++) {
        struct brasspurse_rule_arm64_answer r = brasspurse_rule_arm64(0x04000000 | n);
        bool has_slot[20] = {[BRASSPURSE_X29] = true, [BRASSPURSE_X30] = true};

        for (int i = 0; i < 9; i++) {
            has_slot[pairs_alone[i].first] = (n & pairs_alone[i].bit) != 0;
            has_slot[pairs_alone[i].first + 1] = (n & pairs_alone[i].bit) != 0;
        }
        for (int i = 0; i < 20; i++)
            IS(r.below[i] != 0, has_slot[i]);
    }
}

#define IS_STEP_X86_64(answer, number, says, after)                                                \
    do {                                                                                           \
        struct brasspurse_step_x86_64_answer s = answer;                                           \
        IS(s.refusal, number);                                                                     \
        IS(s.value, says);                                                                         \
        is_x86_64(__LINE__, s.registers, after);                                                   \
    } while (0)

#define IS_STEP_ARM64(answer, number, says, after)                                                 \
    do {                                                                                           \
        struct brasspurse_step_arm64_answer s = answer;                                            \
        IS(s.refusal, number);                                                                     \
        IS(s.value, says);                                                                         \
        is_arm64(__LINE__, s.registers, after);                                                    \
    } while (0)

static void steps(void)
{
    const struct brasspurse_registers_x86_64 x = x86_64(0x7000, 0x7030);
    const struct brasspurse_registers_x86_64 up = x86_64(0x7000, UINT64_MAX - 15);
    const struct brasspurse_registers_arm64 a = arm64(0x8000, 0x8090);
    struct brasspurse_registers_arm64 leaf = a, based = a;

    IS_STEP_X86_64(brasspurse_step_x86_64(FIELDS, x, 0x7000, fields_frame, 64), 0, 0,
                   x86_64_caller(0x7040));
    /* The list lies at the top of the 80 bytes. */
    IS_STEP_X86_64(brasspurse_step_x86_64(PUSHES, x, 0x7018, pushes_frame, 56), 0, 0,
                   x86_64_caller(0x7050));
    IS_STEP_X86_64(brasspurse_step_x86_64(0, x, 0x7000, fields_frame, 64),
                   BRASSPURSE_REFUSED_NULL, 0, x);
    IS_STEP_X86_64(brasspurse_step_x86_64(0x04abcdef, x, 0x7000, fields_frame, 64),
                   BRASSPURSE_REFUSED_DWARF, 0xabcdef, x);
    IS_STEP_X86_64(brasspurse_step_x86_64(0x09abcdef, x, 0x7000, fields_frame, 64),
                   BRASSPURSE_REFUSED_UNRECOGNIZED_KIND, 9, x);
    /* An unknown field, and one that names rbp. */
    IS_STEP_X86_64(brasspurse_step_x86_64(0x01060007, x, 0x7000, fields_frame, 64),
                   BRASSPURSE_REFUSED_NOT_SOUND, 0, x);
    IS_STEP_X86_64(brasspurse_step_x86_64(0x01060006, x, 0x7000, fields_frame, 64),
                   BRASSPURSE_REFUSED_NOT_SOUND, 0, x);
    IS_STEP_X86_64(brasspurse_step_x86_64(FIELDS, x, UINT64_MAX, fields_frame, 1),
                   BRASSPURSE_REFUSED_ABOVE_ADDRESSES, 0, x);
    IS_STEP_X86_64(brasspurse_step_x86_64(FIELDS, up, 0x7000, fields_frame, 64),
                   BRASSPURSE_REFUSED_ABOVE_ADDRESSES, 0, up);
    IS_STEP_X86_64(brasspurse_step_x86_64(FIELDS, x, 0x7000, fields_frame, 63),
                   BRASSPURSE_REFUSED_OUTSIDE_WINDOW, 0, x);
    IS_STEP_X86_64(brasspurse_step_x86_64(FIELDS, x, UINT64_MAX, fields_frame, 0),
                   BRASSPURSE_REFUSED_OUTSIDE_WINDOW, 0, x);

    IS_STEP_ARM64(brasspurse_step_arm64(PAIRS, a, 0x8000, pairs_frame, 160), 0, 0,
                  arm64_caller(0x80a0));
    /* x29 and x30 alone; a pair below them; x19, x20, d8 and d9 below them. The window is no larger
     * than that. */
    based.pc = V(11);
    based.sp = 0x80a0;
    based.saved[BRASSPURSE_X29] = V(10);
    based.saved[BRASSPURSE_X30] = V(11);
    for (int i = 0; i < 6; i++)
        IS_STEP_ARM64(brasspurse_step_arm64(without_pairs[i], a, 0x8090, d8_d9_frame + 32, 16), 0,
                      0, based);
    for (int i = 0; i < 9; i++) {
        struct brasspurse_registers_arm64 alone = based;

        alone.saved[pairs_alone[i].first] = V(0);
        alone.saved[pairs_alone[i].first + 1] = V(1);
        IS_STEP_ARM64(brasspurse_step_arm64(pairs_alone[i].word, a, 0x8080, d8_d9_frame + 16, 32),
                      0, 0, alone);
    }
    based.saved[BRASSPURSE_X19] = V(0);
    based.saved[BRASSPURSE_X20] = V(1);
    based.saved[BRASSPURSE_D8] = V(12);
    based.saved[BRASSPURSE_D9] = V(13);
    IS_STEP_ARM64(brasspurse_step_arm64(0x04000101, a, 0x8070, d8_d9_frame, 48), 0, 0, based);
    IS_STEP_ARM64(brasspurse_step_arm64(0x04000101, a, 0x8071, d8_d9_frame + 1, 47),
                  BRASSPURSE_REFUSED_OUTSIDE_WINDOW, 0, a);
    leaf.pc = a.saved[BRASSPURSE_X30];
    leaf.sp = 0x8000 + 43968;
    IS_STEP_ARM64(brasspurse_step_arm64(0x02abc000, a, 0x8000, pairs_frame, 0), 0, 0, leaf);
    IS_STEP_ARM64(brasspurse_step_arm64(0x03abcdef, a, 0x8000, pairs_frame, 160),
                  BRASSPURSE_REFUSED_DWARF, 0xabcdef, a);
    IS_STEP_ARM64(brasspurse_step_arm64(0x07abcdef, a, 0x8000, pairs_frame, 160),
                  BRASSPURSE_REFUSED_UNRECOGNIZED_KIND, 7, a);
    IS_STEP_ARM64(brasspurse_step_arm64(PAIRS, a, UINT64_MAX, pairs_frame, 1),
                  BRASSPURSE_REFUSED_ABOVE_ADDRESSES, 0, a);
    IS_STEP_ARM64(brasspurse_step_arm64(PAIRS, a, 0x8001, pairs_frame, 160),
                  BRASSPURSE_REFUSED_OUTSIDE_WINDOW, 0, a);
}

#define IS_UNWIND_X86_64(answer, number, says, looked, after)                                      \
    do {                                                                                           \
        struct brasspurse_unwind_x86_64_answer u = answer;                                         \
        IS(u.refusal, number);                                                                     \
        IS(u.value, says);                                                                         \
        IS(u.probes, looked);                                                                      \
        is_x86_64(__LINE__, u.registers, after);                                                   \
    } while (0)

#define IS_UNWIND_ARM64(answer, number, says, looked, after)                                       \
    do {                                                                                           \
        struct brasspurse_unwind_arm64_answer u = answer;                                          \
        IS(u.refusal, number);                                                                     \
        IS(u.value, says);                                                                         \
        IS(u.probes, looked);                                                                      \
        is_arm64(__LINE__, u.registers, after);                                                    \
    } while (0)

static void unwinding(void)
{
    /* P12 (docs/FORMAT.md, 13.1): rbx, rbp and the return address from 0x7000 on. */
    const uint8_t window[24] = {U64(V(0)), U64(V(5)), U64(V(30))};
    const struct brasspurse_registers_x86_64 x = x86_64(0x6ff0, 0x7008);
    const struct brasspurse_registers_x86_64 y = x86_64(0x7000, 0x7030);
    const struct brasspurse_registers_arm64 a = arm64(0x7ff0, 0x8090);
    struct brasspurse_registers_x86_64 after = x;
    uint8_t wrong[sizeof T], unknown[sizeof S], arm[sizeof S];

    after.rip = V(30);
    after.rsp = 0x7018;
    after.saved[BRASSPURSE_RBX] = V(0);
    after.saved[BRASSPURSE_RBP] = V(5);
    IS_UNWIND_X86_64(brasspurse_unwind_x86_64(S, 80, 0x1010, x, 0x7000, window, 24), 0, 0, 4,
                     after);
    IS_UNWIND_X86_64(brasspurse_unwind_x86_64(T, sizeof T, 0x2800, y, 0x7000, fields_frame, 64), 0,
                     0, 4, x86_64_caller(0x7040));
    IS_UNWIND_X86_64(brasspurse_unwind_x86_64(S, 80, 0x1010, x, 0x7000, window, 23),
                     BRASSPURSE_REFUSED_OUTSIDE_WINDOW, 0, 4, x);
    IS_UNWIND_X86_64(brasspurse_unwind_x86_64(S, 80, 0x1010, x, UINT64_MAX, window, 24),
                     BRASSPURSE_REFUSED_ABOVE_ADDRESSES, 0, 4, x);
    IS_UNWIND_X86_64(brasspurse_unwind_x86_64(S, 80, 0x1100, x, 0x7000, window, 24),
                     BRASSPURSE_REFUSED_NULL, 0, 1, x); /* no function */
    IS_UNWIND_X86_64(brasspurse_unwind_x86_64(T, sizeof T, 0x3100, x, 0x7000, window, 24),
                     BRASSPURSE_REFUSED_NULL, 0, 4, x); /* a null word */
    IS_UNWIND_X86_64(brasspurse_unwind_x86_64(T, sizeof T, 0x2000, x, 0x7000, window, 24),
                     BRASSPURSE_REFUSED_DWARF, 0xabcdef, 4, x);
    IS_UNWIND_X86_64(brasspurse_unwind_x86_64(T, sizeof T, 0x3700, x, 0x7000, window, 24),
                     BRASSPURSE_REFUSED_UNRECOGNIZED_KIND, 5, 4, x);
    memcpy(unknown, S, sizeof S);
    put(unknown, 28, 0x01010007);
    IS_UNWIND_X86_64(brasspurse_unwind_x86_64(unknown, 80, 0x1010, x, 0x7000, window, 24),
                     BRASSPURSE_REFUSED_NOT_SOUND, 0, 4, x);
    wrong_index(wrong);
    IS_UNWIND_X86_64(brasspurse_unwind_x86_64(wrong, sizeof T, 0x2700, x, 0x7000, window, 24),
                     BRASSPURSE_REFUSED_LOCAL_INDEX, 0, 4, x);
    IS_UNWIND_X86_64(brasspurse_unwind_x86_64(S, 79, 0x1040, x, 0x7000, window, 24),
                     BRASSPURSE_REFUSED_LOCAL_OPCODES, 0, 3, x);

    memcpy(arm, S, sizeof S);
    put(arm, 28, PAIRS);
    put(arm, 76, 0x03123456);
    IS_UNWIND_ARM64(brasspurse_unwind_arm64(arm, 80, 0x1010, a, 0x8000, pairs_frame, 160), 0, 0, 4,
                    arm64_caller(0x80a0));
    IS_UNWIND_ARM64(brasspurse_unwind_arm64(arm, 80, 0x1010, a, 0x8001, pairs_frame, 160),
                    BRASSPURSE_REFUSED_OUTSIDE_WINDOW, 0, 4, a);
    IS_UNWIND_ARM64(brasspurse_unwind_arm64(arm, 80, 0x1050, a, 0x8000, pairs_frame, 160),
                    BRASSPURSE_REFUSED_DWARF, 0x123456, 3, a);
    IS_UNWIND_ARM64(brasspurse_unwind_arm64(arm, 80, 0x1100, a, 0x8000, pairs_frame, 160),
                    BRASSPURSE_REFUSED_NULL, 0, 1, a);
    IS_UNWIND_ARM64(brasspurse_unwind_arm64(arm, 79, 0x1050, a, 0x8000, pairs_frame, 160),
                    BRASSPURSE_REFUSED_LOCAL_OPCODES, 0, 3, a);
}

/* With length 0 any pointer does, NULL among them: every buffer of every call, with the same
 * answers for both. `b` and `n` are such pointers. */

static const struct brasspurse_lists no_lists = {0, 0, 0, 0}, one_opcode = {0, 1, 0, 0};
static const struct brasspurse_lists one_page = {0, 0, 0, 1};

static void no_bytes(const uint8_t *b)
{
    const struct brasspurse_lists past = {1, 0, 0, 0};

    IS(brasspurse_read_u16(b, 0, 0).granted, 0);
    IS(brasspurse_read_u32(b, 0, 0).granted, 0);
    IS(brasspurse_read_u64(b, 0, 0).granted, 0);
    IS(brasspurse_is_granted(b, 0, 0, 0), true);
    IS(brasspurse_is_granted(b, 0, 0, 1), false);
    IS(brasspurse_is_granted(b, 0, 1, 0), false);

    IS(brasspurse_parse(b, 0).refusal, BRASSPURSE_REFUSED_HEADER);
    IS(brasspurse_is_well_formed(b, 0), false);
    IS(brasspurse_address_range(b, 0).refusal, BRASSPURSE_REFUSED_HEADER);
    IS(brasspurse_address_range_in(b, 0, no_lists).refusal, 0);
    IS(brasspurse_address_range_in(b, 0, no_lists).end, 0);
    IS(brasspurse_address_range_in(b, 0, one_opcode).refusal, BRASSPURSE_REFUSED_GLOBAL_OPCODES);
    IS(brasspurse_address_range_in(b, 0, past).refusal, BRASSPURSE_REFUSED_GLOBAL_OPCODES);
    IS(brasspurse_address_range_in(b, 0, one_page).refusal, BRASSPURSE_REFUSED_PAGES);
}

static void no_bytes_looked_up(const uint8_t *b, uint32_t *n)
{
    const uint32_t addresses[2] = {0x1000, 0x1040};
    uint32_t out[26];

    IS_REFUSED(brasspurse_lookup(b, 0, 0x1000), 0, BRASSPURSE_REFUSED_HEADER);
    IS_NONE(brasspurse_lookup_in(b, 0, no_lists, 0x1000), 0);
    IS_REFUSED(brasspurse_lookup_in(b, 0, one_page, 0x1000), 0, BRASSPURSE_REFUSED_PAGES);
    memset(out, 0xee, sizeof out);
    IS(brasspurse_lookup_batch(b, 0, addresses, 2, out, 26), 2);
    for (size_t k = 0; k < 2; k++)
        IS_REFUSED(brasspurse_batch_answer(out, k), 0, BRASSPURSE_REFUSED_HEADER);
    IS(out[12], 0xeeeeeeee);
    memset(out, 0xee, sizeof out);
    IS(brasspurse_lookup_batch(S, 80, n, 0, out, 26), 0);
    IS(brasspurse_lookup_batch(S, 80, addresses, 2, n, 0), 0);
    IS(brasspurse_lookup_batch(b, 0, n, 0, n, 0), 0);
    IS_LISTED(out, 0, 0);
}

static void no_bytes_iterated(const uint8_t *b, uint32_t *n)
{
    uint32_t out[26];

    IS_NEXT_REFUSED(brasspurse_next(b, 0, 5, 7), 5, 7, BRASSPURSE_REFUSED_HEADER);
    IS_END(brasspurse_next_in(b, 0, no_lists, 5, 7), 0);
    IS_NEXT_REFUSED(brasspurse_next_in(b, 0, one_opcode, 5, 7), 5, 7,
                    BRASSPURSE_REFUSED_GLOBAL_OPCODES);
    memset(out, 0xee, sizeof out);
    IS_FILL(brasspurse_fill(b, 0, 5, 7, out, 26), 0, 5, 7, BRASSPURSE_FILL_REFUSED,
            BRASSPURSE_REFUSED_HEADER);
    IS_FILL(brasspurse_fill(b, 0, 5, 7, n, 0), 0, 5, 7, BRASSPURSE_FILL_REFUSED,
            BRASSPURSE_REFUSED_HEADER);
    IS_FILL(brasspurse_fill(S, 55, 5, 7, n, 0), 0, 5, 7, BRASSPURSE_FILL_REFUSED,
            BRASSPURSE_REFUSED_PAGES);
    IS_FILL(brasspurse_fill(S, 80, 0, 1, n, 0), 0, 0, 1, BRASSPURSE_FILL_FULL, 0);
    IS_FILL(brasspurse_fill_in(b, 0, no_lists, 5, 7, out, 26), 0, 0, 0, BRASSPURSE_FILL_END, 0);
    IS_FILL(brasspurse_fill_in(b, 0, no_lists, 5, 7, n, 0), 0, 5, 7, BRASSPURSE_FILL_FULL, 0);
    IS_FILL(brasspurse_fill_in(b, 0, one_page, 5, 7, n, 0), 0, 5, 7, BRASSPURSE_FILL_REFUSED,
            BRASSPURSE_REFUSED_PAGES);
    IS_FILL(brasspurse_fill_in(T, sizeof T, t_lists, 1, 1, n, 0), 0, 1, 1, BRASSPURSE_FILL_FULL,
            0);
    IS_LISTED(out, 0, 0);
}

static void no_window(const uint8_t *b)
{
    const struct brasspurse_registers_x86_64 x = x86_64(0x7000, 0x7030);
    const struct brasspurse_registers_arm64 a = arm64(0x8000, 0x8090);
    struct brasspurse_registers_arm64 leaf = a;
    uint8_t arm[sizeof S];

    memcpy(arm, S, sizeof S);
    put(arm, 28, 0x02004000);
    leaf.pc = a.saved[BRASSPURSE_X30];
    leaf.sp = 0x8040;

    IS_STEP_X86_64(brasspurse_step_x86_64(FIELDS, x, 0x7000, b, 0),
                   BRASSPURSE_REFUSED_OUTSIDE_WINDOW, 0, x);
    IS_STEP_X86_64(brasspurse_step_x86_64(PUSHES, x, UINT64_MAX, b, 0),
                   BRASSPURSE_REFUSED_OUTSIDE_WINDOW, 0, x);
    IS_STEP_ARM64(brasspurse_step_arm64(PAIRS, a, 0x8000, b, 0),
                  BRASSPURSE_REFUSED_OUTSIDE_WINDOW, 0, a);
    IS_STEP_ARM64(brasspurse_step_arm64(0x02004000, a, 0x8000, b, 0), 0, 0, leaf);

    IS_UNWIND_X86_64(brasspurse_unwind_x86_64(b, 0, 0x1010, x, 0x7000, fields_frame, 64),
                     BRASSPURSE_REFUSED_HEADER, 0, 0, x);
    IS_UNWIND_X86_64(brasspurse_unwind_x86_64(S, 80, 0x1010, x, 0x7000, b, 0),
                     BRASSPURSE_REFUSED_OUTSIDE_WINDOW, 0, 4, x);
    IS_UNWIND_X86_64(brasspurse_unwind_x86_64(b, 0, 0x1010, x, 0, b, 0),
                     BRASSPURSE_REFUSED_HEADER, 0, 0, x);
    IS_UNWIND_ARM64(brasspurse_unwind_arm64(b, 0, 0x1010, a, 0x8000, pairs_frame, 160),
                    BRASSPURSE_REFUSED_HEADER, 0, 0, a);
    IS_UNWIND_ARM64(brasspurse_unwind_arm64(arm, 80, 0x1010, a, 0x8000, b, 0), 0, 0, 4, leaf);
    IS_UNWIND_ARM64(brasspurse_unwind_arm64(b, 0, 0x1010, a, 0, b, 0), BRASSPURSE_REFUSED_HEADER,
                    0, 0, a);
}

static void nothing_lent(void)
{
    const uint8_t byte[1] = {1};
    const uint8_t *const bytes[2] = {byte, NULL};
    uint32_t number[1] = {0xeeeeeeee};
    uint32_t *const numbers[2] = {number, NULL};

    for (int i = 0; i < 2; i++) {
        no_bytes(bytes[i]);
        no_bytes_looked_up(bytes[i], numbers[i]);
        no_bytes_iterated(bytes[i], numbers[i]);
        no_window(bytes[i]);
    }
    IS(number[0], 0xeeeeeeee);
}

/* Every call that reads the header says 15, and nothing else. */
static void is_of_another_version(const uint8_t *section, size_t len)
{
    const uint8_t n = BRASSPURSE_REFUSED_WRONG_VERSION;
    const uint32_t addresses[5] = {0x1040, 0x1000, 0x0fff, 0x1100, 0x1040};
    const struct brasspurse_registers_x86_64 x = x86_64(0x7000, 0x7030);
    const struct brasspurse_registers_arm64 a = arm64(0x8000, 0x8090);
    uint32_t answers[32], out[26];

    IS(brasspurse_parse(section, len).refusal, n);
    IS(brasspurse_parse(section, len).pages_len, 0);
    IS(brasspurse_address_range(section, len).refusal, n);
    IS(brasspurse_is_well_formed(section, len), false);
    IS_REFUSED(brasspurse_lookup(section, len, 0x1040), 0, n);
    memset(answers, 0xee, sizeof answers);
    IS(brasspurse_lookup_batch(section, len, addresses, 5, answers, 32), 5);
    for (size_t k = 0; k < 5; k++)
        IS_REFUSED(brasspurse_batch_answer(answers, k), 0, n);
    IS(answers[30], 0xeeeeeeee);
    IS_NEXT_REFUSED(brasspurse_next(section, len, 5, 7), 5, 7, n);
    memset(out, 0xee, sizeof out);
    for (size_t room = 0; room < 26; room += 5)
        IS_FILL(brasspurse_fill(section, len, 5, 7, out, room), 0, 5, 7, BRASSPURSE_FILL_REFUSED,
                n);
    IS_LISTED(out, 0, 0);
    IS_UNWIND_X86_64(brasspurse_unwind_x86_64(section, len, 0x1010, x, 0x7000, fields_frame, 64),
                     n, 0, 0, x);
    IS_UNWIND_ARM64(brasspurse_unwind_arm64(section, len, 0x1010, a, 0x8000, pairs_frame, 160), n,
                    0, 0, a);
}

/* S with another version: whole, without its page entries, and its header alone; then 1. The calls
 * that do not read the header answer as of S. */
static void versions(void)
{
    const uint32_t others[] = {0, 2, 256, 0x01000000, UINT32_MAX};
    const struct brasspurse_lists lists = {28, 1, 32, 2};
    uint8_t section[sizeof S];
    uint32_t out[26];

    memcpy(section, S, sizeof S);
    for (size_t i = 0; i < sizeof others / sizeof others[0]; i++) {
        put(section, 0, others[i]);
        is_of_another_version(section, 80);
        is_of_another_version(section, 32);
        is_of_another_version(section, 28);
        IS(brasspurse_parse(section, 27).refusal, BRASSPURSE_REFUSED_HEADER);

        IS(brasspurse_address_range_in(section, 80, lists).end, 0x1100);
        IS_FOUND(brasspurse_lookup_in(section, 80, lists, 0x1040), s_functions[1], 3);
        IS_NEXT(brasspurse_next_in(section, 80, lists, 0, 1), s_functions[1], 0, 2);
        IS_FILL(brasspurse_fill_in(section, 80, lists, 0, 0, out, 26), 2, 1, 0,
                BRASSPURSE_FILL_END, 0);
    }
}

/* Each other refusal of a section, from S: cut to `len` bytes, and with the number at `at` changed
 * (at 0 is the version, and stays 1). */
static const struct {
    uint8_t refusal;
    size_t len;
    size_t at;
    uint32_t number;
    uint8_t probes;
} refused_sections[12] = {
    {BRASSPURSE_REFUSED_HEADER, 27, 0, 1, 0},
    {BRASSPURSE_REFUSED_GLOBAL_OPCODES, 31, 0, 1, 0},
    {BRASSPURSE_REFUSED_PAGES, 55, 0, 1, 0},
    {BRASSPURSE_REFUSED_PAGE_KIND, 59, 0, 1, 2},
    {BRASSPURSE_REFUSED_UNEXPECTED_SENTINEL_PAGE, 80, 56, 1, 2},
    {BRASSPURSE_REFUSED_INVALID_PAGE_KIND, 80, 56, 4, 2},
    {BRASSPURSE_REFUSED_REGULAR_PAGE, 63, 56, 2, 2},
    {BRASSPURSE_REFUSED_REGULAR_PAGE_FUNCTIONS, 80, 56, 2, 2},
    {BRASSPURSE_REFUSED_COMPRESSED_PAGE, 67, 0, 1, 2},
    {BRASSPURSE_REFUSED_COMPRESSED_PAGE_FUNCTIONS, 75, 0, 1, 2},
    {BRASSPURSE_REFUSED_LOCAL_OPCODES, 79, 0, 1, 3},
    {BRASSPURSE_REFUSED_LOCAL_INDEX, 80, 72, 0x02000040, 3},
};

static void section_refusals(void)
{
    uint8_t section[sizeof S];
    uint32_t out[6];

    for (size_t i = 0; i < 12; i++) {
        const uint8_t n = refused_sections[i].refusal;
        const size_t len = refused_sections[i].len;
        /* The cursor stays, goes past the page, or past the function. */
        const uint32_t page = n >= 4 && n <= 11, index = n <= 3 ? 1 : n <= 11 ? 0 : 2;

        memcpy(section, S, sizeof S);
        put(section, refused_sections[i].at, refused_sections[i].number);
        IS_REFUSED(brasspurse_lookup(section, len, 0x1040), refused_sections[i].probes, n);
        IS_NEXT_REFUSED(brasspurse_next(section, len, 0, 1), page, index, n);
        IS_FILL(brasspurse_fill(section, len, 0, 1, out, 6), 0, page, index,
                BRASSPURSE_FILL_REFUSED, n);
        IS(brasspurse_is_well_formed(section, len), false);
    }

    memcpy(section, S, sizeof S);
    put(section, 68, 0x00000010); /* the first function starts after its page */
    IS_REFUSED(brasspurse_lookup(section, 80, 0x1000), 4,
               BRASSPURSE_REFUSED_INVALID_PAGE_ENTRY_FIRST_ADDRESS);

    memcpy(section, S, sizeof S);
    put(section, 32, 0xfffffff0); /* the second function starts at 0x100000030 */
    put(section, 44, 0xffffffff);
    IS_REFUSED(brasspurse_lookup(section, 80, 0xfffffff5), 4, BRASSPURSE_REFUSED_ADDRESS_TOO_LARGE);
    IS_NEXT_REFUSED(brasspurse_next(section, 80, 0, 1), 0, 2, BRASSPURSE_REFUSED_ADDRESS_TOO_LARGE);
}

int main(void)
{
    texts();
    reads();
    permutations();
    words();
    registers();
    all_fields();
    all_frameless();
    other_kinds();
    lists();
    lookups();
    batches();
    iteration();
    blocks();
    no_room();
    places();
    many_places();
    rules();
    all_pairs();
    steps();
    unwinding();
    nothing_lent();
    versions();
    section_refusals();
    printf("%u checks, %u failed\n", checks, failed);
    return failed != 0;
}
