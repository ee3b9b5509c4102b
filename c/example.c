/* A first lookup and a first unwinding from C.
 *
 *   example [FILE]
 *
 * FILE has the bytes of an `__unwind_info` section; without it, it is sections/s.bin. */
#include "brasspurse.h"

#include <inttypes.h>
#include <stdio.h>
#include <stdlib.h>

static void print_refusal(uint32_t refusal)
{
    printf("refused %" PRIu32 ": %s\n", refusal, brasspurse_refusal_text(refusal));
}

/* The bytes of a file, which the caller frees, or NULL. */
static uint8_t *read_file(const char *name, size_t *len)
{
    FILE *file = fopen(name, "rb");
    uint8_t *bytes = NULL;
    long size = -1;

    if (file == NULL)
        return NULL;
    if (fseek(file, 0, SEEK_END) == 0)
        size = ftell(file);
    rewind(file);
    if (size >= 0)
        bytes = malloc((size_t)size + 1); /* of 0 bytes it may be NULL, which here is a failure */
    if (bytes != NULL) {
        *len = fread(bytes, 1, (size_t)size, file);
        if (*len != (size_t)size) {
            free(bytes);
            bytes = NULL;
        }
    }
    fclose(file);
    return bytes;
}

static const char *origin_text(uint8_t origin)
{
    switch (origin) {
    case BRASSPURSE_ORIGIN_REGULAR_ENTRY:
        return "its own entry";
    case BRASSPURSE_ORIGIN_GLOBAL_OPCODES:
        return "the global opcodes";
    case BRASSPURSE_ORIGIN_LOCAL_OPCODES:
        return "the page's local opcodes";
    default:
        return "nowhere";
    }
}

static void look_up(const uint8_t *section, size_t len, uint32_t address)
{
    struct brasspurse_lookup_answer found = brasspurse_lookup(section, len, address);

    printf("%08" PRIx32 ": ", address);
    switch (found.outcome) {
    case BRASSPURSE_LOOKUP_FUNCTION:
        printf("in %08" PRIx32 " to %08" PRIx32 ", opcode %08" PRIx32 "\n", found.start, found.end,
               found.opcode);
        printf("          page %" PRIu32 ", index %u, opcode from %s\n", found.page,
               (unsigned)found.index, origin_text(found.origin));
        break;
    case BRASSPURSE_LOOKUP_NONE:
        printf("in no function\n");
        break;
    default:
        print_refusal(found.refusal);
    }
}

/* The section parses, so 1 to 3 and 15 do not come, and every block brings the cursor on. */
static void list_functions(const uint8_t *section, size_t len)
{
    uint32_t block[3 * 256];
    struct brasspurse_fill_answer filled = {0};

    do {
        filled = brasspurse_fill(section, len, filled.page, filled.index, block,
                                 sizeof block / sizeof block[0]);
        for (size_t i = 0; i < filled.functions; i++)
            printf("%08" PRIx32 " %08" PRIx32 " %08" PRIx32 "\n", block[3 * i], block[3 * i + 1],
                   block[3 * i + 2]);
        if (filled.outcome == BRASSPURSE_FILL_REFUSED)
            print_refusal(filled.refusal);
    } while (filled.outcome != BRASSPURSE_FILL_END);
}

static void unwind(const uint8_t *section, size_t len, uint32_t address,
                   struct brasspurse_registers_x86_64 registers, uint64_t base,
                   const uint8_t *window, size_t window_len)
{
    struct brasspurse_unwind_x86_64_answer caller =
        brasspurse_unwind_x86_64(section, len, address, registers, base, window, window_len);

    printf("caller: ");
    if (caller.refusal != BRASSPURSE_NOT_REFUSED) {
        print_refusal(caller.refusal);
        return;
    }
    printf("rip %" PRIx64 ", rsp %" PRIx64 ", rbx %" PRIx64 ", rbp %" PRIx64 "\n",
           caller.registers.rip, caller.registers.rsp, caller.registers.saved[BRASSPURSE_RBX],
           caller.registers.saved[BRASSPURSE_RBP]);
}

int main(int argc, char **argv)
{
    const char *name = argc > 1 ? argv[1] : "sections/s.bin";
    size_t len;
    uint8_t *section = read_file(name, &len);

    if (section == NULL) {
        fprintf(stderr, "%s can't be read\n", name);
        return EXIT_FAILURE;
    }

    struct brasspurse_parse_answer lists = brasspurse_parse(section, len);
    if (lists.refusal != BRASSPURSE_NOT_REFUSED) {
        print_refusal(lists.refusal);
        free(section);
        return EXIT_FAILURE;
    }
    printf("%zu bytes, global opcodes: %" PRIu32 ", pages: %" PRIu32 "\n", len,
           lists.global_opcodes_len, lists.pages_len);

    /* Stopped in the first function of sections/s.bin, which has saved rbx and rbp. */
    const uint32_t address = 0x1010;
    const struct brasspurse_registers_x86_64 registers = {
        .rip = 0x100001010,
        .rsp = 0x7000,
        .saved = {[BRASSPURSE_RBX] = 0x5, [BRASSPURSE_RBP] = 0x7008},
    };
    /* Its stack, from address 0x7000 on: the caller's rbx and rbp, and the return address. */
    const uint8_t window[24] = {
        0x2a, 0, 0, 0, 0, 0, 0, 0, 0x40, 0x70, 0, 0, 0, 0, 0, 0, 0x67, 0x10, 0, 0, 1, 0, 0, 0,
    };

    look_up(section, len, address);
    list_functions(section, len);
    unwind(section, len, address, registers, 0x7000, window, sizeof window);
    /* Without its last byte the return address is not wholly there. */
    unwind(section, len, address, registers, 0x7000, window, sizeof window - 1);

    free(section);
    return EXIT_SUCCESS;
}
