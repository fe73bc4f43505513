/*
 * A small use of Yasmurekh from C: tables on chip and interrupt files in main memory, a
 * window each; a translation under both stages, a message, its take, a take of many at
 * once, refusals and faults, files over tables; a fan that signals by wire; and the same
 * fan at a controller without message files.
 */
#include <inttypes.h>
#include <stdio.h>
#include <string.h>

#include "yasmurekh.h"

/* The tables: twelve pages on chip, one of them with files. */
#define CHIP UINT64_C(0x10000000)
#define SECOND_ROOT (CHIP + 0x0000) /* four pages, on 16 KiB */
#define SECOND_1 (CHIP + 0x4000)
#define SECOND_0 (CHIP + 0x5000)
#define FIRST_ROOT (CHIP + 0x6000)
#define FIRST_1 (CHIP + 0x7000)
#define FIRST_0 (CHIP + 0x8000)
#define DIRECTORY (CHIP + 0x9000)
#define CHIP_FILES (CHIP + 0xA000)
#define MESSAGES (CHIP + 0xB000)

/* The interrupt files: a page of main memory, eight files. */
#define MAIN UINT64_C(0x40000000)
#define FILE_1 (MAIN + 0x200)

/* What the guest sees: its memory, and the pages of its virtual interrupt files. */
#define GUEST_MEMORY UINT64_C(0x80000000)
#define GUEST_FILES UINT64_C(0x28004000)

/* Physical memory outside the windows: a buffer of the device, and where notices go. */
#define BUFFER UINT64_C(0x90005000)
#define NOTICES UINT64_C(0x48000000)

#define DEVICE 1u

static uint8_t tables[12 * 4096];
static uint8_t files[4096];

static const struct yasmurekh_memory memory = {
    {CHIP, tables, sizeof tables},
    {MAIN, files, sizeof files},
};
static const struct yasmurekh_directory directory = {YASMUREKH_MODE_1LVL, DIRECTORY >> 12};

/* Puts a doubleword at a physical address of the tables, little-endian. */
static void put(uint64_t address, uint64_t value)
{
    unsigned i;
    for (i = 0; i < 8; i++)
        tables[address - CHIP + i] = (uint8_t)(value >> (8 * i));
}

/* A page-table entry, and a directory's: page number in bits 53:10, flags below. */
static uint64_t entry(uint64_t page, uint64_t flags)
{
    return (page >> 12) << 10 | flags;
}

#define TABLE UINT64_C(0x01) /* V */
#define USER UINT64_C(0xDF)  /* V R W X U A D */

/* A root with its mode, as iohgatp, fsc and msiptp have it. */
static uint64_t root(uint64_t mode, uint64_t page)
{
    return mode << 60 | page >> 12;
}

/* Second stage: guest page n of the guest's memory is this physical page. */
static void map_guest(unsigned n, uint64_t page)
{
    put(SECOND_0 + 8 * n, entry(page, USER));
}

/* Message entry 2, mode MRIF: the file at a physical address. */
static void store_in(uint64_t file)
{
    put(MESSAGES + 16 * 2, file >> 9 << 7 | 3);
}

static void lay_out(void)
{
    uint64_t context = DIRECTORY + 64 * DEVICE;

    /* The device context: tc, iohgatp, ta, fsc, msiptp, mask, pattern, reserved. */
    put(context, 1);
    put(context + 8, root(8, SECOND_ROOT));   /* Sv39x4 */
    put(context + 24, root(8, GUEST_MEMORY)); /* Sv39, its root at a guest address */
    put(context + 32, root(1, MESSAGES));     /* flat message table */
    put(context + 40, 3);                     /* mask: four files */
    put(context + 48, GUEST_FILES >> 12);     /* pattern */

    /* Second stage: 2 GiB is entry 2 of the root. */
    put(SECOND_ROOT + 8 * 2, entry(SECOND_1, TABLE));
    put(SECOND_1, entry(SECOND_0, TABLE));
    map_guest(0, FIRST_ROOT);
    map_guest(1, FIRST_1);
    map_guest(2, FIRST_0);
    map_guest(5, BUFFER);

    /* First stage, whose entries name guest pages. */
    put(FIRST_ROOT, entry(GUEST_MEMORY + 0x1000, TABLE));
    put(FIRST_1, entry(GUEST_MEMORY + 0x2000, TABLE));
    put(FIRST_0 + 8 * 1, entry(GUEST_MEMORY + 0x5000, USER)); /* the buffer */
    put(FIRST_0 + 8 * 2, entry(GUEST_FILES + 0x2000, USER));  /* file number 2 */
    put(FIRST_0 + 8 * 4, entry(GUEST_MEMORY + 0x6000, USER)); /* not in the second stage */

    /* Message entry 2: the file, then notice 1029 (bit 10 at bit 60). */
    store_in(FILE_1);
    put(MESSAGES + 16 * 2 + 8, UINT64_C(1) << 60 | entry(NOTICES, 5));
}

static const char *stage_name(uint64_t stage)
{
    switch (stage) {
    case YASMUREKH_STAGE_DIRECTORY: return "device directory";
    case YASMUREKH_STAGE_PROCESS_DIRECTORY: return "process directory";
    case YASMUREKH_STAGE_FIRST: return "first stage";
    case YASMUREKH_STAGE_SECOND: return "second stage";
    default: return "message table";
    }
}

/* Prints an answer in words. */
static void show(const char *what, struct yasmurekh_answer answer)
{
    printf("%s: ", what);
    switch (answer.kind) {
    case YASMUREKH_TRANSLATED:
        printf("translated to 0x%" PRIx64 "\n", answer.first);
        break;
    case YASMUREKH_REDIRECTED:
        printf("message redirected to 0x%" PRIx64 "\n", answer.first);
        break;
    case YASMUREKH_STORED:
        printf("message stored in the file at 0x%" PRIx64
               "; write notice %" PRIu64 " to 0x%" PRIx64 "\n",
               answer.first, answer.third, answer.second);
        break;
    case YASMUREKH_DISCARDED:
        printf("message discarded\n");
        break;
    case YASMUREKH_FAULT:
        printf("fault, cause %" PRIu64 ", found by the %s\n", answer.first,
               stage_name(answer.stage));
        break;
    case YASMUREKH_REFUSED:
        printf("refused, %" PRIu64 "\n", answer.first);
        break;
    default:
        printf("take made, the interrupt was %s\n", answer.first ? "pending" : "not pending");
        break;
    }
}

/* A request over the two windows, without a process_id. */
static void request(const char *what, uint64_t device, uint64_t access, uint64_t address,
                    uint64_t length, uint32_t value)
{
    struct yasmurekh_device_request asked = {device, 0, 0, access, address, length, value};

    show(what, yasmurekh_memory_request(&memory, &directory, &asked));
}

static void take(const char *what, uint64_t file, uint64_t identity)
{
    show(what, yasmurekh_memory_take(&memory, file, identity));
}

/* Prints what is pending in a file. */
static void report(const char *what, uint64_t file)
{
    struct yasmurekh_file_report report = yasmurekh_memory_report(&memory, file);
    unsigned n;

    printf("%s: refusal %" PRIu64 ", pending %" PRIu64, what, report.refusal, report.count);
    for (n = 0; n < YASMUREKH_IDENTITIES; n++)
        if (report.pairs[n / 64].pending >> n % 64 & 1)
            printf(", identity %u", n);
    printf("\n");
}

/* Takes what a mask names of a doubleword, and prints which of these bits were pending. */
static void take_many(const char *what, uint64_t doubleword, uint64_t mask)
{
    struct yasmurekh_answer answer = yasmurekh_memory_take_many(&memory, FILE_1, doubleword, mask);

    if (answer.kind == YASMUREKH_TAKEN)
        printf("%s: take made, bits 0x%" PRIx64 "\n", what, answer.first);
    else
        show(what, answer);
}

/* Four messages, taken by one call for each doubleword. */
static void many(void)
{
    request("write of 1 to file 2", DEVICE, YASMUREKH_WRITE, 0x2000, 4, 1);
    request("write of 37 to file 2", DEVICE, YASMUREKH_WRITE, 0x2000, 4, 37);
    request("write of 63 to file 2", DEVICE, YASMUREKH_WRITE, 0x2000, 4, 63);
    request("write of 64 to file 2", DEVICE, YASMUREKH_WRITE, 0x2000, 4, 64);
    report("report of the file", FILE_1);
    take_many("take of many, 0 to 62", 0, UINT64_MAX >> 1);
    report("report of the file", FILE_1);
    take_many("take of many, 0 to 63", 0, UINT64_MAX);
    take_many("take of many, 64 to 127", 1, UINT64_MAX);
    take_many("take of many, 64 to 127 again", 1, UINT64_MAX);
    report("report of the file", FILE_1);
    take_many("take of many, 2048 to 2111", YASMUREKH_FILE_PAIRS, UINT64_MAX);
}

/* A file in a page with the message's own tables, and one in the page between them. */
static void over_tables(void)
{
    store_in(DIRECTORY + 0x200);
    request("write of 39, file in the context's page", DEVICE, YASMUREKH_WRITE, 0x2000, 4, 39);
    request("write of 2048, file in the context's page", DEVICE, YASMUREKH_WRITE, 0x2000, 4, 2048);
    store_in(MESSAGES + 0x200);
    request("write of 39, file in the entry's page", DEVICE, YASMUREKH_WRITE, 0x2000, 4, 39);
    store_in(CHIP_FILES + 0x200);
    request("write of 39, file in the page between", DEVICE, YASMUREKH_WRITE, 0x2000, 4, 39);
    take("take of 39 from there", CHIP_FILES + 0x200, 39);
    store_in(FILE_1);
}

/* A write of 38 to file 2, a read of the buffer and a take, over other windows. */
static void over(const char *what, struct yasmurekh_window first, struct yasmurekh_window second)
{
    struct yasmurekh_memory other = {first, second};
    struct yasmurekh_device_request message = {DEVICE, 0, 0, YASMUREKH_WRITE, 0x2000, 4, 38};
    struct yasmurekh_device_request read = {DEVICE, 0, 0, YASMUREKH_READ, 0x1234, 8, 0};

    printf("%s:\n", what);
    show("  write of 38", yasmurekh_memory_request(&other, &directory, &message));
    show("  read of the buffer", yasmurekh_memory_request(&other, &directory, &read));
    show("  take of 38", yasmurekh_memory_take(&other, FILE_1, 38));
}

/* Other windows than these two, and these two in the other order. */
static void windows(void)
{
    const struct yasmurekh_window none = {0, NULL, 0};
    const struct yasmurekh_window inside = {CHIP + 0x1000, NULL, 0};
    const struct yasmurekh_window on_tables = {CHIP + 0xB000, files, sizeof files};
    const struct yasmurekh_window beside_tables = {CHIP + 0xC000, files, sizeof files};
    const struct yasmurekh_window odd = {MAIN + 0x200, files, sizeof files};

    over("the windows in the other order", memory.second, memory.first);
    over("tables alone", memory.first, none);
    over("files alone", none, memory.second);
    over("an empty window inside the tables", inside, memory.first);
    over("a window on the tables' last page", memory.first, on_tables);
    over("a window right after the tables", memory.first, beside_tables);
    over("a window that starts in a page", memory.first, odd);
}

/* The raw functions, where a buffer is too short, and with empty windows. */
static void raw(void)
{
    uint64_t out[YASMUREKH_ANSWER_WORDS] = {9, 9, 9, 9, 9};
    uint64_t status;

    status = yasmurekh_request(CHIP, tables, sizeof tables, MAIN, files, sizeof files,
                               YASMUREKH_MODE_1LVL, DIRECTORY >> 12, DEVICE, 0, 0, YASMUREKH_READ,
                               0x1234, 8, 0, out, YASMUREKH_ANSWER_WORDS);
    printf("raw read of the buffer: status %" PRIu64 ", kind %" PRIu64 ", 0x%" PRIx64 "\n", status,
           out[YASMUREKH_OUT_KIND], out[YASMUREKH_OUT_FIRST]);
    out[0] = 9;
    status = yasmurekh_request(CHIP, tables, sizeof tables, MAIN, files, sizeof files,
                               YASMUREKH_MODE_BARE, 0, DEVICE, 0, 0, YASMUREKH_READ, 0x1234, 8, 0,
                               out, 4);
    printf("buffer of 4 words: status %" PRIu64 ", first word still %" PRIu64 "\n", status, out[0]);
    status = yasmurekh_take(CHIP, tables, sizeof tables, MAIN, files, sizeof files, FILE_1, 37,
                            NULL, 0);
    printf("no buffer: status %" PRIu64 "\n", status);
    yasmurekh_request(0, NULL, 0, 0, NULL, 0, YASMUREKH_MODE_1LVL, DIRECTORY >> 12, DEVICE, 0, 0,
                      YASMUREKH_READ, 0x1234, 8, 0, out, YASMUREKH_ANSWER_WORDS);
    show("two empty windows", yasmurekh_answer_of(YASMUREKH_OK, out));
}

/* The wired domain, at reset: a fan holds the wire of source 7 high while it is stuck. */
#define FAN 7u
static uint64_t domain[YASMUREKH_APLIC_WORDS];

/* A reset of the domain, with message delivery or with direct delivery. */
static void reset(uint64_t delivery)
{
    memset(domain, 0, sizeof domain);
    domain[YASMUREKH_APLIC_DELIVERY] = delivery;
}

static uint64_t read_register(uint64_t offset)
{
    uint64_t out[YASMUREKH_APLIC_READ_WORDS];

    yasmurekh_aplic_read(domain, YASMUREKH_APLIC_WORDS, offset, out, YASMUREKH_APLIC_READ_WORDS);
    return out[0];
}

static void write_register(uint64_t offset, uint32_t value)
{
    yasmurekh_aplic_write(domain, YASMUREKH_APLIC_WORDS, offset, value);
}

/* Gives the fan's wire a level, or another wire. */
static void wire(const char *what, uint64_t source, uint64_t level)
{
    uint64_t status = yasmurekh_aplic_wire(domain, YASMUREKH_APLIC_WORDS, source, level);

    printf("%s: status %" PRIu64 ", pending 0x%" PRIx64 ", input 0x%" PRIx64 "\n", what, status,
           read_register(YASMUREKH_APLIC_SETIP(0)), read_register(YASMUREKH_APLIC_IN_CLRIP(0)));
}

/* Forwards one interrupt, and says where its message goes. */
static void forward(const char *what)
{
    uint64_t out[YASMUREKH_APLIC_FORWARD_WORDS];

    yasmurekh_aplic_forward(domain, YASMUREKH_APLIC_WORDS, out, YASMUREKH_APLIC_FORWARD_WORDS);
    if (!out[YASMUREKH_APLIC_FORWARD_MADE])
        printf("%s: nothing\n", what);
    else
        printf("%s: identity %" PRIu64 " to hart %" PRIu64 ", guest file %" PRIu64 "\n", what,
               out[YASMUREKH_APLIC_FORWARD_IDENTITY], out[YASMUREKH_APLIC_FORWARD_HART],
               out[YASMUREKH_APLIC_FORWARD_GUEST]);
}

static void fan(void)
{
    const uint32_t hart = 2u << YASMUREKH_APLIC_TARGET_HART_SHIFT;
    const uint32_t guest = 1u << YASMUREKH_APLIC_TARGET_GUEST_SHIFT;

    reset(YASMUREKH_APLIC_MESSAGE);
    write_register(YASMUREKH_APLIC_DOMAINCFG, YASMUREKH_APLIC_DOMAINCFG_IE);
    write_register(YASMUREKH_APLIC_SOURCECFG(FAN), YASMUREKH_APLIC_LEVEL1);
    write_register(YASMUREKH_APLIC_TARGET(FAN), hart | guest | 37u);
    write_register(YASMUREKH_APLIC_SETIENUM, FAN);
    printf("domaincfg: 0x%" PRIx64 "\n", read_register(YASMUREKH_APLIC_DOMAINCFG));
    wire("wire of the fan high", FAN, 1);
    forward("forward");
    forward("forward again");
    write_register(YASMUREKH_APLIC_SETIPNUM, FAN);
    forward("forward after setipnum, the wire still high");
    wire("wire of the fan low", FAN, 0);
    write_register(YASMUREKH_APLIC_SETIPNUM, FAN);
    forward("forward after setipnum, the wire low");
    wire("wire 64 high", 64, 1);
}

/* Without message files: hart 2 is signalled, and claims. A button gives a pulse on source 9. */
#define BUTTON 9u
#define HART 2u

/* Makes a source active and enabled, with a priority at the hart. */
static void set_up(uint32_t source, uint32_t mode, uint32_t priority)
{
    write_register(YASMUREKH_APLIC_SOURCECFG(source), mode);
    write_register(YASMUREKH_APLIC_TARGET(source),
                   HART << YASMUREKH_APLIC_TARGET_HART_SHIFT | priority);
    write_register(YASMUREKH_APLIC_SETIENUM, source);
}

/* Whether a hart is signalled. */
static void signal_of(const char *what, uint64_t hart)
{
    uint64_t out[YASMUREKH_APLIC_SIGNAL_WORDS] = {9};
    uint64_t status = yasmurekh_aplic_signal(domain, YASMUREKH_APLIC_WORDS, hart, out,
                                             YASMUREKH_APLIC_SIGNAL_WORDS);

    if (status != YASMUREKH_OK)
        printf("%s: status %" PRIu64 "\n", what, status);
    else
        printf("%s: %s\n", what, out[0] ? "signalled" : "not signalled");
}

/* The trap handler: claims until identity 0, which says that nothing is left, or never was. */
static void trap(const char *what)
{
    uint64_t out[YASMUREKH_APLIC_CLAIM_WORDS];
    uint64_t source;

    printf("%s:", what);
    for (;;) {
        yasmurekh_aplic_claim(domain, YASMUREKH_APLIC_WORDS, HART, out,
                              YASMUREKH_APLIC_CLAIM_WORDS);
        source = YASMUREKH_APLIC_TOPI_IDENTITY(out[0]);
        if (source == 0)
            break;
        printf(" source %" PRIu64 " with priority %" PRIu64 ",", source,
               YASMUREKH_APLIC_TOPI_PRIORITY(out[0]));
        /* A level stays pending until its handler has quieted the device. */
        if (source == FAN)
            yasmurekh_aplic_wire(domain, YASMUREKH_APLIC_WORDS, FAN, 0);
    }
    printf(" nothing left\n");
}

static void without_message_files(void)
{
    reset(YASMUREKH_APLIC_DIRECT);
    write_register(YASMUREKH_APLIC_DOMAINCFG, YASMUREKH_APLIC_DOMAINCFG_IE);
    set_up(FAN, YASMUREKH_APLIC_LEVEL1, 3);
    set_up(BUTTON, YASMUREKH_APLIC_EDGE1, 5);
    printf("domaincfg, direct delivery: 0x%" PRIx64 "\n", read_register(YASMUREKH_APLIC_DOMAINCFG));
    wire("pulse of the button, high", BUTTON, 1);
    wire("pulse of the button, low", BUTTON, 0);
    wire("wire of the fan high", FAN, 1);
    signal_of("hart 2 without delivery", HART);
    write_register(YASMUREKH_APLIC_IDELIVERY(HART), 1);
    signal_of("hart 2 with delivery", HART);
    write_register(YASMUREKH_APLIC_ITHRESHOLD(HART), 5);
    printf("topi: 0x%" PRIx64 "\n", read_register(YASMUREKH_APLIC_TOPI(HART)));
    trap("trap under threshold 5");
    signal_of("hart 2, the button still barred", HART);
    write_register(YASMUREKH_APLIC_ITHRESHOLD(HART), 0);
    signal_of("hart 2 under threshold 0", HART);
    trap("trap under threshold 0");
    signal_of("hart 2 after it", HART);
    write_register(YASMUREKH_APLIC_IFORCE(HART), 1);
    signal_of("hart 2, forced", HART);
    trap("trap");
    signal_of("hart 2 after it", HART);
    signal_of("hart 16", YASMUREKH_APLIC_HARTS);
}

int main(void)
{
    uint8_t tables_before[sizeof tables];
    uint8_t files_before[sizeof files];

    lay_out();
    memcpy(tables_before, tables, sizeof tables);
    request("read of the buffer", DEVICE, YASMUREKH_READ, 0x1234, 8, 0);
    request("write of 37 to file 2", DEVICE, YASMUREKH_WRITE, 0x2000, 4, 37);
    printf("byte 4 of the file: %d\n", files[FILE_1 + 4 - MAIN]);
    request("write of 2047 to file 2, big-endian", DEVICE, YASMUREKH_WRITE, 0x2004, 4, 0xFF070000);
    report("report of the file", FILE_1);
    take("take of 37", FILE_1, 37);
    take("take of 37 again", FILE_1, 37);
    report("report of the file", FILE_1);
    report("report of no file", FILE_1 + 1);
    many();

    memcpy(files_before, files, sizeof files);
    request("read across the page's end", DEVICE, YASMUREKH_READ, 0x1FFC, 8, 0);
    request("read of a page not mapped", DEVICE, YASMUREKH_READ, 0x3000, 8, 0);
    request("write to a guest page not mapped", DEVICE, YASMUREKH_WRITE, 0x4000, 8, 0);
    request("read-for-execute of file 2", DEVICE, YASMUREKH_READ_FOR_EXECUTE, 0x2000, 4, 0);
    request("read by device 2", 2, YASMUREKH_READ, 0x1234, 8, 0);
    request("an access numbered 3", DEVICE, 3, 0x1234, 8, 0);
    over_tables();
    windows();
    raw();
    printf("tables after all: %s\n", memcmp(tables_before, tables, sizeof tables) ? "changed" : "unchanged");
    printf("files after these: %s\n", memcmp(files_before, files, sizeof files) ? "changed" : "unchanged");
    fan();
    without_message_files();
    return 0;
}
