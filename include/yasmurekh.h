/*
 * Yasmurekh: a RISC-V IOMMU in software, with memory-resident interrupt files,
 * and a domain of an interrupt controller (APLIC) for devices that signal by wire.
 *
 * All tables and interrupt files lie in two windows of memory that the caller
 * lends, wherever it likes: tables on chip and files in main memory, say. A window
 * is lent bytes and the physical address of the first of them. Either may be empty,
 * both too: an empty window has no bytes, overlaps nothing wherever it starts, and
 * nothing is found in it; where both are, every table load faults. Two windows may
 * touch, in either order; where they have an address in common every call is
 * refused. Whoever has one window gives an empty second one, at 0.
 *
 * A wired domain is a state of 87 words that the caller lends. No routine keeps
 * state, allocates or blocks; calls on different windows or states may run at the
 * same time. Nothing outside the archive is called, no C library either.
 *
 * Every routine is total: it answers any numbers, any bytes in the windows and any
 * words in the state, and reads and writes nothing but the buffers that it is
 * lent. What the caller owes is what C cannot check:
 *   - `first` points to `first_len` bytes, `second` to `second_len` bytes, `state`
 *     to `state_len` words and `out` to `out_len` words that may be read and
 *     written (a report only reads the windows);
 *   - `state` and `out` are aligned for uint64_t; a window needs no alignment;
 *   - the buffers of a call do not overlap, `first`, `second` and `out` no more
 *     than `state` and `out`;
 *   - nothing else changes them during the call.
 * A pointer is never looked at where its length is 0 (and `state` and `out` never
 * where their own is too small), so NULL is fine there and nowhere else.
 *
 * This header goes with an archive of two windows. Older archives have one, and
 * functions of the same names with other parameters, which no linker tells apart.
 *
 * Page tables: Sv39, Sv48 and Sv57 for the first stage, modes 8, 9 and 10 of fsc;
 * Sv39x4, Sv48x4 and Sv57x4 for the second, the same modes of iohgatp, its root
 * on 16 KiB. The two stages may have any pair of them. Guest addresses have 59
 * bits, so the message mask and pattern have 47; their higher bits are reserved.
 */
#ifndef YASMUREKH_H
#define YASMUREKH_H

#include <stddef.h>
#include <stdint.h>

#ifdef __cplusplus
extern "C" {
#endif

/* Status of a call: 0 where it was made and `out` holds its answer. */
#define YASMUREKH_OK 0u
#define YASMUREKH_SHORT_BUFFER 1u /* `out` or `state` is too short; nothing changed */

/* Words of `out`. */
#define YASMUREKH_ANSWER_WORDS 5u  /* request, both takes: kind, three values, stage */
#define YASMUREKH_REPORT_WORDS 66u /* report: refusal, count, 32 pairs */

/* Places in the `out` of a request and of both takes. */
#define YASMUREKH_OUT_KIND 0u
#define YASMUREKH_OUT_FIRST 1u
#define YASMUREKH_OUT_SECOND 2u
#define YASMUREKH_OUT_THIRD 3u
#define YASMUREKH_OUT_STAGE 4u /* of a fault; 0 in any other answer */

/* Places in the `out` of a report; pair k has pending, then enable. */
#define YASMUREKH_REPORT_REFUSAL 0u
#define YASMUREKH_REPORT_COUNT 1u
#define YASMUREKH_REPORT_PENDING(k) (2u + 2u * (k))
#define YASMUREKH_REPORT_ENABLE(k) (3u + 2u * (k))

/* Answer kinds, with their three values; a value that isn't named is 0. */
#define YASMUREKH_TRANSLATED 0u /* address */
#define YASMUREKH_REDIRECTED 1u /* address of the message */
#define YASMUREKH_STORED 2u     /* file address, notice address, notice number */
#define YASMUREKH_DISCARDED 3u
#define YASMUREKH_FAULT 4u   /* cause; the stage in YASMUREKH_OUT_STAGE */
#define YASMUREKH_REFUSED 5u /* refusal */
#define YASMUREKH_TAKEN 6u   /* take: 1 if the interrupt was pending, else 0; take of many: the bits taken */

/* Refusals, in the order in which they are looked for; 2010 comes first. */
#define YASMUREKH_REFUSAL_WINDOW 2001u           /* a window's start or length not whole pages, or its end above 2^56 */
#define YASMUREKH_REFUSAL_OVERLAP 2011u          /* an address lies in both windows */
#define YASMUREKH_REFUSAL_DIRECTORY 2002u        /* mode above 4, or root page number of 2^44 or more */
#define YASMUREKH_REFUSAL_DEVICE 2003u           /* device_id of 2^24 or more */
#define YASMUREKH_REFUSAL_PROCESS 2004u          /* process_id of 2^20 or more */
#define YASMUREKH_REFUSAL_SUPERVISOR 2005u       /* supervisor without a process_id */
#define YASMUREKH_REFUSAL_LENGTH 2006u           /* length 0, or past the end of the page */
#define YASMUREKH_REFUSAL_FILE_OUTSIDE 2007u     /* request: a storable message, its file in neither window */
#define YASMUREKH_REFUSAL_FILE_OVER_TABLES 2012u /* request: its file in the page of its context or message entry */
#define YASMUREKH_REFUSAL_FILE 2008u             /* both takes, report: no file of either window */
#define YASMUREKH_REFUSAL_IDENTITY 2009u         /* take: identity above 2047 */
#define YASMUREKH_REFUSAL_DOUBLEWORD 2009u       /* take of many: doubleword number above 31 */
#define YASMUREKH_REFUSAL_NUMBER 2010u           /* request: unknown access or flag */
#define YASMUREKH_REFUSAL_SOURCE 2014u           /* wire: source outside 1 to 63; the status of the call */
#define YASMUREKH_REFUSAL_HART 2014u             /* claim, signal: hart above 15; the status of the call */

/* Fault causes, as the IOMMU specification numbers them. */
#define YASMUREKH_CAUSE_INSTRUCTION_ACCESS 1u
#define YASMUREKH_CAUSE_READ_ACCESS 5u
#define YASMUREKH_CAUSE_WRITE_ACCESS 7u
#define YASMUREKH_CAUSE_INSTRUCTION_PAGE 12u
#define YASMUREKH_CAUSE_READ_PAGE 13u
#define YASMUREKH_CAUSE_WRITE_PAGE 15u
#define YASMUREKH_CAUSE_INSTRUCTION_GUEST_PAGE 20u
#define YASMUREKH_CAUSE_READ_GUEST_PAGE 21u
#define YASMUREKH_CAUSE_WRITE_GUEST_PAGE 23u
#define YASMUREKH_CAUSE_ALL_DISALLOWED 256u         /* directory mode Off */
#define YASMUREKH_CAUSE_DDT_LOAD 257u               /* device directory: load access fault */
#define YASMUREKH_CAUSE_DDT_INVALID 258u            /* device directory: entry not valid */
#define YASMUREKH_CAUSE_DDT_MISCONFIGURED 259u      /* device directory: entry misconfigured */
#define YASMUREKH_CAUSE_TRANSACTION_DISALLOWED 260u /* transaction type disallowed */
#define YASMUREKH_CAUSE_MSI_LOAD 261u               /* message table: load access fault */
#define YASMUREKH_CAUSE_MSI_INVALID 262u            /* message table: entry not valid */
#define YASMUREKH_CAUSE_MSI_MISCONFIGURED 263u      /* message table: entry misconfigured */
#define YASMUREKH_CAUSE_PDT_LOAD 265u               /* process directory: load access fault */
#define YASMUREKH_CAUSE_PDT_INVALID 266u            /* process directory: entry not valid */
#define YASMUREKH_CAUSE_PDT_MISCONFIGURED 267u      /* process directory: entry misconfigured */

/* The stage that found a fault. */
#define YASMUREKH_STAGE_DIRECTORY 0u
#define YASMUREKH_STAGE_PROCESS_DIRECTORY 1u
#define YASMUREKH_STAGE_FIRST 2u
#define YASMUREKH_STAGE_SECOND 3u
#define YASMUREKH_STAGE_MESSAGE_TABLE 4u

/* Accesses. */
#define YASMUREKH_READ 0u
#define YASMUREKH_WRITE 1u
#define YASMUREKH_READ_FOR_EXECUTE 2u

/*
 * Flags, to be added up. A user uses first-stage pages with U = 1. A supervisor uses those with U = 0 and, where SUM is
 * 1 in its process context, reads and writes those with U = 1 too.
 */
#define YASMUREKH_PROCESS_GIVEN 1u /* the request has a process_id */
#define YASMUREKH_SUPERVISOR 2u    /* the request is a supervisor's */

/* Directory modes. */
#define YASMUREKH_MODE_OFF 0u
#define YASMUREKH_MODE_BARE 1u
#define YASMUREKH_MODE_1LVL 2u
#define YASMUREKH_MODE_2LVL 3u
#define YASMUREKH_MODE_3LVL 4u

/* An interrupt file: its size, its alignment and its identities 0 to 2047. */
#define YASMUREKH_FILE_BYTES 512u
#define YASMUREKH_IDENTITIES 2048u
#define YASMUREKH_FILE_PAIRS 32u

/*
 * Answers one request of a device.
 *
 * `first_start` is the physical address of the first window's first byte,
 * `second_start` that of the second's; which of the two holds what doesn't matter.
 * `mode` and `root` are the directory mode and the root page number of the device
 * directory. `process` counts only with YASMUREKH_PROCESS_GIVEN in `flags`. `value`
 * is the data of a 4-byte write, its four bytes read little-endian; no other access
 * uses it.
 *
 * A message that would be stored is refused where its file is in neither window (2007),
 * and where its file lies in the 4 KiB page that holds the device context or the message
 * entry of this request (2012). No other page counts: to keep files out of the pages of
 * other tables is the caller's part. What stores nothing is discarded before that.
 *
 * Lent: both windows and `out`. Changed: the first five words of `out`, and, where
 * the answer is YASMUREKH_STORED, the one byte of the one window that holds the
 * pending bit of the message's identity (a bit that was set stays set, and the
 * notice is given again). Never changed: either window under any other answer, any
 * other byte of them, and the words of `out` after the fifth. The device's memory
 * is not accessed and no notice is sent: the answer says where they go, and the
 * caller does it.
 *
 * Returns YASMUREKH_OK; or YASMUREKH_SHORT_BUFFER, with nothing changed, where
 * `out_len` is below YASMUREKH_ANSWER_WORDS.
 */
uint64_t yasmurekh_request(uint64_t first_start, uint8_t *first, size_t first_len,
                           uint64_t second_start, uint8_t *second, size_t second_len,
                           uint64_t mode, uint64_t root, uint64_t device,
                           uint64_t process, uint64_t flags, uint64_t access,
                           uint64_t address, uint64_t length, uint32_t value,
                           uint64_t *out, size_t out_len);

/*
 * Takes an interrupt of the file at physical address `file`, in whichever window it
 * lies: tells whether it was pending, and makes it pending no more.
 *
 * Lent: both windows and `out`. Changed: the first five words of `out`, and, where
 * the answer is YASMUREKH_TAKEN with 1, the one byte of the one window that holds
 * the pending bit of `identity`. Never changed: enable bits, any other byte of the
 * windows, either window under any other answer, and the words of `out` after the
 * fifth. Refusals: 2001, 2011, 2008, 2009.
 *
 * Returns as yasmurekh_request does.
 */
uint64_t yasmurekh_take(uint64_t first_start, uint8_t *first, size_t first_len,
                        uint64_t second_start, uint8_t *second, size_t second_len,
                        uint64_t file, uint64_t identity, uint64_t *out,
                        size_t out_len);

/*
 * The take of many: takes many interrupts of the file at physical address `file` at once.
 * `doubleword`, 0 to 31, names 64 of them: identity n is bit n mod 64 of doubleword
 * n div 64. The first value of the answer has the bits of `mask` whose interrupts were
 * pending, and those are pending no more: as a take of each of them does it. A mask
 * of 0 takes nothing.
 *
 * Lent: both windows and `out`. Changed: the first five words of `out`, and, where
 * the answer is YASMUREKH_TAKEN, each byte of the one window that holds an answered
 * bit, by these bits alone. Never changed: enable bits, pending bits that are not in
 * the mask, any other byte of the windows, either window under any other answer, and
 * the words of `out` after the fifth. Refusals: 2001, 2011, 2008, 2009.
 *
 * Returns as yasmurekh_request does.
 */
uint64_t yasmurekh_take_many(uint64_t first_start, uint8_t *first, size_t first_len,
                             uint64_t second_start, uint8_t *second, size_t second_len,
                             uint64_t file, uint64_t doubleword, uint64_t mask,
                             uint64_t *out, size_t out_len);

/*
 * Reports the file at physical address `file`, in whichever window it lies: refusal
 * (0 where there is none), the number of pending interrupts, identity 0 included,
 * then 32 pairs of doublewords, pending and enable; identity n is bit n mod 64 of
 * pair n div 64. A refusal, 2001, 2011 or 2008, has count 0 and zero pairs beside it.
 *
 * Lent: both windows, for reading alone, and `out`. Changed: the first 66 words of
 * `out`. Never changed: the windows, and the words of `out` after the 66th.
 *
 * Returns YASMUREKH_OK; or YASMUREKH_SHORT_BUFFER, with nothing changed, where
 * `out_len` is below YASMUREKH_REPORT_WORDS.
 */
uint64_t yasmurekh_report(uint64_t first_start, const uint8_t *first, size_t first_len,
                          uint64_t second_start, const uint8_t *second, size_t second_len,
                          uint64_t file, uint64_t *out, size_t out_len);

/*
 * The same four calls with a name for each number. They give the room for the answer
 * themselves, so that no call ends in YASMUREKH_SHORT_BUFFER; a status that isn't
 * YASMUREKH_OK, which the archive of this header never gives them, comes back as a
 * refusal by that status, and so do words that it left unwritten.
 */

/* A window: the physical address of its first byte, and its bytes; `{0, NULL, 0}` is an empty one. */
struct yasmurekh_window {
    uint64_t start;
    uint8_t *bytes;
    size_t length;
};

/* The two windows; which of them holds what doesn't matter. */
struct yasmurekh_memory {
    struct yasmurekh_window first;
    struct yasmurekh_window second;
};

/* The device directory: its mode, and the page number of its root. */
struct yasmurekh_directory {
    uint64_t mode;
    uint64_t root;
};

/* What a device asks; `process`, `flags` and `value` as for yasmurekh_request. */
struct yasmurekh_device_request {
    uint64_t device;
    uint64_t process;
    uint64_t flags;
    uint64_t access;
    uint64_t address;
    uint64_t length;
    uint32_t value;
};

/* The answer of a request and of both takes: its kind, three values, the stage of a fault. */
struct yasmurekh_answer {
    uint64_t kind;
    uint64_t first;
    uint64_t second;
    uint64_t third;
    uint64_t stage;
};

/* 64 identities of a file: a pending and an enable bit for each. */
struct yasmurekh_pair {
    uint64_t pending;
    uint64_t enable;
};

/* A file as it stands: identity n is bit n mod 64 of pair n div 64; all 0 beside a refusal. */
struct yasmurekh_file_report {
    uint64_t refusal;
    uint64_t count;
    struct yasmurekh_pair pairs[YASMUREKH_FILE_PAIRS];
};

/* The answer in the words of `out`; with a status that isn't YASMUREKH_OK a refusal by it. */
static inline struct yasmurekh_answer yasmurekh_answer_of(uint64_t status, const uint64_t *out)
{
    struct yasmurekh_answer answer = {YASMUREKH_REFUSED, status, 0, 0, 0};

    if (status == YASMUREKH_OK) {
        answer.kind = out[YASMUREKH_OUT_KIND];
        answer.first = out[YASMUREKH_OUT_FIRST];
        answer.second = out[YASMUREKH_OUT_SECOND];
        answer.third = out[YASMUREKH_OUT_THIRD];
        answer.stage = out[YASMUREKH_OUT_STAGE];
    }
    return answer;
}

/* As yasmurekh_request: answers one request of a device. */
static inline struct yasmurekh_answer
yasmurekh_memory_request(const struct yasmurekh_memory *memory,
                         const struct yasmurekh_directory *directory,
                         const struct yasmurekh_device_request *asked)
{
    uint64_t out[YASMUREKH_ANSWER_WORDS] = {YASMUREKH_REFUSED, YASMUREKH_SHORT_BUFFER, 0, 0, 0};
    uint64_t status = yasmurekh_request(
        memory->first.start, memory->first.bytes, memory->first.length,
        memory->second.start, memory->second.bytes, memory->second.length,
        directory->mode, directory->root, asked->device, asked->process, asked->flags,
        asked->access, asked->address, asked->length, asked->value,
        out, YASMUREKH_ANSWER_WORDS);

    return yasmurekh_answer_of(status, out);
}

/* As yasmurekh_take: takes an interrupt of the file at a physical address. */
static inline struct yasmurekh_answer
yasmurekh_memory_take(const struct yasmurekh_memory *memory, uint64_t file, uint64_t identity)
{
    uint64_t out[YASMUREKH_ANSWER_WORDS] = {YASMUREKH_REFUSED, YASMUREKH_SHORT_BUFFER, 0, 0, 0};
    uint64_t status = yasmurekh_take(
        memory->first.start, memory->first.bytes, memory->first.length,
        memory->second.start, memory->second.bytes, memory->second.length,
        file, identity, out, YASMUREKH_ANSWER_WORDS);

    return yasmurekh_answer_of(status, out);
}

/* As yasmurekh_take_many: takes the interrupts of a doubleword that are in a mask. */
static inline struct yasmurekh_answer
yasmurekh_memory_take_many(const struct yasmurekh_memory *memory, uint64_t file,
                           uint64_t doubleword, uint64_t mask)
{
    uint64_t out[YASMUREKH_ANSWER_WORDS] = {YASMUREKH_REFUSED, YASMUREKH_SHORT_BUFFER, 0, 0, 0};
    uint64_t status = yasmurekh_take_many(
        memory->first.start, memory->first.bytes, memory->first.length,
        memory->second.start, memory->second.bytes, memory->second.length,
        file, doubleword, mask, out, YASMUREKH_ANSWER_WORDS);

    return yasmurekh_answer_of(status, out);
}

/* As yasmurekh_report: reports the file at a physical address. */
static inline struct yasmurekh_file_report
yasmurekh_memory_report(const struct yasmurekh_memory *memory, uint64_t file)
{
    uint64_t out[YASMUREKH_REPORT_WORDS] = {YASMUREKH_SHORT_BUFFER};
    struct yasmurekh_file_report report = {0, 0, {{0, 0}}};
    unsigned k;

    report.refusal = yasmurekh_report(
        memory->first.start, memory->first.bytes, memory->first.length,
        memory->second.start, memory->second.bytes, memory->second.length,
        file, out, YASMUREKH_REPORT_WORDS);
    if (report.refusal != YASMUREKH_OK)
        return report;
    report.refusal = out[YASMUREKH_REPORT_REFUSAL];
    report.count = out[YASMUREKH_REPORT_COUNT];
    for (k = 0; k < YASMUREKH_FILE_PAIRS; k++) {
        report.pairs[k].pending = out[YASMUREKH_REPORT_PENDING(k)];
        report.pairs[k].enable = out[YASMUREKH_REPORT_ENABLE(k)];
    }
    return report;
}

/*
 * The wired domain: one supervisor leaf domain of an APLIC, little-endian, sources
 * 1 to 63, as the Advanced Interrupt Architecture has it. It delivers either by
 * messages, which yasmurekh_aplic_forward hands out, or directly to harts 0 to 15,
 * which are signalled and claim their interrupts.
 *
 * Its state is YASMUREKH_APLIC_WORDS words that the caller lends to each call. That
 * many zero words are a domain at reset with message delivery; the same but for
 * YASMUREKH_APLIC_DIRECT in word YASMUREKH_APLIC_DELIVERY one with direct delivery:
 *
 *   uint64_t state[YASMUREKH_APLIC_WORDS] = {[YASMUREKH_APLIC_DELIVERY] = YASMUREKH_APLIC_DIRECT};
 *
 * No call changes the delivery mode. Which other word holds what is the library's
 * own. Any words are answered, but only words that began in one of these two ways
 * and went through these calls stand for a domain that the architecture describes.
 * Words of `state` after those are never looked at.
 */
#define YASMUREKH_APLIC_WORDS 87u        /* words of a domain's state */
#define YASMUREKH_APLIC_DELIVERY 7u      /* place of the word with the delivery mode, its lowest bit */
#define YASMUREKH_APLIC_MESSAGE 0u       /* message delivery */
#define YASMUREKH_APLIC_DIRECT 1u        /* direct delivery */
#define YASMUREKH_APLIC_SOURCES 63u      /* sources 1 to 63 */
#define YASMUREKH_APLIC_HARTS 16u        /* harts 0 to 15, in direct delivery */
#define YASMUREKH_APLIC_READ_WORDS 1u    /* `out` of a read: the value */
#define YASMUREKH_APLIC_FORWARD_WORDS 4u /* `out` of a forward: 1 or 0, hart index, guest index, identity */
#define YASMUREKH_APLIC_CLAIM_WORDS 1u   /* `out` of a claim: the value of claimi */
#define YASMUREKH_APLIC_SIGNAL_WORDS 1u  /* `out` of a signal: 1 or 0 */

/* Places in the `out` of a forward. */
#define YASMUREKH_APLIC_FORWARD_MADE 0u /* 1; or 0 where nothing is forwarded, and the other words too */
#define YASMUREKH_APLIC_FORWARD_HART 1u
#define YASMUREKH_APLIC_FORWARD_GUEST 2u
#define YASMUREKH_APLIC_FORWARD_IDENTITY 3u

/*
 * Offsets of registers; n is a source, 1 to 63; k is 0 for sources 0 to 31, 1 for
 * sources 32 to 63; h is a hart, 0 to 15.
 */
#define YASMUREKH_APLIC_DOMAINCFG UINT64_C(0x0000)
#define YASMUREKH_APLIC_SOURCECFG(n) (UINT64_C(4) * (n))                   /* source mode */
#define YASMUREKH_APLIC_SETIP(k) (UINT64_C(0x1C00) + UINT64_C(4) * (k))    /* pending bits; ones set */
#define YASMUREKH_APLIC_SETIPNUM UINT64_C(0x1CDC)                          /* sets a pending bit by number */
#define YASMUREKH_APLIC_IN_CLRIP(k) (UINT64_C(0x1D00) + UINT64_C(4) * (k)) /* rectified inputs; ones clear pending */
#define YASMUREKH_APLIC_CLRIPNUM UINT64_C(0x1DDC)                          /* clears a pending bit by number */
#define YASMUREKH_APLIC_SETIE(k) (UINT64_C(0x1E00) + UINT64_C(4) * (k))    /* enable bits; ones set */
#define YASMUREKH_APLIC_SETIENUM UINT64_C(0x1EDC)                          /* sets an enable bit by number */
#define YASMUREKH_APLIC_CLRIE(k) (UINT64_C(0x1F00) + UINT64_C(4) * (k))    /* reads zero; ones clear enable bits */
#define YASMUREKH_APLIC_CLRIENUM UINT64_C(0x1FDC)                          /* clears an enable bit by number */
#define YASMUREKH_APLIC_SETIPNUM_LE UINT64_C(0x2000)                       /* as setipnum */
#define YASMUREKH_APLIC_TARGET(n) (UINT64_C(0x3000) + UINT64_C(4) * (n))   /* where it goes */

/*
 * Registers of a hart. In message delivery they read zero and ignore writes. topi and
 * claimi ignore writes in both.
 */
#define YASMUREKH_APLIC_IDELIVERY(h) (UINT64_C(0x4000) + UINT64_C(32) * (h))  /* 1: the hart may be signalled */
#define YASMUREKH_APLIC_IFORCE(h) (UINT64_C(0x4004) + UINT64_C(32) * (h))     /* 1: signalled without a source */
#define YASMUREKH_APLIC_ITHRESHOLD(h) (UINT64_C(0x4008) + UINT64_C(32) * (h)) /* 0, or priorities from it on wait */
#define YASMUREKH_APLIC_TOPI(h) (UINT64_C(0x4018) + UINT64_C(32) * (h))       /* top interrupt, or 0 */
#define YASMUREKH_APLIC_CLAIMI(h) (UINT64_C(0x401C) + UINT64_C(32) * (h))     /* as topi; a read claims it */

/*
 * domaincfg: the domain's enable bit, the one that can be written; beside it reads
 * 0x80000004 in message delivery, 0x80000000 in direct delivery.
 */
#define YASMUREKH_APLIC_DOMAINCFG_IE 0x100u

/* Source modes; 2 and 3 are kept as 0, and so is a value with bit 10. */
#define YASMUREKH_APLIC_INACTIVE 0u
#define YASMUREKH_APLIC_DETACHED 1u /* the wire is ignored */
#define YASMUREKH_APLIC_EDGE1 4u    /* rising edge */
#define YASMUREKH_APLIC_EDGE0 5u    /* falling edge */
#define YASMUREKH_APLIC_LEVEL1 6u   /* high level */
#define YASMUREKH_APLIC_LEVEL0 7u   /* low level */

/*
 * Fields of a target: hart index in bits 31:18; in message delivery guest index in
 * 17:12 and identity in 10:0; in direct delivery the priority in 7:0, where 0 is kept
 * as 1, and a lower number goes first. A hart index above 15 is kept and reaches no
 * hart. A source made active starts with hart index 0 and with identity 0 or
 * priority 1.
 */
#define YASMUREKH_APLIC_TARGET_HART_SHIFT 18u
#define YASMUREKH_APLIC_TARGET_GUEST_SHIFT 12u
#define YASMUREKH_APLIC_TARGET_IDENTITY_SHIFT 0u
#define YASMUREKH_APLIC_TARGET_PRIORITY_SHIFT 0u

/*
 * The value of topi, of claimi and of a claim: the identity, which is the source's
 * number, in bits 25:16, its priority in 7:0; all zero where no source is pending,
 * enabled, targeted to the hart and below its threshold, if that isn't 0. Of several,
 * the one with the lowest priority number, then the lowest source number.
 */
#define YASMUREKH_APLIC_TOPI_IDENTITY(value) ((value) >> 16 & 0x3FFu)
#define YASMUREKH_APLIC_TOPI_PRIORITY(value) ((value) & 0xFFu)

/*
 * Gives the wire of a source a level: 0 is low, any other number high.
 *
 * Lent: `state`. Changed: what it keeps of that source. Never changed: the other
 * sources, and any word where the call is refused.
 *
 * Returns YASMUREKH_OK; YASMUREKH_SHORT_BUFFER, with nothing changed, where
 * `state_len` is below YASMUREKH_APLIC_WORDS; or else YASMUREKH_REFUSAL_SOURCE,
 * with nothing changed, where `source` isn't from 1 to 63.
 */
uint64_t yasmurekh_aplic_wire(uint64_t *state, size_t state_len,
                              uint64_t source, uint64_t level);

/*
 * Writes 32 bits to the register at `offset`. An offset that is no register of
 * the domain (misaligned, undefined, genmsi, setipnum_be, of sources above 63 or
 * harts above 15, beyond the region) is ignored.
 *
 * Lent: `state`. Changed: what the register stands for. Never changed: what the
 * other registers and the wires stand for, and any word where no register is.
 *
 * Returns YASMUREKH_OK; or YASMUREKH_SHORT_BUFFER as yasmurekh_aplic_wire does.
 */
uint64_t yasmurekh_aplic_write(uint64_t *state, size_t state_len,
                               uint64_t offset, uint32_t value);

/*
 * Reads the 32 bits of the register at `offset`; 0 where no register is.
 *
 * Lent: `state` and `out`. Changed: the first word of `out`, and, where claimi of a
 * hart is read in direct delivery, what yasmurekh_aplic_claim changes. Never
 * changed: the words of `out` after it, and `state` by any other read.
 *
 * Returns YASMUREKH_OK; or YASMUREKH_SHORT_BUFFER, with nothing changed, where
 * `state_len` is below YASMUREKH_APLIC_WORDS or `out_len` below
 * YASMUREKH_APLIC_READ_WORDS.
 */
uint64_t yasmurekh_aplic_read(uint64_t *state, size_t state_len,
                              uint64_t offset, uint64_t *out, size_t out_len);

/*
 * Forwards one interrupt: takes the lowest-numbered source that is pending and
 * enabled while IE of domaincfg is set, clears its pending bit, and hands out its
 * target. The message is not sent: the caller writes the identity, as 32 bits, to
 * the interrupt file that hart index and guest index name. In direct delivery
 * nothing is forwarded.
 *
 * Lent: `state` and `out`. Changed: the first four words of `out`, and that one
 * pending bit. Never changed: the words of `out` after the fourth, what else
 * `state` stands for, and any word of it where nothing is forwarded.
 *
 * Returns YASMUREKH_OK; or YASMUREKH_SHORT_BUFFER, with nothing changed, where
 * `state_len` is below YASMUREKH_APLIC_WORDS or `out_len` below
 * YASMUREKH_APLIC_FORWARD_WORDS.
 */
uint64_t yasmurekh_aplic_forward(uint64_t *state, size_t state_len,
                                 uint64_t *out, size_t out_len);

/*
 * Claims the top interrupt of a hart: hands out what a read of its claimi gives, and
 * does what that read does. In message delivery the value is 0 and nothing changes.
 *
 * A trap handler claims, takes the identity (YASMUREKH_APLIC_TOPI_IDENTITY), and
 * calls that source's handler; identity 0 is a spurious interrupt, to be ignored. It
 * may go on until it gets 0. A level-sensitive source stays pending until its wire
 * is de-asserted, so that its handler must quiet the device.
 *
 * Lent: `state` and `out`. Changed: the first word of `out`; where the value isn't 0,
 * the pending bit of that source, cleared unless it is level-sensitive; where it is
 * 0, iforce of the hart, cleared. Never changed: the words of `out` after the first,
 * and what else `state` stands for.
 *
 * Returns YASMUREKH_OK; YASMUREKH_SHORT_BUFFER, with nothing changed, where
 * `state_len` is below YASMUREKH_APLIC_WORDS or `out_len` below
 * YASMUREKH_APLIC_CLAIM_WORDS; or else YASMUREKH_REFUSAL_HART, with nothing changed,
 * where `hart` is above 15.
 */
uint64_t yasmurekh_aplic_claim(uint64_t *state, size_t state_len,
                               uint64_t hart, uint64_t *out, size_t out_len);

/*
 * Tells whether a hart is signalled: 1 where IE of domaincfg and idelivery of the
 * hart are 1 and its iforce or its topi isn't 0, else 0; always 0 in message delivery.
 * The caller drives the hart's external interrupt with it, after each call that may
 * have changed it.
 *
 * Lent: `state` and `out`. Changed: the first word of `out`. Never changed: the
 * words of `out` after it, and `state`.
 *
 * Returns as yasmurekh_aplic_claim does, with YASMUREKH_APLIC_SIGNAL_WORDS.
 */
uint64_t yasmurekh_aplic_signal(uint64_t *state, size_t state_len,
                                uint64_t hart, uint64_t *out, size_t out_len);

#ifdef __cplusplus
}
#endif

#endif
