/* The exported calls of the crate bimtsure_c, for x86-64 Linux (System V calling convention). host/library writes the archive
 * target/staticlib/libbimtsure_c.a and libbimtsure.so beside it. host/examples/plan.c is a first plan.
 *
 * A list has two ends for each appointment, and an end is a party: a number from 0 to P-1. An end that isn't known is
 * BIMTSURE_BLANK. 0 is a party like any other, so a list that was cleared by 0 plans what nobody asked for: fill the list with
 * BIMTSURE_BLANK before you store ends. Your compiler cuts P, ends and parties that you ask for to 16 bits, so that 65536 becomes 0
 * and 65537 parties become 1: test them in your own width first.
 *
 * A lent slice passes as its address and its number of entries. Where that is 0 the address may be NULL; else it is aligned for
 * its type. Slices that a call writes must not overlap the others. Nothing is kept after a call.
 *
 * Each answer has a number, 0 for acceptance, and a place, 0 where documents 01 and 02 name none; a refusal's figures are 0, and
 * it leaves all lent memory as it was (but for scratch after the planning call's 9).
 */
#ifndef BIMTSURE_H
#define BIMTSURE_H

#include <stddef.h>
#include <stdint.h>

/* A blank end. */
#define BIMTSURE_BLANK 65535

/* The most parties, the most appointments, and the most that D*P may come to. */
#define BIMTSURE_MOST_PARTIES 1024
#define BIMTSURE_MOST_APPOINTMENTS 4096
#define BIMTSURE_MOST_CELLS 8192

/* So many words of scratch, 128*(8192 + 1024), are enough for every list that passes check 6; how many one list needs,
 * bimtsure_needs says. */
#define BIMTSURE_SCRATCH_WORDS 1179648

/* The most parties that can be asked for together. */
#define BIMTSURE_MOST_ASKED 64

/* The numbers of answers. The place of 4 and 5 is the position of the first such appointment, counted from 0; that of 15 is the
 * position of the first such party among those asked for, from 0 too; that of 10 is the number of the line, from 1; every other
 * place is 0. 10 and 11 are the program's: no call gives them. */
enum bimtsure_number {
    BIMTSURE_ACCEPTED = 0,
    BIMTSURE_TOO_MANY_PARTIES = 1,      /* more than 1,024 parties */
    BIMTSURE_ODD_LENGTH = 2,            /* the list's length is odd */
    BIMTSURE_TOO_MANY_APPOINTMENTS = 3, /* more than 4,096 appointments */
    BIMTSURE_BLANK_END = 4,             /* an end is blank */
    BIMTSURE_END_NOT_BELOW_P = 5,       /* another end is not below P */
    BIMTSURE_TOO_MANY_CELLS = 6,        /* D*P is above 8,192 */
    BIMTSURE_TOO_FEW_SLOTS = 7,         /* fewer slot entries than appointments */
    BIMTSURE_TOO_FEW_WORDS = 8,         /* fewer than 128*P*(D+1) scratch words */
    BIMTSURE_ODD_ROUND = 9,             /* a closed round of odd length: there are no two sides */
    BIMTSURE_BAD_LINE = 10,             /* a line of the program's input is malformed, or the input broke off */
    BIMTSURE_LONG_INPUT = 11,           /* the program's input is above 4,096 bytes */
    BIMTSURE_WRONG_LENGTH = 12,         /* a filed plan has the wrong length */
    BIMTSURE_SHORT_OUTPUT = 13,         /* an output is too short */
    BIMTSURE_TOO_MANY_ASKED = 14,       /* more than 64 parties asked for */
    BIMTSURE_ASKED_NOT_BELOW_P = 15     /* a party asked for is not below P */
};

#ifdef __cplusplus
extern "C" {
#endif

/* The planning call: gives each appointment of a list its slot. P parties; two ends for each of the A appointments, in `list`.
 *
 * Accepts with number 0, place 0 and D, the largest load: the first A entries of `slots` hold the plan, later ones stay. Or
 * refuses by 1 to 9 with its place, and D 0; 9 where some closed round is of odd length. Slots then stay as they were.
 *
 * Scratch needs W = 128*P*(D+1) words, or else 8; what it holds before affects nothing. After acceptance and after 9 its first W
 * words are 0 and the others stay; after 1 to 8 all of it stays. Needs at most 16 KiB of stack. */
struct bimtsure_answer {
    uint32_t number;
    uint32_t place;
    uint32_t d;
};
struct bimtsure_answer bimtsure_plan(uint16_t p, const uint16_t *list, size_t list_len, uint16_t *slots, size_t slots_len,
                                     uint32_t *scratch, size_t scratch_len);

/* How much scratch a list needs: W = 128*P*(D+1) words, and D. Refuses by 1 to 6, with its place; d and words are then 0. A list
 * that is not refused is never refused by 8 if the planning call is lent that many words or more. Needs at most 8 KiB of stack. */
struct bimtsure_needs_answer {
    uint32_t number;
    uint32_t place;
    uint32_t d;
    uint32_t words;
};
struct bimtsure_needs_answer bimtsure_needs(uint16_t p, const uint16_t *list, size_t list_len);

/* Waiting of a party: how many whole numbers, below D or not, lie strictly between its lowest and its highest slot and are the
 * slot of none of its appointments; so 0 for a load of 0 or 1. The first A entries of `slots` are the plan, and later ones don't
 * count; any numbers will do, clashes too. Refuses by 1 to 5 for the list, then by 7, then by 5 with place 0 if the party is not
 * below P. Needs at most 80 KiB of stack, of which 64 are a flag for each number that a slot can be. */
struct bimtsure_waiting_answer {
    uint32_t number;
    uint32_t place;
    uint32_t waiting;
};
struct bimtsure_waiting_answer bimtsure_waiting(uint16_t p, const uint16_t *list, size_t list_len, const uint16_t *slots,
                                                size_t slots_len, uint16_t party);

/* Asks for up to 64 parties together, by one walk of the list. Fills three entries of `output` for each of `parties`, in order:
 * its load, its lowest slot and its highest slot; for a load of 0 both slots are 65535. (A slot can be 65535 too: the load tells.)
 * Each is filled as if it were asked for by itself, and one asked for twice is filled twice. An appointment of a party with itself
 * adds 2 to its load. The first A entries of `slots` are the plan, and later ones don't count; any numbers will do, clashes too.
 *
 * Refuses by 1 to 5 for the list, then by 7, then by 14, then by 15, whose place is that of the first such party in `parties`,
 * then by 13 if `output` has fewer than 3 entries for each. Entries past those filled always stay. To ask for none is accepted,
 * and `output` may then be empty. Needs at most 8 KiB of stack. */
struct bimtsure_many {
    uint32_t number;
    uint32_t place;
};
struct bimtsure_many bimtsure_ask_many(uint16_t p, const uint16_t *list, size_t list_len, const uint16_t *slots,
                                       size_t slots_len, const uint16_t *parties, size_t parties_len, uint16_t *output,
                                       size_t output_len);

/* Writes a filed plan and gives its length in bytes. Refuses by 1, 2, 3, 7 and 13. Needs at most 1 KiB of stack. */
struct bimtsure_filed {
    uint32_t number;
    uint32_t place;
    uint32_t length;
};
struct bimtsure_filed bimtsure_file_plan(uint16_t p, const uint16_t *list, size_t list_len, const uint16_t *slots,
                                         size_t slots_len, uint8_t *output, size_t output_len);

/* Reads a filed plan into a list and its slots, and gives P and A. Refuses by 12, 1, 3 and 13. Needs at most 1 KiB of stack. */
struct bimtsure_read {
    uint32_t number;
    uint32_t place;
    uint32_t parties;
    uint32_t appointments;
};
struct bimtsure_read bimtsure_read_plan(const uint8_t *bytes, size_t bytes_len, uint16_t *list, size_t list_len,
                                        uint16_t *slots, size_t slots_len);

/* Opens a viewer over a list and its slots (refuses by 2 and 7) and takes one step of it, from a position to the next
 * appointment of a party: found is 1, with the appointment's position and slot; or 0 at the end. The next step starts at `next`,
 * which is A at the end. Begin at 0. Positions are as wide as a length, since opening bounds no list. Needs at most 1 KiB of
 * stack. */
struct bimtsure_seen {
    uint32_t number;
    uint32_t place;
    uint32_t found;
    size_t position;
    uint32_t slot;
    size_t next;
};
struct bimtsure_seen bimtsure_view(const uint16_t *list, size_t list_len, const uint16_t *slots, size_t slots_len,
                                   uint16_t party, size_t from);

#ifdef __cplusplus
}
#endif

#endif
