/* The exported calls of the crate calendar_c, for x86-64 Linux (System V calling convention): the day and the time of a slot, and
 * the way back. host/library writes the archive target/staticlib/libcalendar_c.a and libbimtsure_calendar.so beside it. This
 * header needs no other, and may be included beside bimtsure.h. host/examples/clock.c shows both calls.
 *
 * A day has sixteen slots, half-hourly from 08:00 to 11:30 and from 13:00 to 16:30. Days, slots and the times of a day count from
 * 0. Slot s lies on day s/16, rounded down, at the time numbered by the remainder: slot 13 is day 0, 15:30.
 *
 * Hours and minutes are packed decimal, going in and coming out: a byte holds two digits, one in each four bits. 16:30 is 0x16 and
 * 0x30, that is 22 and 48, and %02x:%02x prints it. A caller who passes 16 and 30 is refused by 24; but one who passes 16 and 0
 * has asked for 10:00, which is 0x10 and 0x00.
 *
 * Your compiler cuts a slot or a day to 16 bits, and hours and minutes to 8, so that 65536 becomes slot 0 and 0x108 becomes 0x08:
 * test them in your own width first.
 *
 * Each answer has a number, 0 for acceptance, and a place, which is always 0; a refusal's figures are 0. No memory is lent, and
 * nothing is kept after a call.
 */
#ifndef BIMTSURE_CALENDAR_H
#define BIMTSURE_CALENDAR_H

#include <stdint.h>

/* The slots of a day, the last slot of all, and the last day. */
#define BIMTSURE_SLOTS_A_DAY 16
#define BIMTSURE_LAST_SLOT 4095
#define BIMTSURE_LAST_DAY 255

/* The numbers of refusals. */
enum bimtsure_calendar_number {
    BIMTSURE_SLOT_TOO_LATE = 23, /* a slot above 4,095 */
    BIMTSURE_NO_SUCH_TIME = 24   /* a time that is none of the sixteen, or a day above 255 */
};

#ifdef __cplusplus
extern "C" {
#endif

/* The day of a slot, and its time as packed hours and minutes. Refuses by 23. Needs at most 1 KiB of stack. */
struct bimtsure_clock_answer {
    uint32_t number;
    uint32_t place;
    uint32_t day;
    uint32_t hours;
    uint32_t minutes;
};
struct bimtsure_clock_answer bimtsure_clock(uint16_t slot);

/* The slot of a day at a time, which comes as packed hours and minutes. Refuses by 24. Needs at most 1 KiB of stack. */
struct bimtsure_slot_answer {
    uint32_t number;
    uint32_t place;
    uint32_t slot;
};
struct bimtsure_slot_answer bimtsure_slot(uint16_t day, uint8_t hours, uint8_t minutes);

#ifdef __cplusplus
}
#endif

#endif
