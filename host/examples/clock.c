/* The day and the time of a slot, and the way back. From the repository's root, after host/library:
 *
 *     gcc -Ihost/include host/examples/clock.c target/staticlib/libcalendar_c.a -o target/clock
 *     target/clock 13
 *     target/clock 0 15:30
 *
 * One argument is a slot; two are a day and a time. */
#include "bimtsure_calendar.h"
#include <stdio.h>
#include <stdlib.h>
#include <string.h>

/* A number is tested as the long that it is, before it is cut to 16 bits. What is none from 0 to 65534 becomes 65535, which is
 * refused as a slot and as a day. */
static uint16_t number(const char *text)
{
    char *end;
    long value = strtol(text, &end, 10);
    return end != text && *end == 0 && value >= 0 && value < 65535 ? (uint16_t)value : 65535;
}

/* Two digits, one in each four bits. What are none become 0xff, which no time has. */
static uint8_t packed(const char *digits)
{
    int tens = digits[0] - '0', ones = digits[1] - '0';
    return tens >= 0 && tens <= 9 && ones >= 0 && ones <= 9 ? (uint8_t)(16 * tens + ones) : 0xff;
}

static int refused(uint32_t by, uint32_t place)
{
    printf("refused %u %u\n", by, place);
    return 1;
}

static int tell_clock(uint16_t slot)
{
    struct bimtsure_clock_answer answer = bimtsure_clock(slot);
    if (answer.number) return refused(answer.number, answer.place);
    printf("day %u, %02x:%02x\n", answer.day, answer.hours, answer.minutes);
    return 0;
}

static int tell_slot(uint16_t day, const char *time)
{
    if (strlen(time) != 5 || time[2] != ':') time = "--:--";
    struct bimtsure_slot_answer answer = bimtsure_slot(day, packed(time), packed(time + 3));
    if (answer.number) return refused(answer.number, answer.place);
    printf("slot %u\n", answer.slot);
    return 0;
}

int main(int argc, char **argv)
{
    if (argc == 2) return tell_clock(number(argv[1]));
    if (argc == 3) return tell_slot(number(argv[1]), argv[2]);
    return fputs("clock SLOT, or clock DAY HH:MM\n", stderr), 2;
}
