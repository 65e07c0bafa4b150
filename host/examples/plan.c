/* A first plan. From the repository's root, after host/library:
 *
 *     gcc -Ihost/include host/examples/plan.c target/staticlib/libbimtsure_c.a -o target/plan
 *     target/plan 3  0 1  1 2
 *
 * The first number is P, then come the two ends of each appointment; `-` is an end that isn't known. */
#include "bimtsure.h"
#include <stdio.h>
#include <stdlib.h>

/* A number is tested as the long that it is, before it is cut to 16 bits. What is no number below 65535 stays blank. */
static uint16_t number(const char *text)
{
    char *end;
    long value = strtol(text, &end, 10);
    return end != text && *end == 0 && value >= 0 && value < BIMTSURE_BLANK ? (uint16_t)value : BIMTSURE_BLANK;
}

int main(int argc, char **argv)
{
    if (argc < 2) return fputs("plan P [FIRST SECOND]..\n", stderr), 2;
    uint16_t p = number(argv[1]);
    size_t list_len = (size_t)argc - 2, a = list_len / 2;
    uint16_t *list = (uint16_t *)malloc(list_len * sizeof *list);
    uint16_t *slots = (uint16_t *)malloc(a * sizeof *slots);
    if ((!list && list_len) || (!slots && a)) return fputs("no memory\n", stderr), 2;
    for (size_t i = 0; i < list_len; i++) list[i] = BIMTSURE_BLANK;
    for (size_t i = 0; i < list_len; i++) list[i] = number(argv[i + 2]);

    /* words is 0 for a list that is refused by 1 to 6: planning then refuses it by the same number */
    size_t words = bimtsure_needs(p, list, list_len).words;
    uint32_t *scratch = (uint32_t *)malloc(words * sizeof *scratch);
    if (!scratch && words) return fputs("no memory\n", stderr), 2;
    struct bimtsure_answer answer = bimtsure_plan(p, list, list_len, slots, a, scratch, words);
    if (answer.number == BIMTSURE_ACCEPTED) {
        printf("plan %u\n", answer.d);
        for (size_t i = 0; i < a; i++) printf("%zu %u %u %u\n", i, list[2 * i], list[2 * i + 1], slots[i]);
    } else {
        printf("refused %u %u\n", answer.number, answer.place);
    }
    free(list), free(slots), free(scratch);
    return answer.number != BIMTSURE_ACCEPTED;
}
