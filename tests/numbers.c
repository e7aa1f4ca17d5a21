/*
 * Writes the archive's version, then each number with its meaning as czg_meaning writes it, a line each, up to the first
 * number that is refused; for that the refusal. Ends with status 1 if a meaning has another byte than printable ASCII,
 * or if the longest does not have CZG_MOST_MEANING bytes.
 */
#include <stdio.h>

#include "chizuregwo.h"

int main(void)
{
    uint8_t text[2 * CZG_MOST_MEANING];
    size_t longest = 0;
    czg_answer answer;
    printf("version %u\n", (unsigned)czg_version());
    for (uint32_t number = 0; answer = czg_meaning(number, text, sizeof text), answer.number == CZG_DONE; number++) {
        for (size_t i = 0; i < answer.length; i++)
            if (text[i] < 0x20 || text[i] > 0x7E)
                return 1;
        if (answer.length > longest)
            longest = answer.length;
        printf("%u %.*s\n", (unsigned)number, (int)answer.length, (const char *)text);
    }
    printf("refused %u\n", (unsigned)answer.number);
    return longest != CZG_MOST_MEANING;
}
