#include <stdio.h>
#include "saltribbon.h"

int main(void)
{
    uint8_t out[SALT_ANSWER_BYTES];
    uint32_t refusal = salt_from_unit(90, SALT_UNIT_MINUTES, out, sizeof out);
    if (refusal != 0) return (int)refusal;
    printf("%llu.%09lu s\n", (unsigned long long)salt_read_u64(out), (unsigned long)salt_read_u32(out + 8));
    return 0;
}
