/* Numbers as text, and bytes in memory. */
#include "programs.h"

uint8_t record_area[RECORD_AREA];
uint32_t index_area[INDEX_AREA];

void put_number(uint32_t value)
{
    char text[11];
    char *at = text + 10;
    *at = '\0';
    do {
        *--at = (char)('0' + value % 10);
        value /= 10;
    } while (value != 0);
    put(at);
}

void put_digits(uint64_t value)
{
    char text[17];
    int i;
    for (i = 15; i >= 0; i--) {
        text[i] = "0123456789abcdef"[value & 15];
        value >>= 4;
    }
    text[16] = '\0';
    put(text);
}

uint32_t four(const uint8_t *at)
{
    return (uint32_t)at[0] | (uint32_t)at[1] << 8 | (uint32_t)at[2] << 16 | (uint32_t)at[3] << 24;
}

void fill(uint8_t *bytes, uint32_t length, uint8_t value)
{
    uint32_t i;
    for (i = 0; i < length; i++)
        bytes[i] = value;
}
