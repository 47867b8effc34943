/* Bytes from hexadecimal digits, for the programs of this folder. */
#ifndef HEX_H
#define HEX_H

#include <stddef.h>
#include <stdint.h>

static int hex_digit(char digit)
{
    if (digit >= '0' && digit <= '9')
        return digit - '0';
    if (digit >= 'A' && digit <= 'F')
        return digit - 'A' + 10;
    if (digit >= 'a' && digit <= 'f')
        return digit - 'a' + 10;
    return -1;
}

/* Puts count / 2 bytes into `bytes`; 0 where the digits are not pairs of hexadecimal digits. */
static int hex_bytes(const char *digits, size_t count, uint8_t *bytes)
{
    size_t i;
    for (i = 0; i < count; i += 2) {
        int high = hex_digit(digits[i]), low = i + 1 < count ? hex_digit(digits[i + 1]) : -1;
        if (high < 0 || low < 0)
            return 0;
        bytes[i / 2] = (uint8_t)(high << 4 | low);
    }
    return 1;
}

#endif
