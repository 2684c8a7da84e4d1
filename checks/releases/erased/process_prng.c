/* bcryptprimitives.dll for tests in a Wine that lacks it: numbers that aren't random. */
#include <stddef.h>

int ProcessPrng(unsigned char *bytes, size_t length)
{
    for (size_t at = 0; at < length; at += 1)
        bytes[at] = (unsigned char)at;
    return 1;
}
