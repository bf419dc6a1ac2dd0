/* What the comparison of a plain value is measured against. */
#include <stddef.h>

int same_bytes(const unsigned char *a, size_t a_length, const unsigned char *b, size_t b_length)
{
    if (a_length != b_length)
        return 0;
    for (size_t i = 0; i < a_length; i++)
        if (a[i] != b[i])
            return 0;
    return 1;
}
