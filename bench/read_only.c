/* Reads standard input in pieces of the given size and does nothing with it, to see what reading takes of a program's time. */
#include <stdlib.h>
#include <unistd.h>

static char piece[1 << 16];

int main(int count, char **words)
{
    size_t size = count == 2 ? (size_t)atol(words[1]) : 0;
    if (size == 0 || size > sizeof piece)
        return 2;
    while (read(0, piece, size) > 0)
        ;
    return 0;
}
