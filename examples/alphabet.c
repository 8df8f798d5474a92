#include <stdio.h>
#include "porch.h"

/* Shows the alphabet in lines of nine letters. */
int main(void)
{
    int letter = 'A';
    int column = 0;
    while (letter < 'Z' + 1) {
        putchar(letter);            /* no newline yet */
        letter = letter + 1;
        column = column + 1;
        while (8 < column) {
            putchar(10);
            column = 0;
        }
    }
    putchar(10);
    return 0;
}
