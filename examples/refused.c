#include <stdio.h>

/* The declaration comes too late: C90 has all of them before the first statement of their block. */
int main(void)
{
    putchar('A');
    int late = 1;
    return late;
}
