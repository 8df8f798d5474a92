int main(void)
{
    int n = 0;
    int square;
    int tens;
    while (n < 10) {
        square = n * n;
        tens = 0;
        while (9 < square - 10 * tens) {
            tens = tens + 1;
        }
        putchar('0' + tens);
        putchar('0' + square - 10 * tens);
        putchar(10);
        n = n + 1;
    }
    return 0;
}
