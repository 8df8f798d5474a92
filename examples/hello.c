int main(void)
{
    putchar('H'); putchar('e'); putchar('l'); putchar('l'); putchar('o');
    putchar(10);
    return 0;
}
