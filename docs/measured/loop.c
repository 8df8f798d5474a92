int main(void)
{
    int i = 0;
    while (i < 10000000) {
        i = i + 1 + 0 + 0;
    }
    return 0;
}
