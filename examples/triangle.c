int main(void)
{
    int row = 0;
    int column;
    while (row < 8) {
        column = 0;
        while (column < row + 1) {
            putchar('*');
            column = column + 1;
        }
        putchar(10);
        row = row + 1;
    }
    return row;
}
