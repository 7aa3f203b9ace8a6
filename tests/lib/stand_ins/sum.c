typedef unsigned int words __attribute__((vector_size(16)));
words table[4] = {{1, 2, 3, 4}, {5, 6, 7, 8}, {9, 10, 11, 12}, {13, 14, 15, 16}};
int main(void)
{
    words sum = {0, 0, 0, 0};
    int i;
    for (i = 0; i < 4; i++)
        sum += table[i];
    table[0] = sum;
    return 0;
}
