/* Counts the letters of its input, and prints how often each stood there. */
#include <stdio.h>

int count[26];

/* Which letter a character is, from 0, or -1. */
int letter(int c)
{
    if (c >= 'A' && c <= 'Z')
        return c - 'A';
    if (c >= 'a' && c <= 'z')
        return c - 'a';
    return -1;
}

/* A number below 1000. Not every machine divides. */
void print(int n)
{
    int hundreds = 0, tens = 0;
    for (; n >= 100; n -= 100)
        hundreds++;
    for (; n >= 10; n -= 10)
        tens++;
    if (hundreds)
        putchar('0' + hundreds);
    if (hundreds || tens)
        putchar('0' + tens);
    putchar('0' + n);
}

int main(void)
{
    int c, i;
    while ((c = getchar()) != EOF)
        if ((i = letter(c)) >= 0)
            count[i]++;
    for (i = 0; i < 26; i++)
        if (count[i]) {
            putchar('a' + i);
            putchar(' ');
            print(count[i]);
            putchar('\n');
        }
    return 0;
}
