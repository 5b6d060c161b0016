#include <stdio.h>
int main(void){putchar(72);putchar(321);return 7;}
