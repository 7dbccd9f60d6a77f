/* The trial of outside/prepare: copies its input to its output, and ends with status 7. */
#include <stdio.h>

int main(void)
{
    int c;
    while ((c = getchar()) != EOF)
        if (putchar(c) == EOF)
            return 1;
    return 7;
}
