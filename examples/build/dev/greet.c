#include <stdio.h>

int main(void) {
    puts("hello from dev");
    return 0;
}
