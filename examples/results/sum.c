// A program is compiled and run, and what it writes is checked.
//
// REQUIRES: cc
// RUN: cc %s -o %t
// RUN: %t 3 4 | filecheck %s
// RUN: not %t 3 2>&1 | filecheck --check-prefix=USAGE %s
//
// CHECK: 3 + 4 = [[#3+4]]
// USAGE: usage: sum A B
#include <stdio.h>
#include <stdlib.h>

int main(int count, char **words) {
    if (count != 3) {
        fprintf(stderr, "usage: sum A B\n");
        return 2;
    }
    printf("%s + %s = %d\n", words[1], words[2], atoi(words[1]) + atoi(words[2]));
    return 0;
}
