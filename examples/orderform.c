/* Checks order lines from standard input as the office's order form does, and prints the answer to each.
 *
 * Build and run, from the repository's root:
 *     tools/staticlib office && cc -Iinclude -o target/orderform_c examples/orderform.c target/staticlib/liboffice.a
 *     target/orderform_c < examples/orders.txt
 */
#include <stdint.h>
#include <stdio.h>

#include "sinkerred_office.h"

/* One byte more than the longest line, so that a longer one is seen to be too long. */
static uint8_t line[65537];

static void judge(size_t number, size_t length)
{
    uint32_t answer = sinkerred_order_form(line, length);
    if (answer == 0) {
        printf("%zu: well formed\n", number);
    } else {
        printf("%zu: rule %u, after %u bytes\n", number, (unsigned)(answer / 1000000), (unsigned)(answer % 1000000));
    }
}

int main(void)
{
    size_t number = 1;
    size_t length = 0;
    int started = 0;
    int c;
    while ((c = getchar()) != EOF) {
        if (c == '\n') {
            judge(number++, length);
            length = 0;
            started = 0;
        } else {
            started = 1;
            if (length < sizeof line) {
                line[length++] = (uint8_t)c;
            }
        }
    }
    if (started) {
        judge(number, length);
    }
    return ferror(stdin) || fflush(stdout) != 0;
}
