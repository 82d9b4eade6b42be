/* Prints every name and text of book_row.h, one on a line with its number, for check.py to compare with book.h. */
#include "book_row.h"

#include <stdio.h>

static void print_names(const char *what, const char *(*name)(uint8_t))
{
    int number;
    for (number = 1; number < 256; number++)
        if (name((uint8_t)number)[0] != '\0')
            printf("%s %d %s\n", what, number, name((uint8_t)number));
}

int main(void)
{
    int32_t status;
    for (status = -2000; status <= 2000; status++)
        if (book_status_name(status)[0] != '\0')
            printf("%s %d %s\n", book_status_name(status), (int)status, book_status_text(status));
    print_names("kind", book_kind_name);
    print_names("type", book_type_name);
    print_names("status", book_trade_status_name);
    return 0;
}
