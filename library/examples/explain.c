/* Prints what an expression means, as an expression: in parentheses by its tree, with every
 * qualifier written out.
 *
 * The status is 2 if the command line or the expression is refused, and 1 if nothing can be
 * printed. */
#define _POSIX_C_SOURCE 200809L
#include "example.h"

int main(int argc, char **argv)
{
    char *meaning;
    size_t length;
    uint32_t status;
    if (argc != 2)
        return fprintf(stderr, "usage: explain EXPRESSION\n"), 2;
    /* Without room it says how long the text is. */
    status = capkit_explain(argv[1], strlen(argv[1]), NULL, 0, &length);
    if (status)
        return report_status("explain", status, length), 2;
    if (!(meaning = malloc(length + 1)))
        return perror("explain"), 1;
    status = capkit_explain(argv[1], strlen(argv[1]), meaning, length + 1, &length);
    if (status)
        return report_status("explain", status, length), free(meaning), 1;
    puts(meaning);
    free(meaning);
    return fflush(stdout) ? perror("explain"), 1 : 0;
}
