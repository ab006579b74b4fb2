/* libpg_query, PostgreSQL's scanner and parser as a library, over a file, as one process: peers split|scan|parse FILE
   It ends with status 1 where the text is refused. */
#include <pg_query.h>
#include <stdio.h>
#include <stdlib.h>
#include <string.h>

static char *read_all(const char *path) {
    FILE *file = fopen(path, "rb");
    if (!file || fseek(file, 0, SEEK_END))
        return NULL;
    long bytes = ftell(file);
    rewind(file);
    char *text = bytes < 0 ? NULL : malloc((size_t)bytes + 1);
    if (text)
        text[fread(text, 1, (size_t)bytes, file)] = 0;
    fclose(file);
    return text;
}

static int refused(const PgQueryError *error) {
    if (error)
        fprintf(stderr, "%s\n", error->message);
    return error != NULL;
}

int main(int argc, char **argv) {
    char *text = argc == 3 ? read_all(argv[2]) : NULL;
    if (!text) {
        fprintf(stderr, "peers split|scan|parse FILE\n");
        return 2;
    }
    if (!strcmp(argv[1], "split"))
        return refused(pg_query_split_with_scanner(text).error);
    if (!strcmp(argv[1], "scan"))
        return refused(pg_query_scan(text).error);
    if (!strcmp(argv[1], "parse"))
        return refused(pg_query_parse_protobuf(text).error);
    fprintf(stderr, "peers split|scan|parse FILE\n");
    return 2;
}
