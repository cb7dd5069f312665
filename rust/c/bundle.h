/* A bundle from a file, for the C tests. */
#ifndef BUNDLE_H
#define BUNDLE_H

#include "curiumtoad.h"

#include <stdio.h>
#include <stdlib.h>

struct bundle {
    uint8_t bytes[CURIUMTOAD_BUNDLE_BYTES + 1];
    size_t size;
};

static void fail(const char *what)
{
    fprintf(stderr, "%s\n", what);
    exit(1);
}

static void read_bundle(const char *path, struct bundle *bundle)
{
    FILE *file = fopen(path, "rb");
    if (file == NULL)
        fail(path);
    bundle->size = fread(bundle->bytes, 1, sizeof bundle->bytes, file);
    if (ferror(file))
        fail(path);
    fclose(file);
}

#endif
