/* Scales a picture row by row, and holds one row of it. Raw RGBA in, raw RGBA out:
 *
 *   cc -std=c99 -Iinclude bindings/c/example.c target/staticlib/libjonquilsaw.a -o example
 *   ./example 48 32 20 <samples/badge-48x32.rgba >badge.rgba */
#include "jonquilsaw.h"

#include <stdio.h>
#include <stdlib.h>

static uint8_t row[4 * JONQUILSAW_MAX_SIDE], out[4 * JONQUILSAW_MAX_SIDE];
static uint32_t work[8 * JONQUILSAW_MAX_SIDE];

static void stop(const char *where, const char *why) {
    fprintf(stderr, "example: %s: %s\n", where, why);
    exit(1);
}

static void check(const char *call, uint32_t number) {
    if (number != JONQUILSAW_OK) stop(call, jonquilsaw_meaning(number));
}

int main(int argc, char **argv) {
    if (argc != 4) {
        fputs("usage: example WIDTH HEIGHT TARGET_WIDTH\n", stderr);
        return 2;
    }
    jonquilsaw_plan plan;
    plan.source.width = (uint32_t)strtoul(argv[1], NULL, 10);
    plan.source.height = (uint32_t)strtoul(argv[2], NULL, 10);
    plan.layout = JONQUILSAW_RGBA8;
    plan.crop = jonquilsaw_whole(plan.source);
    check("scaled", jonquilsaw_size_scaled(plan.source, (uint32_t)strtoul(argv[3], NULL, 10), 0, &plan.target));

    jonquilsaw_job job;
    const size_t in_bytes = (size_t)4 * plan.source.width, out_bytes = (size_t)4 * plan.target.width;
    const size_t words = JONQUILSAW_WORK_WORDS(plan.target.width);
    check("start", jonquilsaw_job_start(&job, &plan, work, words));
    for (uint32_t y = 0; y < plan.source.height; y++) {
        uint32_t accepted, number;
        if (fread(row, 1, in_bytes, stdin) != in_bytes) stop("standard input", "it ends too early");
        check("offer", jonquilsaw_job_offer(&job, row, in_bytes, work, words, &accepted));
        while ((number = jonquilsaw_job_take(&job, out, out_bytes, work, words)) == JONQUILSAW_OK)
            if (fwrite(out, 1, out_bytes, stdout) != out_bytes) stop("standard output", "it takes no more");
        if (number != JONQUILSAW_NONE_READY) check("take", number);
    }
    if (fflush(stdout) != 0) stop("standard output", "it takes no more");
    return 0;
}
