/* What a desk tool does with the library: document 01's three-edit text checked, reported and written back, also where there is just enough room or
 * too little, why an edit must or can never stand, a bench kept by its log, and how united the benches are, from some elections. */
#include "catalogue.h"
#include <stdio.h>
#include <string.h>

static uint8_t work[65536], out[65536];

static size_t size_of(const char *text) { return strlen(text); }
static const uint8_t *bytes_of(const char *text) { return (const uint8_t *)text; }

static void show(const char *title, struct catalogue_reply reply) {
    printf("%s: number=%u line=%zu size=%zu\n", title, (unsigned)reply.number, reply.line, reply.size);
    fwrite(out, 1, reply.size, stdout);
}

static void show_fit(const char *title, struct catalogue_reply reply) {
    printf("%s: number=%u size=%zu\n", title, (unsigned)reply.number, reply.size);
}

/* Just enough room, and one byte less: at the start of `out`, and in `work`, where the answer to ask=text is written after 32 + 16 bytes that stand
 * there already. The 26 bytes of the record's text are written whole or not at all. */
static void show_room(const char *text) {
    const char *log = "edit=257 do=insert chip=1\nask=text\n";
    show_fit("written back into its own size", catalogue_rewrite(bytes_of(text), size_of(text), out, size_of(text)));
    show_fit("into one byte less", catalogue_rewrite(bytes_of(text), size_of(text), out, size_of(text) - 1));
    show_fit("nothing into nothing", catalogue_rewrite(bytes_of(""), 0, out, 0));
    memset(work, '-', 80);
    show_fit("a text at 48 of 80", catalogue_replay(bytes_of(log), size_of(log), work, 80, out, sizeof out));
    printf("from 48 on stands %.32s\n", (const char *)work + 48);
    show_fit("at 48 of 74", catalogue_replay(bytes_of(log), size_of(log), work, 74, out, sizeof out));
    memset(work, '-', 80);
    show_fit("at 48 of 73", catalogue_replay(bytes_of(log), size_of(log), work, 73, out, sizeof out));
    printf("from 48 on stands %.32s\n", (const char *)work + 48);
    show_fit("the empty text at 16 of 16", catalogue_replay(bytes_of("ask=text\n"), 9, work, 16, out, sizeof out));
}

/* A bench kept between calls: the lines that were given to it so far. */
static char kept[4096];

static void call(const char *line) {
    struct catalogue_reply reply =
        catalogue_continue(bytes_of(kept), size_of(kept), bytes_of(line), size_of(line), work, sizeof work, out, sizeof out);
    printf("> %s", line);
    fwrite(out, 1, reply.size, stdout);
    strncat(kept, line, sizeof kept - size_of(kept) - 1);
}

/* Election answers: greatest group, silent weight, total. The row past the first three makes the least common denominator too wide. */
static const uint32_t answers[][3] = {{1, 0, 524269}, {1, 0, 524261}, {1, 0, 524257}, {1, 0, 524243}};
static const uint32_t united[][3] = {{3, 1, 6}, {2, 0, 3}, {0, 0, 0}};

static void show_unity(const char *title, struct catalogue_unity_reply unity) {
    printf("%s: number=%u row=%zu mean=%llu/%llu least=%llu/%llu greatest=%llu/%llu won=%zu empty=%zu\n", title, (unsigned)unity.number, unity.row,
           (unsigned long long)unity.mean.numerator, (unsigned long long)unity.mean.denominator, (unsigned long long)unity.least.numerator,
           (unsigned long long)unity.least.denominator, (unsigned long long)unity.greatest.numerator, (unsigned long long)unity.greatest.denominator,
           unity.won, unity.empty);
}

int main(void) {
    const char *text = "edit=257 do=insert chip=5\n"
                       "edit=258 do=set chip=5 field=size value=8192\n"
                       "edit=513 do=set chip=5 field=size value=16384\n"
                       "left=257 rule=notafter right=258\n"
                       "left=257 rule=notafter right=513\n"
                       "left=257 rule=enables right=258\n"
                       "left=257 rule=enables right=513\n"
                       "left=258 rule=noncommuting right=513\n"
                       "left=513 rule=enables right=0\n";
    /* two edits, each of which must come before the other, and a third that needs both */
    const char *rivals = "edit=257 do=insert chip=1\n"
                         "edit=258 do=insert chip=2\n"
                         "edit=259 do=insert chip=3\n"
                         "left=257 rule=notafter right=258\n"
                         "left=257 rule=enables right=259\n"
                         "left=258 rule=notafter right=257\n"
                         "left=258 rule=enables right=259\n";
    show("check", catalogue_check(bytes_of(text), size_of(text)));
    show("check of a faulty text", catalogue_check(bytes_of("edit=257 do=insert chip=5\nedit=257 do=insert chip=6\n"), 52));
    show("report", catalogue_report(bytes_of(text), size_of(text), out, sizeof out));

    struct catalogue_reply same = catalogue_rewrite(bytes_of(text), size_of(text), out, sizeof out);
    printf("written back: %s\n", same.size == size_of(text) && memcmp(out, text, same.size) == 0 ? "the same bytes" : "other bytes");

    memset(out, '-', 8);
    struct catalogue_reply none = catalogue_report(bytes_of(text), size_of(text), out, 8);
    printf("a report in 8 bytes: number=%u, the buffer holds %.8s\n", (unsigned)none.number, (const char *)out);

    show("why 257", catalogue_why(bytes_of(text), size_of(text), 257, out, sizeof out));
    show("why 258", catalogue_why(bytes_of(text), size_of(text), 258, out, sizeof out));
    show("why 259", catalogue_why(bytes_of(text), size_of(text), 259, out, sizeof out));
    show("why an edit can never stand", catalogue_why(bytes_of(rivals), size_of(rivals), 259, out, sizeof out));

    show_room(text);

    show("a log", catalogue_replay(bytes_of("edit=257 do=insert chip=5\nask=page\n"), 35, work, sizeof work, out, sizeof out));
    call("edit=257 do=insert chip=5\n");
    call("edit=258 do=set chip=5 field=size value=8192\n");
    call("do=turn pages=-1\n");
    call("do=turn pages=-2\n");
    call("ask=page\n");
    call("do=turn pages=1\n");
    call("ask=catalogue\n");

    show_unity("three elections", catalogue_unity(united, 3));
    show_unity("three large totals", catalogue_unity(answers, 3));
    show_unity("a fourth", catalogue_unity(answers, 4));
    return 0;
}
