/* A small host: calls every function of saqhovune.h and checks what it is told. Compiled as C and as C++. */
#include "saqhovune.h"

#include <stdio.h>
#include <string.h>

#define MARK 0xA5A5A5A5A5A5A5A5u

static int faults = 0;

static void same_at(int line, uint64_t found, uint64_t expected) {
    if (found != expected) {
        printf("host.c:%d: %llu and not %llu\n", line, (unsigned long long)found, (unsigned long long)expected);
        faults++;
    }
}
#define same(found, expected) same_at(__LINE__, (found), (expected))

/* The words that every call writes, each marked before it. */
static uint64_t particulars[4];

static uint64_t *marked(void) {
    for (int i = 0; i < 4; i++) particulars[i] = MARK;
    return particulars;
}

/* The number that a call returned and its particulars. */
static void told_at(int line, uint64_t number, uint64_t expected, uint64_t a, uint64_t b, uint64_t c, uint64_t d) {
    same_at(line, number, expected);
    same_at(line, particulars[0], a);
    same_at(line, particulars[1], b);
    same_at(line, particulars[2], c);
    same_at(line, particulars[3], d);
}
#define told(number, expected, a, b, c, d) told_at(__LINE__, (number), (expected), (a), (b), (c), (d))

/* Bytes to be written: a set, a request, a class file. */
struct bytes {
    uint8_t at[1024];
    size_t len;
};

static void put(struct bytes *b, const void *from, size_t len) {
    memcpy(b->at + b->len, from, len);
    b->len += len;
}

static void put_byte(struct bytes *b, unsigned value) {
    b->at[b->len++] = (uint8_t)value;
}

static void put_two(struct bytes *b, unsigned value) {
    put_byte(b, value >> 8);
    put_byte(b, value & 0xFF);
}

static void put_name(struct bytes *b, const char *name) {
    put_byte(b, (unsigned)strlen(name));
    put(b, name, strlen(name));
}

/* The mark of a record; its body ends at close_record. */
static size_t open_record(struct bytes *b, const char *mark) {
    put(b, mark, 2);
    put_two(b, 0);
    return b->len;
}

static void close_record(struct bytes *b, size_t body) {
    b->at[body - 2] = (uint8_t)((b->len - body) >> 8);
    b->at[body - 1] = (uint8_t)((b->len - body) & 0xFF);
}

static void module(struct bytes *b, const char *name, unsigned automatic) {
    size_t body = open_record(b, "MO");
    put_two(b, 0);
    put_byte(b, automatic);
    put_name(b, name);
    put_byte(b, 0);
    close_record(b, body);
}

/* A requirement. Returns where its name starts. */
static size_t required(struct bytes *b, const char *name, unsigned flags) {
    size_t body = open_record(b, "RQ");
    put_two(b, flags);
    put_name(b, name);
    put_byte(b, 0);
    close_record(b, body);
    return body + 3;
}

/* A record of one name (US, PK, RT). Returns where the name starts. */
static size_t named(struct bytes *b, const char *mark, const char *name) {
    size_t body = open_record(b, mark);
    put_name(b, name);
    close_record(b, body);
    return body + 1;
}

/* A record of a name and a list of at most one (EX, PV). */
static void listed(struct bytes *b, const char *mark, const char *name, const char *other) {
    size_t body = open_record(b, mark);
    put_name(b, name);
    put_two(b, other != NULL);
    if (other != NULL) put_name(b, other);
    close_record(b, body);
}

static void add_read(struct bytes *b, const char *source, const char *target) {
    size_t body = open_record(b, "AR");
    put_name(b, source);
    put_name(b, target);
    close_record(b, body);
}

/* A constant Utf8 of a class file. */
static void utf8(struct bytes *b, const char *text) {
    put_byte(b, 1);
    put_byte(b, 0);
    put_name(b, text);
}

/* The class file of a module without requirements and packages. */
static void class_file(struct bytes *b, const char *name) {
    static const uint8_t head[] = {0xCA, 0xFE, 0xBA, 0xBE, 0, 0, 0, 61, 0, 6};
    static const uint8_t middle[] = {0x80, 0, 0, 2, 0, 0, 0, 0, 0, 0, 0, 0, 0, 1};
    static const uint8_t attribute[] = {0, 3, 0, 0, 0, 16, 0, 5, 0, 0, 0, 0, 0, 0, 0, 0, 0, 0, 0, 0, 0, 0};
    put(b, head, sizeof head);
    utf8(b, "module-info");
    put_byte(b, 7);
    put_two(b, 1);
    utf8(b, "Module");
    utf8(b, name);
    put_byte(b, 19);
    put_two(b, 4);
    put(b, middle, sizeof middle);
    put(b, attribute, sizeof attribute);
}

#define IN(b) (b).at, (b).len
#define NAME(text) (const uint8_t *)(text), sizeof(text) - 1

/* The positions of the set. */
enum { BASE, CORE, FOOT, FRAMES, SPARE, MODULES };
#define BIT(position) (UINT64_C(1) << (position))

/* Where the nine words of a position start. */
#define OWN(position) (8 + 9 * (position))

/* One place more than a configuration takes. */
static uint64_t words[SAQHOVUNE_WORDS + 1];

static void mark_words(void) {
    for (size_t i = 0; i <= SAQHOVUNE_WORDS; i++) words[i] = MARK;
}

static void words_are_marked(void) {
    for (size_t i = 0; i <= SAQHOVUNE_WORDS; i++) same(words[i], MARK);
}

static struct bytes set, request, none;

/* A row, and a word more that no call writes. */
static uint64_t row[9];

static void mark_row(void) {
    for (size_t i = 0; i < 9; i++) row[i] = MARK;
}

static void row_is_at(int line, uint64_t expected) {
    same_at(line, row[0], expected);
    for (size_t i = 1; i < 8; i++) same_at(line, row[i], 0);
    same_at(line, row[8], MARK);
}
#define row_is(expected) row_is_at(__LINE__, (expected))

/* page.core starts page.frames, and page.foot by its service; nothing starts page.spare. */
static void questions(void) {
    module(&set, "java.base", 0);
    module(&set, "page.core", 0);
    required(&set, "page.frames", 0x20);
    named(&set, "US", "page/Reader");
    module(&set, "page.foot", 0);
    required(&set, "page.frames", 0);
    listed(&set, "PV", "page/Reader", "page/foot/Impl");
    module(&set, "page.frames", 0);
    named(&set, "PK", "page/frame");
    listed(&set, "EX", "page/frame", NULL);
    module(&set, "page.spare", 0);
    named(&set, "PK", "page/spare");
    named(&request, "RT", "page.core");
    add_read(&request, "page.foot", "ALL-UNNAMED");

    told(saqhovune_check(IN(set), IN(request), marked()), 0, MODULES, 0, 0, 0);
    mark_words();
    told(saqhovune_resolve(IN(set), IN(request), words, SAQHOVUNE_WORDS + 1, marked()), 0, 4, 0, 0, 0);
    same(words[0], BIT(BASE) | BIT(CORE) | BIT(FOOT) | BIT(FRAMES));
    same(words[OWN(CORE)], BIT(BASE) | BIT(FRAMES));
    same(words[OWN(CORE) + 8], 0);
    same(words[OWN(FOOT)], BIT(BASE) | BIT(FRAMES));
    same(words[OWN(FOOT) + 8], 1);
    same(words[OWN(FRAMES)], BIT(BASE));
    for (size_t i = 1; i < 8; i++) same(words[i] | words[OWN(CORE) + i] | words[OWN(FOOT) + i] | words[OWN(FRAMES) + i], 0);
    for (size_t i = OWN(SPARE); i < SAQHOVUNE_WORDS; i++) same(words[i], 0);
    same(words[SAQHOVUNE_WORDS], MARK);

#define ASK(reflection, asker, target, package) \
    saqhovune_check_access(IN(set), IN(request), words, SAQHOVUNE_WORDS, reflection, NAME(asker), NAME(target), NAME(package), marked())
    told(ASK(false, "page.core", "page.frames", "page/frame"), 0, 0, 0, 0, 0);
    told(ASK(false, "page.frames", "page.core", "page/core"), 0, 1, 0, 0, 0);
    told(ASK(false, "page.core", "page.frames", "page/other"), 0, 2, 0, 0, 0);
    told(ASK(true, "page.core", "page.core", "page/core"), 0, 0, 0, 0, 0);
    told(ASK(true, "page.frames", "page.core", "page/core"), 0, 1, 0, 0, 0);
    told(ASK(true, "page.core", "page.frames", "page/frame"), 0, 3, 0, 0, 0);

#define OVER(function, ...) function(IN(set), words, SAQHOVUNE_WORDS, __VA_ARGS__, marked())
    told(OVER(saqhovune_can_read, NAME("page.foot"), NAME("page.frames")), 0, 1, 0, 0, 0);
    told(OVER(saqhovune_can_read, NAME("page.frames"), NAME("page.foot")), 0, 0, 0, 0, 0);
    told(OVER(saqhovune_find_module_for_package, NAME("page/frame")), 0, 1, FRAMES, 0, 0);
    told(OVER(saqhovune_find_module_for_package, NAME("page/spare")), 0, 0, 0, 0, 0);

    /* twice, the second time with bits that are ignored */
    for (int times = 0; times < 2; times++) {
        mark_row();
        told(OVER(saqhovune_readers_of, NAME("page.frames"), row), 0, 0, 0, 0, 0);
        row_is(BIT(CORE) | BIT(FOOT));
        mark_row();
        told(OVER(saqhovune_readers_of, NAME("ALL-UNNAMED"), row), 0, 0, 0, 0, 0);
        row_is(BIT(FOOT));
        mark_row();
        told(OVER(saqhovune_transitive_reads, NAME("page.core"), row), 0, 0, 0, 0, 0);
        row_is(BIT(BASE) | BIT(FRAMES));
        mark_row();
        told(OVER(saqhovune_transitive_reads, NAME("page.foot"), row), 0, 1, 0, 0, 0);
        row_is(BIT(BASE) | BIT(FRAMES));
        words[7] = words[OWN(CORE) + 7] = MARK;
        words[OWN(CORE) + 8] = ~UINT64_C(1);
        for (size_t i = OWN(MODULES); i < SAQHOVUNE_WORDS; i++) words[i] = MARK;
    }
}

/* Every call that is lent words, over so many of them: the same refusal, and nothing is written. */
static void lent_at(int line, const struct bytes *s, size_t count, uint64_t number, uint64_t a, uint64_t b) {
#define REFUSED(call) told_at(line, call, number, a, b, 0, 0)
    mark_words();
    mark_row();
    REFUSED(saqhovune_resolve(IN(*s), IN(request), words, count, marked()));
    REFUSED(saqhovune_check_access(IN(*s), IN(request), words, count, false, NAME("a"), NAME("a"), NAME("p"), marked()));
    REFUSED(saqhovune_check_access(IN(*s), IN(request), words, count, true, NAME("a"), NAME("a"), NAME("p"), marked()));
    REFUSED(saqhovune_can_read(IN(*s), words, count, NAME("a"), NAME("a"), marked()));
    REFUSED(saqhovune_find_module_for_package(IN(*s), words, count, NAME("p"), marked()));
    REFUSED(saqhovune_readers_of(IN(*s), words, count, NAME("a"), row, marked()));
    REFUSED(saqhovune_transitive_reads(IN(*s), words, count, NAME("a"), row, marked()));
    for (size_t i = 0; i < 9; i++) same_at(line, row[i], MARK);
    words_are_marked();
}
#define lent(s, count, number, a, b) lent_at(__LINE__, (s), (count), (number), (a), (b))

/* Too few words are told once the records are checked: before java.base is looked for, behind a malformed record. */
static void few_words(void) {
    static struct bytes broken;
    put(&broken, set.at, set.len);
    put(&broken, "XX", 2);
    for (size_t count = 0; count < SAQHOVUNE_WORDS; count += SAQHOVUNE_WORDS - 1) {
        lent(&set, count, 4, SAQHOVUNE_WORDS, 0);
        lent(&none, count, 4, SAQHOVUNE_WORDS, 0);
        lent(&broken, count, 1, 0, set.len);
    }
    lent(&broken, SAQHOVUNE_WORDS, 1, 0, set.len);
}

/* Refusals 5 to 7 of a resolution leave the words as they were. */
static void refusals(void) {
    mark_words();
    told(saqhovune_resolve(IN(none), IN(request), words, SAQHOVUNE_WORDS, marked()), 6, 0, 0, 0, 0);
    words_are_marked();

    size_t name = required(&set, "page.absent", 0);
    named(&request, "RT", "page.spare");
    told(saqhovune_resolve(IN(set), IN(request), words, SAQHOVUNE_WORDS, marked()), 5, 0, name, 11, 0);
    words_are_marked();

    module(&set, "page.absent", 0);
    name = named(&set, "PK", "page/frame");
    told(saqhovune_resolve(IN(set), IN(request), words, SAQHOVUNE_WORDS, marked()), 7, name, 10, FRAMES, SPARE + 1);
    words_are_marked();
}

static void readers(void) {
    static struct bytes file, packages, expected;
    uint8_t out[256], before[256];
    memset(before, 0xA5, sizeof before);

    class_file(&file, "page.foot");
    module(&expected, "page.foot", 0);
    memcpy(out, before, sizeof out);
    told(saqhovune_from_class_file(IN(file), out, expected.len - 1, marked()), 4, expected.len, 0, 0, 0);
    told(saqhovune_from_class_file(file.at, 9, out, sizeof out, marked()), 8, 0, 0, 0, 0);
    same(memcmp(out, before, sizeof out) == 0, true);
    told(saqhovune_from_class_file(IN(file), out, sizeof out, marked()), 0, expected.len, 0, 0, 0);
    same(memcmp(out, expected.at, expected.len) == 0, true);
    same(out[expected.len], 0xA5);

    expected.len = 0;
    named(&packages, "PK", "notes");
    module(&expected, "foot.notes", 1);
    required(&expected, "java.base", 0x8000);
    listed(&expected, "EX", "notes", NULL);
    listed(&expected, "OP", "notes", NULL);
    named(&expected, "PK", "notes");
#define JAR(jar, ...) saqhovune_automatic_from_jar_name(NAME(jar), __VA_ARGS__, IN(packages), out, sizeof out, marked())
    memcpy(out, before, sizeof out);
    told(JAR(".jar", false, IN(none)), 9, 0, 0, 0, 0);
    told(JAR("1.jar", true, NAME("foot-notes")), 10, 0, 0, 0, 0);
    same(memcmp(out, before, sizeof out) == 0, true);
    told(JAR("foot-notes-2.4.jar", false, IN(none)), 0, expected.len, 0, 0, 0);
    same(memcmp(out, expected.at, expected.len) == 0, true);
    memcpy(out, before, sizeof out);
    told(JAR("1.jar", true, NAME("foot.notes")), 0, expected.len, 0, 0, 0);
    same(memcmp(out, expected.at, expected.len) == 0, true);
    same(out[expected.len], 0xA5);
}

int main(void) {
    questions();
    few_words();
    refusals();
    readers();
    return faults != 0;
}
