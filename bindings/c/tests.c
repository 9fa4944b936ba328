/* Tests of the calls through graphql_ast.h.

       tests CASES VECTORS     each case of both files, and each status by hand
       tests once CASES        each case of the file, in buffers as long as its text, a byte less and a byte more
       tests loop NUMBER CASES     each call so often, for a tool that finds leaks
       tests refuse CASES      each call with each of its allocations refused in turn. It is linked with --wrap=malloc and --wrap=realloc

   It prints what fails, and a last line; the exit status is 0 where nothing failed. */
#include "graphql_ast.h"
#include <stdio.h>
#include <stdlib.h>
#include <string.h>

static unsigned long checks;
static unsigned long failures;

#define CHECK(what)                                                      \
    do {                                                                 \
        checks++;                                                        \
        if (!(what)) {                                                   \
            failures++;                                                  \
            printf("%s:%d: failed: %s\n", __FILE__, __LINE__, #what);    \
        }                                                                \
    } while (0)

/* Allocations of the calls: the one with the number `refused` is refused, and how many there were is counted. */
static unsigned long refused;
static unsigned long asked;

#ifdef REFUSES
extern void *__real_malloc(size_t size);
extern void *__real_realloc(void *old, size_t size);
extern void *__wrap_malloc(size_t size);
extern void *__wrap_realloc(void *old, size_t size);

void *__wrap_malloc(size_t size) {
    return ++asked == refused ? NULL : __real_malloc(size);
}

void *__wrap_realloc(void *old, size_t size) {
    return ++asked == refused ? NULL : __real_realloc(old, size);
}
#endif

static const char QUERY[] = "{\"kind\":\"Document\",\"definitions\":[{\"kind\":\"OperationDefinition\",\"operation\":\"query\",\"selectionSet\":"
                            "{\"kind\":\"SelectionSet\",\"selections\":[{\"kind\":\"Field\",\"name\":{\"kind\":\"Name\",\"value\":\"a\"}}]}}]}";

/* A document of this fragment: ill formed where its name is `on`. */
#define FRAGMENT(NAME)                                                                                                                       \
    "{\"kind\":\"Document\",\"definitions\":[{\"kind\":\"ScalarTypeDefinition\",\"name\":{\"kind\":\"Name\",\"value\":\"A\"}},"              \
    "{\"kind\":\"FragmentDefinition\",\"name\":{\"kind\":\"Name\",\"value\":\"" NAME "\"},\"typeCondition\":{\"kind\":\"NamedType\","        \
    "\"name\":{\"kind\":\"Name\",\"value\":\"T\"}},\"selectionSet\":{\"kind\":\"SelectionSet\",\"selections\":[{\"kind\":\"Field\","         \
    "\"name\":{\"kind\":\"Name\",\"value\":\"a\"}}]}}]}"

typedef uint32_t print_call(const char *, size_t, bool, const char *, size_t, size_t, bool, char *, size_t, size_t *);

static print_call *const CALLS[] = {graphql_ast_print_json, graphql_ast_print_value_json};

struct a_case {
    unsigned call, status, broken, pass_over;
    size_t json_len, prefix_len, text_len, level;
    char *json, *prefix, *text;
};

static char *read_bytes(FILE *file, size_t length) {
    char *bytes = malloc(length + 1);
    if (!bytes || fread(bytes, 1, length, file) != length) {
        printf("a case is cut off\n");
        exit(2);
    }
    bytes[length] = 0;
    return bytes;
}

static int read_case(FILE *file, struct a_case *it) {
    if (fscanf(file, "%u %u %u %u %zu %zu %zu %zu", &it->call, &it->status, &it->broken, &it->pass_over, &it->json_len, &it->prefix_len,
               &it->text_len, &it->level) != 8 ||
        it->call > 1 || fgetc(file) != '\n')
        return 0;
    it->json = read_bytes(file, it->json_len);
    it->prefix = read_bytes(file, it->prefix_len);
    it->text = read_bytes(file, it->text_len);
    return fgetc(file) == '\n';
}

static void free_case(struct a_case *it) {
    free(it->json);
    free(it->prefix);
    free(it->text);
}

static uint32_t call(const struct a_case *it, char *out, size_t room, size_t *needed) {
    return CALLS[it->call](it->json, it->json_len, it->broken, it->prefix, it->prefix_len, it->level, it->pass_over, out, room, needed);
}

static int is_continuation(char byte) {
    return ((unsigned char)byte & 0xC0) == 0x80;
}

/* How much of a message stands in so much room. */
static size_t fitting(const char *message, size_t length, size_t room) {
    if (length <= room)
        return length;
    while (room > 0 && is_continuation(message[room]))
        room--;
    return room;
}

/* Calls with a buffer of exactly so many bytes, which was filled before, and checks all that stands in it. */
static void check_room(const struct a_case *it, const char *text, size_t length, size_t room) {
    char *out = malloc(room + 1);
    size_t needed = 77, kept, i;
    uint32_t status;
    memset(out, '#', room + 1);
    status = call(it, out, room, &needed);
    CHECK(needed == length);
    if (it->status == GRAPHQL_AST_DONE) {
        CHECK(status == (room < length ? GRAPHQL_AST_TOO_SHORT : GRAPHQL_AST_DONE));
        kept = status == GRAPHQL_AST_DONE ? length : room;
        CHECK(status != GRAPHQL_AST_DONE || memcmp(out, text, length) == 0);
    } else {
        CHECK(status == it->status);
        kept = fitting(text, length, room);
        CHECK(memcmp(out, text, kept) == 0);
    }
    for (i = kept; i <= room; i++)
        CHECK(out[i] == '#');
    free(out);
}

/* The case in a buffer with ample room, and in those of each length up to one byte more than it needs, or in the last three of these. */
static void check_case(const struct a_case *it, int each_length) {
    char *whole = malloc(1 << 16);
    size_t needed, room;
    uint32_t status = call(it, whole, 1 << 16, &needed);
    CHECK(status == it->status);
    CHECK(needed > 0 && needed < 1 << 16);
    if (it->text_len)
        CHECK(needed == it->text_len && memcmp(whole, it->text, needed) == 0);
    if (status == it->status && needed > 0 && needed < 1 << 16)
        for (room = each_length ? 0 : needed - 1; room <= needed + 1; room++)
            check_room(it, whole, needed, room);
    free(whole);
}

static unsigned long check_cases(const char *path, int each_length) {
    FILE *file = fopen(path, "rb");
    struct a_case it;
    unsigned long cases = 0;
    if (!file) {
        printf("no file %s\n", path);
        exit(2);
    }
    for (; read_case(file, &it); cases++) {
        check_case(&it, each_length);
        free_case(&it);
    }
    fclose(file);
    printf("%lu cases of %s\n", cases, path);
    return cases;
}

static struct a_case by_hand(unsigned status, const char *json, size_t json_len, const char *prefix, size_t prefix_len, size_t level) {
    struct a_case it = {0, status, 1, 0, json_len, prefix_len, 0, level, (char *)json, (char *)prefix, (char *)""};
    return it;
}

/* Whether a document is answered so, with this message or text, in buffers of all lengths. */
static void check_answer(unsigned status, const char *json, size_t json_len, const char *prefix, size_t prefix_len, size_t level, const char *text) {
    struct a_case it = by_hand(status, json, json_len, prefix, prefix_len, level);
    it.text = (char *)text;
    it.text_len = strlen(text);
    check_case(&it, 1);
}

#define TEXT(LITERAL) LITERAL, sizeof LITERAL - 1

static void check_statuses(void) {
    static const char nul_inside[] = "{\"kind\"\0:1}", nul_behind[] = "{\"kind\":\"Document\",\"definitions\":[]}\0";
    check_answer(GRAPHQL_AST_DONE, TEXT(QUERY), TEXT("  "), 0, "{\n  a\n}\n");
    check_answer(GRAPHQL_AST_DONE, TEXT(QUERY), TEXT("\t"), 1, "\tquery {\n\t\ta\n\t}\n");
    check_answer(GRAPHQL_AST_DONE, TEXT(FRAGMENT("f")), TEXT(""), 0, "scalar A\n\nfragment f on T {\na\n}\n");
    check_answer(GRAPHQL_AST_NOT_JSON, TEXT(""), TEXT("  "), 0, "");
    check_answer(GRAPHQL_AST_NOT_JSON, TEXT("{\"kind\":"), TEXT("  "), 0, "");
    check_answer(GRAPHQL_AST_NOT_JSON, TEXT("\"\xFF\""), TEXT("  "), 0, "");
    check_answer(GRAPHQL_AST_NOT_JSON, TEXT(nul_inside), TEXT("  "), 0, "");
    check_answer(GRAPHQL_AST_NOT_JSON, TEXT(nul_behind), TEXT("  "), 0, "");
    check_answer(GRAPHQL_AST_NO_TREE, TEXT("{\"kind\":\"D\xC3\xA4\"}"), TEXT("  "), 0,
                 "at `kind`: found the kind `D\xC3\xA4` where Document was wanted");
    check_answer(GRAPHQL_AST_ILL_FORMED, TEXT(FRAGMENT("on")), TEXT("  "), 0, "at `definitions[1].name.value`: a fragment named `on`: `on`");
    check_answer(GRAPHQL_AST_ILL_FORMED, TEXT("{\"kind\":\"Document\",\"definitions\":[]}"), TEXT("  "), 0,
                 "at the root: a document without a definition");
    check_answer(GRAPHQL_AST_LEVEL_OVERFLOW, TEXT(QUERY), TEXT(""), SIZE_MAX, "indentation level overflow");
    check_answer(GRAPHQL_AST_WRONG_PREFIX, TEXT(QUERY), TEXT(" x"), 0, "the prefix has other bytes than spaces and tabs");
    check_answer(GRAPHQL_AST_WRONG_PREFIX, TEXT(QUERY), TEXT(" \0"), 0, "the prefix has other bytes than spaces and tabs");
    check_answer(GRAPHQL_AST_WRONG_PREFIX, TEXT(QUERY), TEXT("\xFF"), 0, "the prefix has other bytes than spaces and tabs");
    CHECK(graphql_ast_version() == GRAPHQL_AST_VERSION);
}

/* A NUL of a string is written as an escape; one that stands in a name is refused. */
static void check_nul(void) {
    char out[200];
    size_t needed;
    CHECK(graphql_ast_print_value_json(TEXT("{\"kind\":\"StringValue\",\"value\":\"a\\u0000b\"}"), false, "", 0, 0, false, out, sizeof out, &needed) ==
          GRAPHQL_AST_DONE);
    CHECK(needed == 10 && memcmp(out, "\"a\\u0000b\"", 10) == 0);
    CHECK(graphql_ast_print_value_json(TEXT("{\"kind\":\"EnumValue\",\"value\":\"a\\u0000b\"}"), false, "", 0, 0, false, out, sizeof out, &needed) ==
          GRAPHQL_AST_NO_TREE);
}

static void check_others(void) {
    static const char normal[] = "{\"kind\":\"Document\",\"definitions\":[{\"kind\":\"OperationDefinition\",\"operation\":\"query\","
                                 "\"variableDefinitions\":[],\"directives\":[],\"selectionSet\":{\"kind\":\"SelectionSet\",\"selections\":"
                                 "[{\"kind\":\"Field\",\"name\":{\"kind\":\"Name\",\"value\":\"a\"},\"arguments\":[],\"directives\":[]}]}}]}";
    char out[1000], again[1000];
    size_t needed = 77, first;
    memset(out, '#', sizeof out);
    CHECK(graphql_ast_check_json(TEXT(QUERY), false, out, sizeof out, &needed) == GRAPHQL_AST_DONE && needed == 0 && out[0] == '#');
    CHECK(graphql_ast_check_json(TEXT(FRAGMENT("on")), false, out, 5, &needed) == GRAPHQL_AST_ILL_FORMED);
    CHECK(needed == strlen("at `definitions[1].name.value`: a fragment named `on`: `on`") && memcmp(out, "at `d#", 6) == 0);
    CHECK(graphql_ast_check_json(TEXT("7"), false, out, sizeof out, &needed) == GRAPHQL_AST_NO_TREE);
    CHECK(graphql_ast_check_json(TEXT(""), false, out, sizeof out, &needed) == GRAPHQL_AST_NOT_JSON);
    CHECK(graphql_ast_write_json(TEXT(QUERY), false, out, 0, &first) == GRAPHQL_AST_TOO_SHORT);
    CHECK(graphql_ast_write_json(TEXT(QUERY), false, out, first, &needed) == GRAPHQL_AST_DONE && needed == first);
    CHECK(needed == sizeof normal - 1);
    CHECK(graphql_ast_write_json(out, first, false, again, sizeof again, &needed) == GRAPHQL_AST_DONE);
    CHECK(needed == first && memcmp(out, again, first) == 0);
    CHECK(graphql_ast_write_json(TEXT("7"), false, out, sizeof out, &needed) == GRAPHQL_AST_NO_TREE);
}

/* A prefix of 1 MB: the field's line begins with it, at level 1. */
static void check_long_prefix(void) {
    size_t length = 1 << 20, needed = 0;
    char *prefix = malloc(length), *out = malloc(length + 100);
    memset(prefix, '\t', length);
    CHECK(graphql_ast_print_json(TEXT(QUERY), true, prefix, length, 0, false, out, 0, &needed) == GRAPHQL_AST_TOO_SHORT);
    CHECK(needed == length + 6);
    CHECK(graphql_ast_print_json(TEXT(QUERY), true, prefix, length, 0, false, out, needed, &needed) == GRAPHQL_AST_DONE);
    CHECK(memcmp(out, "{\n", 2) == 0 && memcmp(out + 2, prefix, length) == 0 && memcmp(out + 2 + length, "a\n}\n", 4) == 0);
    prefix[length - 1] = 'x';
    CHECK(graphql_ast_print_json(TEXT(QUERY), true, prefix, length, 0, false, out, length, &needed) == GRAPHQL_AST_WRONG_PREFIX);
    free(prefix);
    free(out);
}

/* JSON of 10 MB: so many definitions of a scalar type. */
static void check_long_json(void) {
    static const char item[] = "{\"kind\":\"ScalarTypeDefinition\",\"name\":{\"kind\":\"Name\",\"value\":\"Abcdefg\"}},";
    static const char text[] = "scalar Abcdefg\n\n";
    size_t count = 10000000 / (sizeof item - 1) + 1, at, needed, i;
    char *json = malloc(count * (sizeof item - 1) + 100), *out = malloc(count * (sizeof text - 1));
    at = (size_t)sprintf(json, "{\"kind\":\"Document\",\"definitions\":[");
    for (i = 0; i < count; i++, at += sizeof item - 1)
        memcpy(json + at, item, sizeof item - 1);
    memcpy(json + at - 1, "]}", 2);
    CHECK(at > 10000000);
    CHECK(graphql_ast_print_json(json, at + 1, true, TEXT("  "), 0, false, out, count * (sizeof text - 1), &needed) == GRAPHQL_AST_DONE);
    CHECK(needed == count * (sizeof text - 1) - 1);
    for (i = 0; i + 1 < count; i++)
        if (memcmp(out + i * (sizeof text - 1), text, sizeof text - 1) != 0)
            break;
    CHECK(i + 1 == count);
    free(json);
    free(out);
}

/* Each call of each case, and what else is called, some times. */
static void loop(const char *path, unsigned long number) {
    unsigned long made = 0;
    while (made < number) {
        FILE *file = fopen(path, "rb");
        struct a_case it;
        char out[512];
        size_t needed;
        if (!file)
            exit(2);
        while (made < number && read_case(file, &it)) {
            call(&it, out, sizeof out, &needed);
            graphql_ast_check_json(it.json, it.json_len, it.pass_over, out, sizeof out, &needed);
            graphql_ast_write_json(it.json, it.json_len, it.pass_over, out, sizeof out, &needed);
            made += 3;
            free_case(&it);
        }
        fclose(file);
    }
    printf("%lu calls\n", made);
}

static uint32_t any_call(const struct a_case *it, int which, char *out, size_t room, size_t *needed) {
    return which == 0   ? call(it, out, room, needed)
           : which == 1 ? graphql_ast_check_json(it->json, it->json_len, it->pass_over, out, room, needed)
                        : graphql_ast_write_json(it->json, it->json_len, it->pass_over, out, room, needed);
}

/* A case with each allocation refused in turn: each time OUT_OF_MEMORY, or the answer that comes with ample memory, where the call did without. */
static unsigned long refuse_case(const struct a_case *it, int which) {
    static char wanted[1 << 16], out[1 << 16];
    size_t wanted_len, needed;
    unsigned long number, most;
    uint32_t answer, status;
    refused = 0;
    asked = 0;
    answer = any_call(it, which, wanted, sizeof wanted, &wanted_len);
    most = asked;
    for (number = 1; number <= most; number++) {
        memset(out, '#', sizeof out);
        refused = number;
        asked = 0;
        status = any_call(it, which, out, sizeof out, &needed);
        refused = 0;
        CHECK(status == GRAPHQL_AST_OUT_OF_MEMORY);
        CHECK(needed == strlen("out of memory") && memcmp(out, "out of memory#", needed + 1) == 0);
    }
    CHECK(any_call(it, which, out, sizeof out, &needed) == answer && needed == wanted_len);
    return most;
}

static void refuse(const char *path) {
    FILE *file = fopen(path, "rb");
    struct a_case it;
    unsigned long growths = 0;
    int which;
    if (!file)
        exit(2);
    while (read_case(file, &it)) {
        for (which = 0; which < 3; which++)
            growths += refuse_case(&it, which);
        free_case(&it);
    }
    fclose(file);
    CHECK(growths > 1000);
    printf("%lu allocations were refused\n", growths);
}

int main(int count, char **words) {
    if (count == 4 && !strcmp(words[1], "loop"))
        loop(words[3], strtoul(words[2], NULL, 10));
    else if (count == 3 && !strcmp(words[1], "refuse"))
        refuse(words[2]);
    else if (count == 3 && !strcmp(words[1], "once"))
        CHECK(check_cases(words[2], 0) > 800);
    else if (count == 3) {
        check_statuses();
        check_nul();
        check_others();
        check_long_prefix();
        check_long_json();
        CHECK(check_cases(words[1], 1) > 800);
        CHECK(check_cases(words[2], 1) == 12);
    } else
        return 2;
    printf("%lu checks, %lu failed\n", checks, failures);
    return failures != 0;
}
