/* GraphQL text from AST JSON, the form of graphql-js 16, by a printer of which it is proved that each text which it prints is read as the tree that
   was handed over, and as no other.

   Link libgraphql_ast_c.a, which has the calls, and liblibc_c.a of the toolchain, by which they ask malloc for memory. README.md shows how.

   Texts are UTF-8, go as a pointer and a number of bytes, and need no NUL behind them; none is written either. No pointer is NULL, also where the
   number is 0. What `out` and `needed` point to overlaps with nothing else that a call is given. Calls share nothing: several threads may call at
   once. A call keeps no memory. None may be made from a signal handler, or in the child of a fork of a process with threads. */
#ifndef GRAPHQL_AST_H
#define GRAPHQL_AST_H

#include <stdbool.h>
#include <stddef.h>
#include <stdint.h>

#ifdef __cplusplus
extern "C" {
#endif

#if defined(__GNUC__)
#define GRAPHQL_AST_NOT_NULL __attribute__((nonnull))
#else
#define GRAPHQL_AST_NOT_NULL
#endif

/* The version of this interface. It grows with each change of a call or a status. */
#define GRAPHQL_AST_VERSION 1

/* What a call answers. */
enum graphql_ast_status {
    /* The text stands at the front of `out`, `*needed` bytes. Behind it `out` is as it was. */
    GRAPHQL_AST_DONE = 0,
    /* It doesn't fit: `*needed` is how many bytes it has. Nothing is said of `out`. */
    GRAPHQL_AST_TOO_SHORT = 1,

    /* There is no text. At the front of `out` stands a message that says why, cut on a character to what fits, and `*needed` is how many bytes the
       whole message has. Behind it `out` is as it was. */

    /* The bytes are no JSON: no UTF-8, no JSON text, a number beyond a double, or arrays and objects in one another more than 127 deep. */
    GRAPHQL_AST_NOT_JSON = 2,
    /* The JSON is of no such tree. The message says where and why. */
    GRAPHQL_AST_NO_TREE = 3,
    /* No text is read as the tree, say a fragment named `on`, or a document without a definition. The message says which definition it is. */
    GRAPHQL_AST_ILL_FORMED = 4,
    /* The starting level and the nesting of the tree are above SIZE_MAX together. */
    GRAPHQL_AST_LEVEL_OVERFLOW = 5,
    /* Memory was refused. */
    GRAPHQL_AST_OUT_OF_MEMORY = 6,
    /* The prefix has other bytes than spaces and tabs. */
    GRAPHQL_AST_WRONG_PREFIX = 7
};

/* A document in AST JSON as GraphQL text.

   json, json_len      the JSON
   broken              whether the text has several lines. Each that isn't empty begins with the prefix as often as its level. Else it has one line
   prefix, prefix_len  spaces and tabs. It isn't read where the text has one line
   level               the level that the text begins at
   pass_over           whether a member that no node of its kind has is passed over. Else the JSON is refused
   out, out_len        where the text or the message goes, and how many bytes there are
   needed              how many bytes the text or the whole message has, SIZE_MAX for more

   Answers any status. DONE: the text is the layout of the document that the JSON is of, and is read as that document, and as no other. */
uint32_t graphql_ast_print_json(const char *json, size_t json_len, bool broken, const char *prefix, size_t prefix_len, size_t level, bool pass_over,
                                char *out, size_t out_len, size_t *needed) GRAPHQL_AST_NOT_NULL;

/* A value in AST JSON, as of an argument, as GraphQL text: the same of a value alone. */
uint32_t graphql_ast_print_value_json(const char *json, size_t json_len, bool broken, const char *prefix, size_t prefix_len, size_t level,
                                      bool pass_over, char *out, size_t out_len, size_t *needed) GRAPHQL_AST_NOT_NULL;

/* Whether some JSON is of a document that is well formed, which graphql_ast_print_json prints. Answers DONE, with 0 in `*needed`, or NOT_JSON,
   NO_TREE, ILL_FORMED or OUT_OF_MEMORY. */
uint32_t graphql_ast_check_json(const char *json, size_t json_len, bool pass_over, char *out, size_t out_len, size_t *needed) GRAPHQL_AST_NOT_NULL;

/* The AST JSON of a document in one form: each node has its kind, its location if there is one, and its members in one order; no member is null,
   and lists that may be left out are there. The document may be ill formed. Answers DONE, TOO_SHORT, NOT_JSON, NO_TREE or OUT_OF_MEMORY. */
uint32_t graphql_ast_write_json(const char *json, size_t json_len, bool pass_over, char *out, size_t out_len, size_t *needed) GRAPHQL_AST_NOT_NULL;

/* The version of the interface that the library has: GRAPHQL_AST_VERSION of its header. */
uint32_t graphql_ast_version(void);

#ifdef __cplusplus
}
#endif

#endif
