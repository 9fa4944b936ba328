"""GraphQL text from AST JSON, the form of graphql-js 16, by a printer of which it is proved that each text which it prints is read as the tree that was
handed over, and as no other.

    >>> import graphql_ast
    >>> graphql_ast.print_value('{"kind":"ListValue","values":[{"kind":"IntValue","value":"4"}]}', prefix=None)
    '[4]'

The module calls a shared object of the library, libgraphql_ast.so beside it, or where the environment variable GRAPHQL_AST_SO says. Calls share nothing, and
let other threads run meanwhile.
"""
import ctypes
import os
import pathlib

VERSION = 1


class Error(ValueError):
    """There is no text: `str` of it says why."""


class NotJson(Error):
    """The text is no JSON."""


class NoTree(Error):
    """The JSON is of no such tree."""


class IllFormed(Error):
    """No text is read as the tree."""


class LevelOverflow(Error):
    """The starting level and the nesting of the tree don't fit into 64 bits together."""


class OutOfMemory(Error, MemoryError):
    """Memory was refused."""


class WrongPrefix(Error):
    """The prefix has other characters than spaces and tabs."""


_DONE, _TOO_SHORT = 0, 1
_ERRORS = {2: NotJson, 3: NoTree, 4: IllFormed, 5: LevelOverflow, 6: OutOfMemory, 7: WrongPrefix}
_TEXT = [ctypes.c_char_p, ctypes.c_size_t]
_OUT = [ctypes.c_char_p, ctypes.c_size_t, ctypes.POINTER(ctypes.c_size_t)]


def _load():
    path = os.environ.get("GRAPHQL_AST_SO") or pathlib.Path(__file__).with_name("libgraphql_ast.so")
    library = ctypes.CDLL(os.fspath(path))
    printed = [*_TEXT, ctypes.c_bool, *_TEXT, ctypes.c_size_t, ctypes.c_bool, *_OUT]
    checked = [*_TEXT, ctypes.c_bool, *_OUT]
    for name, wants in {
        "graphql_ast_print_json": printed,
        "graphql_ast_print_value_json": printed,
        "graphql_ast_check_json": checked,
        "graphql_ast_write_json": checked,
        "graphql_ast_version": [],
    }.items():
        call = getattr(library, name)
        call.argtypes, call.restype = wants, ctypes.c_uint32
    if library.graphql_ast_version() != VERSION:
        raise ImportError(f"{path} has version {library.graphql_ast_version()} of the interface, and not {VERSION}")
    return library


_library = _load()


def _text_of(call, first, *arguments):
    """Calls with a buffer of some length, and once more with one as long as it takes, where that is too short."""
    needed, room = ctypes.c_size_t(), first
    while True:
        out = ctypes.create_string_buffer(room)
        status = call(*arguments, out, room, needed)
        if needed.value <= room:
            break
        room = needed.value
    text = ctypes.string_at(out, needed.value).decode("utf-8")
    if status != _DONE:
        raise _ERRORS[status](text)
    return text


def _print_by(call, json, prefix, level, pass_over):
    if not 0 <= level < 2 ** (8 * ctypes.sizeof(ctypes.c_size_t)):
        raise OverflowError("the level is below 0, or above 64 bits")
    json, blanks = json.encode("utf-8", "surrogatepass"), (prefix or "").encode("utf-8", "surrogatepass")
    return _text_of(call, len(json) + 64, json, len(json), prefix is not None, blanks, len(blanks), level, pass_over)


def print(json, prefix="  ", level=0, pass_over=False):
    """A document in AST JSON as GraphQL text.

    prefix: spaces and tabs, with which each line begins that isn't empty, as often as its level; None for a text on one line.
    level: the level that the text begins at.
    pass_over: whether a member that no node of its kind has is passed over. Else the JSON is refused.

    Raises an Error where there is no text.
    """
    return _print_by(_library.graphql_ast_print_json, json, prefix, level, pass_over)


def print_value(json, prefix="  ", level=0, pass_over=False):
    """A value in AST JSON as GraphQL text."""
    return _print_by(_library.graphql_ast_print_value_json, json, prefix, level, pass_over)


def check(json, pass_over=False):
    """Raises an Error where the JSON is of no document that is well formed."""
    json = json.encode("utf-8", "surrogatepass")
    _text_of(_library.graphql_ast_check_json, 200, json, len(json), pass_over)


def normalize(json, pass_over=False):
    """The AST JSON of a document in one form."""
    json = json.encode("utf-8", "surrogatepass")
    return _text_of(_library.graphql_ast_write_json, len(json) + 64, json, len(json), pass_over)
