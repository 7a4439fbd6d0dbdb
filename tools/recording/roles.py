"""Which things of a program are objects of its trace, and what is known of one.

All that is known of a thing is told by its type and by the list of what it refers to, as `gc.get_referents` has it. So a thing
whose list has the same things in it, one by one, is as it was. Two sorts of things are looked at singly each time: those of a few
types hold bytes of which no list tells, which are BUFFER, and suspended functions may have a copy of their variables that is not
the program's.
"""
import array
import ctypes
import gc
import io
import sys
import types
from _tracemalloc import is_tracing
from operator import is_

NOTHING, NUMBER, TEXT, FUNCTION, BUFFER, OBJECT = range(6)
LONG = 200                 # characters from which a text is an object of its own; a shorter one counts as words of what holds it
WORD = 8
HAS_DICT_BEFORE = 1 << 4 if sys.version_info[:2] == (3, 11) else 0      # a flag of types

_no_objects = (type, types.ModuleType, types.CodeType, types.FrameType, types.TracebackType, type(None), type(...),
               type(NotImplemented), types.GetSetDescriptorType, types.MemberDescriptorType, types.WrapperDescriptorType,
               types.MethodDescriptorType, types.ClassMethodDescriptorType)
_suspended = (types.GeneratorType, types.CoroutineType, types.AsyncGeneratorType)
_numbers = (int, float, complex)
_buffers = (bytearray, array.array, io.BytesIO, io.StringIO)

name_of = type.__dict__["__name__"].__get__           # of a type, whatever its metaclass answers
size_of = type.__dict__["__basicsize__"].__get__


class Roles(dict):
    """The role of each type, found when it is first asked for."""

    def __missing__(self, kind):
        if kind in _numbers:
            role = NUMBER
        elif kind is bool or issubclass(kind, _no_objects):
            role = NOTHING
        elif kind in (str, bytes):
            role = TEXT
        elif issubclass(kind, _buffers):
            role = BUFFER
        else:
            role = FUNCTION if kind is types.FunctionType else OBJECT
        self[kind] = role
        return role


ROLES = Roles()
hidden = set()             # what belongs to this tool and is a thing of the program all the same, by its id
copies = {}                # the copies of their variables that frames were made to have, by their id


def is_object(thing):
    role = ROLES[type(thing)]
    if role is TEXT:
        return len(thing) >= LONG
    return role > TEXT and id(thing) not in hidden


def referents(thing):
    """What a thing refers to."""
    found = gc.get_referents(thing)
    return [other for other in found if id(other) not in copies] if type(thing) in _suspended else found


def is_looked_at_singly(thing):
    """Whether what is known of a thing is not all told by `gc.get_referents`."""
    return type(thing) in _suspended or ROLES[type(thing)] is BUFFER


def same(these, those):
    """Whether two lists hold the same things. No `==` is asked for, which could be code of the program."""
    return len(these) == len(those) and all(map(is_, these, those))


def identities(things):
    """The identities of the things in a tuple, as bytes: these are compared in a fraction of the time."""
    return bytes(array.array("Q", map(id, things)))


def stored_identities(things, begin=tuple.__basicsize__, read=ctypes.string_at):
    """The same where a tuple has the addresses of its things after its head, and identities are addresses, as in CPython."""
    return read(id(things) + begin, WORD * len(things))


if sys.implementation.name == "cpython" and all(stored_identities(some) == identities(some) for some in ((), (WORD,), (Roles, ROLES))):
    identities = stored_identities


def kind_of(thing):
    return name_of(type(thing))


def place_of(thing):
    """The file and line at which the thing was made, where `tracemalloc` saw it."""
    if not is_tracing():
        return None
    import tracemalloc         # it takes a while, and most recordings do without
    found = tracemalloc.get_object_traceback(thing)
    if found:
        return f"{found[-1].filename}:{found[-1].lineno}"
    lines = lines_before(thing) if type(thing).__flags__ & HAS_DICT_BEFORE else None
    return "{}:{}".format(*lines[0]) if lines else None


def lines_before(thing):
    """The lines by which an object was made whose variables stand before it: Python 3.11 asks for another address than it noted."""
    ask = ctypes.pythonapi._PyTraceMalloc_GetTraceback
    ask.restype, ask.argtypes = ctypes.py_object, (ctypes.c_uint, ctypes.c_size_t)
    return ask(0, id(thing) - 4 * WORD)


def is_fixed(thing):
    """Whether what the thing refers to never changes."""
    return type(thing) in (tuple, frozenset, str, bytes)


def own_words(thing):
    """The words that a thing takes by itself."""
    kind = type(thing)
    if kind in (str, bytes):
        return 7 + len(thing) // WORD
    return size_of(kind) // WORD + 2 + (sys.getsizeof(thing) // WORD if ROLES[kind] is BUFFER else 0)


def parts(thing, found):
    """The objects in a list of things that a thing refers to, and the words that the thing takes for all of the list."""
    apart = (id(thing.__globals__), id(thing.__builtins__)) if type(thing) is types.FunctionType else ()
    objects, words, roles = [], len(found), ROLES
    for other in found:
        role = roles[type(other)]
        if role is OBJECT:
            if not apart or id(other) not in apart:
                objects.append(other)
        elif role is TEXT:
            if len(other) >= LONG:
                objects.append(other)
            else:
                words += 7 + len(other) // WORD
        elif role is NUMBER:
            words += 3
        elif role is not NOTHING and id(other) not in hidden:
            objects.append(other)
    return objects, words


def difference(before, now):
    """What two lists have between what they begin and end with alike: two lists again."""
    begin = first_difference(before, now)
    before, now = before[begin:], now[begin:]
    end = first_difference(before[::-1], now[::-1])
    return (before[:-end], now[:-end]) if end else (before, now)


def first_difference(these, those):
    alike = list(map(is_, these, those))
    return alike.index(False) if False in alike else len(alike)
