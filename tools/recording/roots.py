"""From where a program comes to its objects: the variables of watched modules and of their classes, and those of running frames."""
import sys
from _thread import get_ident

from recording.rewriting import USE
from recording.roles import copies, is_object, same

space_of = type.__dict__["__dict__"].__get__           # the variables of a class, whatever its metaclass answers

ALONE = 3                  # references to what a frame holds, a variable, and a function that counts them
CO_OPTIMIZED = 1           # the flag of code whose variables stand in no dictionary


def is_own(name):
    """Whether a name is one that the program gave."""
    return type(name) is str and name != USE and not (name.startswith("__") and name.endswith("__"))


def is_class(value):
    """Asked of its type, since a program may answer for `isinstance`."""
    return issubclass(type(value), type)


def variables_of(space, called):
    """The variables of a module and of its classes, as pairs of a name and a value."""
    for name, value in list(space.items()):
        if not is_own(name):
            continue
        if not is_class(value):
            yield f"{called}.{name}", value
        elif space_of(value).get("__module__") == space.get("__name__"):
            for inner, held in list(space_of(value).items()):
                if is_own(inner):
                    yield f"{called}.{name}.{inner}", held


class Modules:
    """The variables of the watched modules and of their classes, and what they hold."""

    def __init__(self):
        self.called = []       # for each module its variables, and the name that is told of it
        self.spaces = []       # for each module and each class its variables, with names and values as they were
        self.held = []
        self.known = 0         # how many modules there were then

    def add(self, module, called):
        self.called.append((module.__dict__, called))

    def variables(self):
        for space, called in self.called:
            yield from variables_of(space, called)

    def values(self):
        """The objects that variables hold. They are gone through where a name or a value is another one than the last time."""
        if self.known != len(self.called) or not self.are_as_they_were():
            self.known = len(self.called)
            self.spaces = [(space, list(space), list(space.values())) for space in self.all_spaces()]
            self.held = [value for _, value in self.variables() if is_object(value)]
        return self.held

    def all_spaces(self):
        for space, _ in self.called:
            yield space
            yield from [space_of(value) for value in space.values() if is_class(value)]

    def are_as_they_were(self):
        return all(same(list(space), names) and same(list(space.values()), values) for space, names, values in self.spaces)

    def names(self):
        """The first name of each object that a variable holds, by the identity of the object."""
        names = {}
        for name, value in self.variables():
            names.setdefault(id(value), name)
        return names


def frame_values(top):
    """What the variables of running frames of watched modules hold: of this thread from `top` on,
    and of all others."""
    forget_copies()
    frames = sys._current_frames()
    frames[get_ident()] = top
    values = [value for first in frames.values() for value in values_of(first)]
    return list({id(value): value for value in values if is_object(value)}.values())


def values_of(frame):
    """What the variables hold of a frame and its callers, as far as they are of watched modules."""
    while frame:
        if USE in frame.f_globals and frame.f_code.co_name != "<module>":
            yield from frame.f_locals.values()
            empty_copy(frame)
        frame = frame.f_back


def empty_copy(frame):
    """A frame whose variables are asked for keeps a copy of them, which would hold its things for as long as it runs. Where the
    program has not asked for the copy too, it is emptied, and is no object of the program."""
    variables = frame.f_locals
    if frame.f_code.co_flags & CO_OPTIMIZED and type(variables) is dict:
        if sys.getrefcount(variables) == ALONE + (id(variables) in copies):
            copies[id(variables)] = variables
            variables.clear()
        else:
            copies.pop(id(variables), None)


def forget_copies():
    """Lets go the copies whose frames are gone."""
    for identity in list(copies):
        if sys.getrefcount(copies[identity]) == ALONE - 1:
            del copies[identity]
