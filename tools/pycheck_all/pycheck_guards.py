"""The border of a checked core: here guards ask whether values from outside keep the promise of the core's report.

Copied by pycheck-all --guards beside the guards that it makes, and not to be changed. Each value that a call can reach
is examined: its exact type, its contents, and that no list and no dict is reached at two types. A misfit raises a
TypeError that says where it is.
"""
from __future__ import annotations

import functools
import hashlib
import re
from types import FunctionType, ModuleType
from typing import Any, Callable, Dict, List, Mapping, NoReturn, Optional, Sequence, Tuple, TypeVar, cast

F = TypeVar("F", bound=Callable[..., Any])
# The whole numbers of the model of runs have 128 bits, one of them for the sign
LEAST, MOST = -(2**127), 2**127 - 1
TOKEN = re.compile(r"\w+|[\[\](),|]")
# How many steps of a path, and characters of a key, a message shows
STEPS, LETTERS = 16, 40
# How a message calls the instance whose method is called
RECEIVER = "self"
# Reads the name of a type, even if its metaclass defines another `__name__`
NAME: Any = vars(type)["__name__"]


class Misfit(TypeError):
    """Raised for a value from outside that none of the core's types has."""


class Type:
    """A type: for each exact type of its values, by its `id`, the kind that such a value must be. Equal types are one
    object."""

    def __init__(self, text: str, members: Dict[int, Kind]) -> None:
        self.text, self.members = text, members


class Kind:
    """The requirements on the values of one exact type; here, on numbers, truth values, strings and None.

    `located`: the core may write into the value, so it has one kind in a call. `loose`: only `Any` and `object` reach
    it."""

    plain, located, loose = True, False, False
    text = ""

    def open(self, walk: Walk, entry: Entry) -> None:
        """Visits the contents of a value."""


class ListOf(Kind):
    """A list whose items are of a type."""

    plain = False
    located = True

    def __init__(self, text: str, item: Type, loose: bool = False) -> None:
        self.text, self.item, self.loose = text, item, loose

    def open(self, walk: Walk, entry: Entry) -> None:
        """Visits the items."""
        for at, item in enumerate(entry[0]):
            walk.meet(item, self.item, entry, at)


class DictOf(Kind):
    """A dict whose keys and values are of two types."""

    plain = False
    located = True

    def __init__(self, text: str, key: Type, value: Type, loose: bool = False) -> None:
        self.text, self.key, self.value, self.loose = text, key, value, loose

    def open(self, walk: Walk, entry: Entry) -> None:
        """Visits the keys and the values."""
        for key, value in entry[0].items():
            walk.meet(key, self.key, entry, (key,))
            walk.meet(value, self.value, entry, key)


class TupleOf(Kind):
    """A tuple with a type for each item."""

    plain = False

    def __init__(self, text: str, items: List[Type]) -> None:
        self.text, self.items = text, items

    def open(self, walk: Walk, entry: Entry) -> None:
        """Visits the items; there must be as many as types."""
        if len(entry[0]) != len(self.items):
            walk.refuse(entry[2], entry[3], f"expected {self.text}, found a tuple of length {len(entry[0])}")
        for at, (item, wanted) in enumerate(zip(entry[0], self.items)):
            walk.meet(item, wanted, entry, at)


class AnyTuple(ListOf):
    """A tuple of any values."""

    located = False


class InstanceOf(Kind):
    """An instance of exactly this class, with its fields and nothing else."""

    plain = False
    located = True

    def __init__(self, text: str) -> None:
        self.text = text
        self.fields: Dict[str, Type] = {}

    def open(self, walk: Walk, entry: Entry) -> None:
        """Visits the values of the fields, which must be those of the class."""
        fields: Any = vars(entry[0])
        walk.own(fields, entry)
        if len(fields) < len(self.fields):
            found = {name for name in fields if type(name) is str}
            missing = ", ".join(name for name in self.fields if name not in found)
            walk.refuse(entry[2], entry[3], f"expected {self.text}, found one without {missing}")
        for name, value in fields.items():
            wanted = self.fields.get(name) if type(name) is str else None
            if wanted is None:
                walk.refuse(entry[2], entry[3], f"expected {self.text}, found one that also has {key_text(name)}")
            walk.meet(value, wanted, entry, name)


# A visited value, its kind, the entry that contains it, and the step from there: an index, a key, the name of a field,
# or a key of a dict itself in a tuple
Entry = Tuple[Any, Kind, Optional[Any], Any]
NUMBER, ATOM = Kind(), Kind()


class Walk:
    """A walk over all values that a call can reach. The entries keep visited values alive, so that an `id` identifies
    one."""

    def __init__(self) -> None:
        self.met: Dict[int, Entry] = {}
        self.entries: List[Entry] = []

    def meet(self, value: Any, wanted: Type, inside: Optional[Entry], step: Any) -> None:
        """Records a value that must be of a type, to be opened later; raises Misfit if it is not."""
        kind = wanted.members.get(id(type(value)))
        if kind is None:
            self.refuse(inside, step, f"expected {wanted.text}, found {kind_text(value)}")
        if kind.plain:
            if kind is NUMBER and not LEAST <= value <= MOST:
                self.refuse(inside, step, f"expected {wanted.text}, found a number of more than 128 bits")
            return
        entry = (value, kind, inside, step)
        known = self.met.get(id(value))
        if known is not None:
            if known[0] is not value:
                self.refuse(inside, step, f"found the fields of {path_of(known[2], known[3])} themselves")
            if known[1] is kind or kind.loose:
                return
            if kind.located and not known[1].loose:
                found = f"a {known[1].text}, the one at {path_of(known[2], known[3])}"
                self.refuse(inside, step, f"expected {wanted.text}, found {found}")
        self.met[id(value)] = entry
        self.entries.append(entry)

    def own(self, fields: Dict[str, Any], entry: Entry) -> None:
        """Records the dict in which an instance has its fields; raises Misfit if something else reaches it."""
        if type(fields) is not dict or id(fields) in self.met:
            self.refuse(entry[2], entry[3], f"expected {entry[1].text}, found one whose fields are a dict of others")
        self.met[id(fields)] = entry

    def open_all(self) -> None:
        """Visits the contents of all values that were visited, and of those visited then."""
        for entry in self.entries:
            entry[1].open(self, entry)

    def refuse(self, inside: Optional[Entry], step: Any, text: str) -> NoReturn:
        """Raises the misfit of the value at a step."""
        raise Misfit(f"{path_of(inside, step)}: {text}")


def named(text: str) -> str:
    """Returns a name or a key as a message shows it: on one line, and not too long."""
    shown = text if text.isidentifier() else text.encode("unicode_escape").decode().replace('"', '\\"')
    return shown if len(shown) <= LETTERS else shown[:LETTERS] + "..."


def kind_text(value: Any) -> str:
    """Returns the words of a message for a value: its type alone."""
    return "None" if value is None else named(NAME.__get__(type(value)))


def step_text(inside: Optional[Entry], step: Any) -> str:
    """Returns a step of a path as source text."""
    if inside is None:
        return str(step)
    if type(step) is tuple:
        return f" (key {key_text(step[0])})"
    return f".{step}" if isinstance(inside[1], InstanceOf) else f"[{key_text(step)}]"


def key_text(key: Any) -> str:
    """Returns a key or an index as source text."""
    if type(key) is str:
        return f'"{named(key)}"'
    return str(key) if type(key) in (int, bool) and LEAST <= key <= MOST else kind_text(key)


def path_of(inside: Optional[Entry], step: Any) -> str:
    """Returns the path to a value, such as `orders[3].price`; of a long one the beginning and the end."""
    steps = [step_text(inside, step)]
    while inside is not None:
        value, _, inside, step = inside
        steps.append(step_text(inside, step))
    steps.reverse()
    if len(steps) > STEPS:
        steps[STEPS // 2 : -STEPS // 2] = [" .. "]
    return "".join(steps)


class Types:
    """The types of a core, each read from its text. Types of one meaning are one object, even if their texts differ."""

    def __init__(self, classes: Mapping[str, type]) -> None:
        self.classes = classes
        self.types: Dict[Any, Type] = {}
        self.kinds: Dict[Any, Kind] = {}
        self.anything = every = Type("a value of the profile", {})
        self.key = Type("a key", {id(int): NUMBER, id(bool): NUMBER, id(str): ATOM})
        self.instances = {name: InstanceOf(name) for name in classes}
        every.members.update(self.key.members)
        every.members.update({id(it): self.instances[name] for name, it in classes.items()})
        every.members[id(type(None))] = ATOM
        every.members[id(list)] = ListOf("list", every, loose=True)
        every.members[id(dict)] = DictOf("dict", self.key, every, loose=True)
        every.members[id(tuple)] = AnyTuple("tuple", every, loose=True)

    def read(self, text: str) -> Type:
        """Returns the type that an annotation names; raises ValueError if it names none."""
        # The words are reversed, and two empty ones mark their end
        words = ["", "", *TOKEN.findall(text)[::-1]]
        found = self.union(words)
        if words != ["", ""]:
            raise ValueError(f"no type: {text}")
        return found

    def union(self, words: List[str]) -> Type:
        """Reads the type at the end of the words, and removes its words; raises ValueError if two of its members have a
        value in common."""
        parts = [self.member(words)]
        while words[-1] == "|":
            words.pop()
            parts.append(self.member(words))
        members = {at: kind for part in parts for at, kind in part.members.items()}
        if len(members) < sum(len(part.members) for part in parts):
            raise ValueError("two members of a union have values in common")
        return self.made(" | ".join(part.text for part in parts), members)

    def member(self, words: List[str]) -> Type:
        """Reads a type without `|` at the end of the words, and removes its words."""
        name = words.pop()
        if words[-1] == "[":
            return self.applied(name, self.arguments(words))
        if name in ("Any", "object"):
            return self.anything
        if name in self.classes:
            return self.made(name, self.below(self.classes[name]))
        atoms = {"int": (int, bool), "bool": (bool,), "str": (str,), "None": (type(None),)}
        if name not in atoms:
            raise ValueError(f"no type: {name}")
        return self.made(name, {id(it): self.anything.members[id(it)] for it in atoms[name]})

    def arguments(self, words: List[str]) -> List[Type]:
        """Reads the types between brackets at the end of the words, and removes their words."""
        words.pop()
        found: List[Type] = []
        while words[-1] not in ("]", ""):
            if words[-1] in "(),":
                words.pop()
            else:
                found.append(self.union(words))
        words.pop()
        return found

    def applied(self, name: str, parts: List[Type]) -> Type:
        """Returns a type of lists, dicts or tuples."""
        text = f"{name}[{', '.join(part.text for part in parts) or '()'}]"
        if (name, len(parts)) == ("list", 1):
            made: Tuple[type, Kind] = list, ListOf(text, parts[0])
        elif (name, len(parts)) == ("dict", 2):
            made = dict, DictOf(text, parts[0], parts[1])
        elif name == "tuple":
            made = tuple, TupleOf(text, parts)
        else:
            raise ValueError(f"no type: {text}")
        return self.made(text, {id(made[0]): self.kinds.setdefault((name, *parts), made[1])})

    def made(self, text: str, members: Dict[int, Kind]) -> Type:
        """Returns the type with these members: the existing one, if there is one."""
        return self.types.setdefault(frozenset(members.items()), Type(text, members))

    def below(self, ancestor: type) -> Dict[int, Kind]:
        """Returns the members of the type of a class: the kinds of its instances and of those of its descendants."""
        return {id(it): self.instances[name] for name, it in self.classes.items() if issubclass(it, ancestor)}


def digest_of(module: ModuleType) -> str:
    """Returns the digest of the text of a module, independent of its line ends; empty if the text is not available."""
    try:
        with open(module.__file__ or "", "rb") as file:
            text = file.read()
    except OSError:
        return ""
    return hashlib.sha256(text.replace(b"\r\n", b"\n")).hexdigest()


class Guard(type):
    """The type of the guards of classes: such a class is called like the core's class, and replaces it in `isinstance`
    and `issubclass`. It has no instances of its own, and cannot be a base."""

    def __new__(mcs, name: str, bases: Tuple[type, ...], members: Dict[str, Any]) -> Guard:
        if bases:
            raise TypeError(f"{bases[0].__name__} is the guard of a class, and can be no base")
        return super().__new__(mcs, name, bases, members)

    def __call__(cls, /, *given: Any, **by_name: Any) -> Any:
        return vars(cls)["__make__"](*given, **by_name)

    def __instancecheck__(cls, value: Any) -> bool:
        return isinstance(value, vars(cls)["__core__"])

    def __subclasscheck__(cls, other: type) -> bool:
        return issubclass(vars(other).get("__core__", other), vars(cls)["__core__"])


class Border:
    """The border of a core: its classes with the types of their fields, and its constants that can be mutated. `digest`
    is that of the text that was checked."""

    def __init__(
        self, core: ModuleType, digest: str, classes: Mapping[str, Mapping[str, str]], constants: Mapping[str, str]
    ) -> None:
        self.core = core
        if digest_of(core) not in (digest, ""):
            raise ImportError(f"{core.__name__} has changed: have its guards written anew by pycheck-all --guards")
        self.types = Types({name: getattr(core, name) for name in classes})
        for name, fields in classes.items():
            self.types.instances[name].fields = {field: self.types.read(it) for field, it in fields.items()}
        self.constants = {name: self.types.read(it) for name, it in constants.items()}

    def admit(self, wanted: Mapping[str, Type], given: Sequence[Tuple[str, Any]]) -> None:
        """Examines the arguments of a call, and all values that the constants reach; raises Misfit if one is wrong. An
        argument without a parameter is left to the call."""
        walk = Walk()
        for name, constant in self.constants.items():
            walk.meet(getattr(self.core, name), constant, None, f"{self.core.__name__}.{name}")
        for name, value in given:
            if type(name) is not str:
                walk.refuse(None, kind_text(name), "expected the name of a parameter")
            if name in wanted:
                walk.meet(value, wanted[name], None, name)
        walk.open_all()

    def parameters(self, wrapper: Any) -> Dict[str, Type]:
        """Returns the parameters of a guard with their types, without `self`."""
        names = wrapper.__code__.co_varnames[: wrapper.__code__.co_argcount]
        notes = wrapper.__annotations__
        return {name: self.types.read(notes[name]) for name in names if name in notes}

    def guard(self, wrapper: Callable[..., Any], wanted: Mapping[str, Type], enter: Callable[..., Any]) -> Any:
        """Returns a guard with the name and the parameters of a wrapper: it examines the arguments, and then calls
        `enter`."""

        @functools.wraps(wrapper)
        def guarded(*given: Any, **by_name: Any) -> Any:
            """Examines the arguments, and enters the core."""
            self.admit(wanted, [*zip(wanted, given), *by_name.items()])
            return enter(*given, **by_name)

        return guarded

    def function(self, wrapper: F) -> F:
        """Returns the guard of a function, which the wrapper calls."""
        return cast(F, self.guard(wrapper, self.parameters(wrapper), wrapper))

    def method(self, wrapper: Callable[..., Any], receiver_type: Type) -> Any:
        """Returns the guard of a method: its first argument is the instance, whose own method it calls."""

        def enter(receiver: Any, /, *given: Any, **by_name: Any) -> Any:
            """Calls the instance's own method."""
            return getattr(receiver, wrapper.__name__)(*given, **by_name)

        return self.guard(wrapper, {RECEIVER: receiver_type, **self.parameters(wrapper)}, enter)

    def class_(self, wrapper: type) -> Guard:
        """Returns the guard of a class, with those of its methods."""
        name, members = wrapper.__name__, dict(vars(wrapper))
        core_class, receiver_type = getattr(self.core, name), self.types.read(name)
        initializer = members.pop("__init__")
        call = self.guard(initializer, self.parameters(initializer), core_class)
        methods = {key: self.method(it, receiver_type) for key, it in members.items() if isinstance(it, FunctionType)}
        own = {"__core__": core_class, "__make__": call, "__module__": wrapper.__module__}
        own["__match_args__"] = getattr(core_class, "__match_args__", ())
        return Guard(name, (), {**own, **{key: staticmethod(it) for key, it in methods.items()}})
