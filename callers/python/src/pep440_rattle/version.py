"""Versions, with the names and the behaviour of `packaging.version`.

>>> from pep440_rattle.version import Version
>>> Version("1.0a5") < Version("1.0")
True
>>> sorted(map(Version, ["1.10", "1.9", "1.10rc1"]))
[<Version('1.9')>, <Version('1.10rc1')>, <Version('1.10')>]
"""
from __future__ import annotations

import copyreg
from collections import namedtuple

from . import _core
from ._core import InvalidVersion, Version

# As that of `typing`, whose import takes longer than all else here.
TYPE_CHECKING = False
if TYPE_CHECKING:
    from collections.abc import Callable
    from typing import Any, Union

    _LocalSegments = tuple[Union[int, str], ...]
    _State = Union[dict[str, Any], tuple[Union[dict[str, Any], None], dict[str, Any]]]

__all__ = ["VERSION_PATTERN", "InvalidVersion", "Version", "normalize_pre", "parse"]

# The name by which tools annotate what is compared.
_BaseVersion = Version

VERSION_PATTERN = r"""
    v?
    (?: (?P<epoch> [0-9]+ ) ! )?
    (?P<release> [0-9]+ (?: \. [0-9]+ )* )
    (?P<pre> [-_.]? (?P<pre_l> alpha | a | beta | b | preview | pre | c | rc ) [-_.]? (?P<pre_n> [0-9]+ )? )?
    (?P<post> - (?P<post_n1> [0-9]+ ) | [-_.]? (?P<post_l> post | rev | r ) [-_.]? (?P<post_n2> [0-9]+ )? )?
    (?P<dev> [-_.]? (?P<dev_l> dev ) [-_.]? (?P<dev_n> [0-9]+ )? )?
    (?: \+ (?P<local> [a-z0-9]+ (?: [-_.] [a-z0-9]+ )* ) )?
"""
"""A regular expression of version texts with the groups of PEP 440's Appendix B, to be compiled with `re.VERBOSE | re.IGNORECASE`.

Nothing here uses it: what a version is says the proved library."""


class _Version(namedtuple("_Version", "epoch release dev pre post local")):
    """The parts of a version, as `Version._version` has them, for tools that read or set it."""

    __slots__ = ()
    epoch: int
    release: tuple[int, ...]
    dev: tuple[str, int] | None
    pre: tuple[str, int] | None
    post: tuple[str, int] | None
    local: _LocalSegments | None


# The properties that a version is printed from.
_PRINTED = ("epoch", "release", "pre", "post", "dev", "local")


# ---- what a subclass with properties or a print of its own has in place of what the version holds


def _public(version: Version) -> str:
    """The version without its local part, as a string."""
    return str(version).partition("+")[0]


def _base_version(version: Version) -> str:
    """Epoch and release, as a string."""
    release = ".".join(map(str, version.release))
    return f"{version.epoch}!{release}" if version.epoch else release


def _is_prerelease(version: Version) -> bool:
    """Whether it is a pre-release or a developmental release."""
    return version.pre is not None or version.dev is not None


def _is_postrelease(version: Version) -> bool:
    """Whether it is a post-release."""
    return version.post is not None


def _is_devrelease(version: Version) -> bool:
    """Whether it is a developmental release."""
    return version.dev is not None


def _major(version: Version) -> int:
    """The first number of the release."""
    return version.release[0]


def _minor(version: Version) -> int:
    """The second number of the release, 0 where there is none."""
    return version.release[1] if len(version.release) > 1 else 0


def _micro(version: Version) -> int:
    """The third number of the release, 0 where there is none."""
    return version.release[2] if len(version.release) > 2 else 0


_DERIVED: dict[str, Callable[[Version], object]] = {
    "public": _public,
    "base_version": _base_version,
    "is_prerelease": _is_prerelease,
    "is_postrelease": _is_postrelease,
    "is_devrelease": _is_devrelease,
    "major": _major,
    "minor": _minor,
    "micro": _micro,
}


def _compose(version: Version) -> str:
    """The string of these properties, for subclasses that have one of their own."""
    parts = [version.base_version]
    if version.pre is not None:
        parts.append("".join(map(str, version.pre)))
    if version.post is not None:
        parts.append(f".post{version.post}")
    if version.dev is not None:
        parts.append(f".dev{version.dev}")
    if version.local is not None:
        parts.append(f"+{version.local}")
    return "".join(parts)


# ---- copies and pickles, which have the form of those of `packaging`, so that either takes the other's


# The type of slots, as that of `types`, whose import takes longer than all this.
_SLOT = type(vars(type)["__basicsize__"])
# What an object of `packaging` has as attributes or in slots, and one of these otherwise; and what it has in slots beside, which is found anew.
_HELD = ("_version", "_key", "_spec", "_specs", "_prereleases", "_epoch", "_release", "_pre", "_post", "_dev", "_local")
_FOUND = ("_key_cache", "_hash_cache", "_spec_version", "_ranges", "_canonicalized", "_has_arbitrary", "_is_unsatisfiable", "_resolved_ops")


def _remove_held_slots(cls: type) -> None:
    """Of a subclass that names slots so, as those of `packaging` may: nothing would be in them."""
    for name in _HELD:
        if isinstance(vars(cls).get(name), _SLOT):
            delattr(cls, name)


def _copy_by_state(cls: type) -> None:
    """Has `copy` make one of a subclass, unless it has copies of its own, of the state, with what the subclass holds."""
    for name in ("__copy__", "__deepcopy__"):
        if getattr(getattr(cls, name), "__objclass__", None) is not None:
            setattr(cls, name, None)


def _state_of(it: object, own: dict[str, Any]) -> _State:
    """What a copy is made of: this, the attributes, and what is in slots of subclasses."""
    slots = {name: getattr(it, name) for name in copyreg._slotnames(type(it)) if hasattr(it, name)}  # type: ignore[attr-defined]
    attributes = {name: value for name, value in {**own, **getattr(it, "__dict__", {})}.items() if name not in slots}
    return (attributes, slots) if slots else attributes


def _state_by_26(it: object, own: dict[str, Any], held: dict[str, Any]) -> Any:
    """The state as `packaging` 26.2 has it: a tuple of the values alone. Where a subclass holds more, it has the form of 26.0, with the names of slots: 26.2
    reads that too, without what is beside."""
    names = [name for name in copyreg._slotnames(type(it)) if name not in _HELD]  # type: ignore[attr-defined]
    slots = {name: getattr(it, name) for name in names if hasattr(it, name)}
    attributes = {**held, **getattr(it, "__dict__", {})}
    if not attributes and not slots:
        return tuple(own.values())
    return attributes or None, {**{f"_{name}": value for name, value in own.items()}, **slots}


def _split_state(state: _State) -> tuple[dict[str, Any], dict[str, Any]]:
    attributes, slots = state if isinstance(state, tuple) else (state, {})
    held = {name: value for name, value in slots.items() if name in _HELD}
    return {**(attributes or {}), **held}, {name: value for name, value in slots.items() if name not in held and name not in _FOUND}


def _set_attributes(it: object, attributes: dict[str, Any], slots: dict[str, Any]) -> None:
    if attributes:
        it.__dict__.update(attributes)
    for name, value in slots.items():
        setattr(it, name, value)


# ---- what the type of versions has of Python; it is written in C, so that a version is one object, which the garbage collector does not see


def _init_subclass(cls: type[Version], /, **named: object) -> None:
    super(Version, cls).__init_subclass__(**named)
    _remove_held_slots(cls)
    _copy_by_state(cls)
    is_changed = any(getattr(cls, it) is not getattr(Version, it) for it in _PRINTED)
    # a subclass that has such a property prints it, unless it prints itself
    if is_changed and cls.__str__ is Version.__str__:
        cls.__str__ = _compose  # type: ignore[assignment]
    # and what is made of these properties, or of what it prints, is made anew
    if is_changed or cls.__str__ is not Version.__str__:
        for name, it in _DERIVED.items():
            if getattr(cls, name) is getattr(Version, name):
                setattr(cls, name, property(it, doc=it.__doc__))


# The parts of a version in the order of a pickle of 26.2 or newer, and the slots that 26.0 has of them.
_PARTS_OF_26 = ("epoch", "release", "pre", "post", "dev", "local")


def _get_state(version: Version) -> Any:
    parts = _parts_of(version)
    if not _core.follows_26():
        return _state_of(version, {"_version": parts, "_key": version._key})
    held = {} if version._own_key is None else {"_key": version._own_key}
    return _state_by_26(version, {name: getattr(parts, name) for name in _PARTS_OF_26}, held)


def _set_state(version: Version, state: Any) -> None:
    try:
        if isinstance(state, tuple) and len(state) == len(_PARTS_OF_26):
            state = {f"_{name}": value for name, value in zip(_PARTS_OF_26, state)}
        attributes, slots = _split_state(state)
        if "_epoch" in attributes:
            parts = _Version(**{name: attributes.pop(f"_{name}", None) for name in _PARTS_OF_26})
        else:
            parts = attributes.pop("_version")
    except (AttributeError, KeyError, TypeError, ValueError) as error:
        raise TypeError(f"Cannot restore Version from {state!r}") from error
    _set_parts(version, parts)
    key = attributes.pop("_key", None)
    # that of another release is another tuple for the same version
    if key is not None and _is_key_of_ours(key) and key != version._key:
        version._key = key
    _set_attributes(version, attributes, slots)


def _is_key_of_ours(key: object) -> bool:
    """Whether it may be compared with the keys of the release that is followed: as `packaging` 25 has it, it ends with the sixth part."""
    return not (isinstance(key, tuple) and len(key) == 6 and _core.follows_26())


def _parts_of(version: Version) -> _Version:
    epoch, release, pre, post, dev = version._parts
    local = _parse_local_version(Version.local.__get__(version))
    return _Version(epoch, release, None if dev is None else ("dev", dev), pre, None if post is None else ("post", post), local)


def _set_parts(version: Version, parts: _Version) -> None:
    Version.__init__(version, _text_of(*parts))


def _warn_of_version() -> None:
    """As `packaging` 26 does where its `_version` is read or set."""
    if _core.follows_26():
        import warnings

        warnings.warn("Version._version is private and will be removed soon", DeprecationWarning, stacklevel=3)


def _get_parts(version: Version) -> _Version:
    _warn_of_version()
    return _parts_of(version)


def _assign_parts(version: Version, parts: _Version) -> None:
    _warn_of_version()
    _set_parts(version, parts)


def _get_key(version: Version) -> Any:
    """What it is compared by, as a tuple, or what a subclass has set."""
    if version._own_key is not None:
        return version._own_key
    parts = _parts_of(version)
    return _cmpkey(parts.epoch, parts.release, parts.pre, parts.post, parts.dev, parts.local)


def _set_key(version: Version, key: object) -> None:
    version._own_key = key


# ---- versions of parts


def _is_number(value: object) -> bool:
    return isinstance(value, int) and value >= 0


def _valid_part(name: str, value: Any) -> Any:
    """The part, as `_version` has it; raises `InvalidVersion` where it is none."""
    if name == "epoch":
        return _valid_epoch(value)
    if value is None:
        return (0,) if name == "release" else None
    return _VALIDATORS[name](value)


def _valid_epoch(value: Any) -> int:
    if not _is_number(value or 0):
        raise InvalidVersion(f"epoch must be non-negative integer, got {value}")
    return int(value or 0)


def _valid_release(value: Any) -> tuple[int, ...]:
    if not isinstance(value, tuple) or not value or not all(map(_is_number, value)):
        raise InvalidVersion(f"release must be a non-empty tuple of non-negative integers, got {value}")
    return tuple(map(int, value))


def _valid_pre(value: Any) -> tuple[str, int]:
    if isinstance(value, tuple) and len(value) == 2 and (isinstance(value[0], str) or not _core.follows_26_3()):
        letter = normalize_pre(value[0])
        if letter in ("a", "b", "rc") and _is_number(value[1]):
            return letter, int(value[1])
    raise InvalidVersion(f"pre must be a tuple of ('a'|'b'|'rc', non-negative int), got {value}")


def _valid_suffix(name: str, value: Any) -> tuple[str, int]:
    if not _is_number(value):
        raise InvalidVersion(f"{name} must be non-negative integer, got {value}")
    return name, int(value)


def _valid_local(value: Any) -> _LocalSegments | None:
    segments = isinstance(value, str) and value.isascii() and value.replace("-", ".").replace("_", ".").split(".")
    if not segments or not all(map(str.isalnum, segments)):
        raise InvalidVersion(f"local must be a valid version string, got {value!r}")
    return _parse_local_version(value)


_VALIDATORS: dict[str, Callable[[Any], Any]] = {
    "release": _valid_release,
    "pre": _valid_pre,
    "post": lambda value: _valid_suffix("post", value),
    "dev": lambda value: _valid_suffix("dev", value),
    "local": _valid_local,
}


def _from_parts(
    cls: type[Version],
    *,
    epoch: int = 0,
    release: tuple[int, ...],
    pre: tuple[str, int] | None = None,
    post: int | None = None,
    dev: int | None = None,
    local: str | None = None,
) -> Version:
    """The version of these parts.

    >>> Version.from_parts(release=(1, 2), pre=("alpha", 1))
    <Version('1.2a1')>

    Raises `InvalidVersion` where one of them is none.
    """
    given = {"epoch": epoch, "release": release, "pre": pre, "post": post, "dev": dev, "local": local}
    made = cls.__new__(cls)
    _set_parts(made, _Version(**{name: _valid_part(name, value) for name, value in given.items()}))
    return made


def _replace(version: Version, **parts: Any) -> Version:
    """The version with other parts in place of its own: `epoch`, `release`, `pre`, `post`, `dev` and `local`; None is no such part.

    >>> Version("1.2.3").__replace__(pre=("a", 1))
    <Version('1.2.3a1')>

    Raises `InvalidVersion` where one of them is none.
    """
    old = _parts_of(version)
    new = old._replace(**{name: _valid_part(name, parts[name]) for name in _PRINTED if name in parts})
    if new == old:
        return version
    made = version.__class__.__new__(version.__class__)
    _set_parts(made, new)
    return made


def _text(version: Version) -> str:
    """The version as it prints, for `match`."""
    return str(version)


_OF_PYTHON = {
    "__init_subclass__": classmethod(_init_subclass),
    "_state_by_python": _get_state,
    "_restore_by_python": _set_state,
    "__match_args__": ("_str",),
    "_replace_by_python": _replace,
    "_from_parts_by_python": classmethod(_from_parts),
    "_str": property(_text),
    "_version": property(_get_parts, _assign_parts),
    "_key": property(_get_key, _set_key),
}
for _name, _it in _OF_PYTHON.items():
    setattr(Version, _name, _it)
Version.__doc__ = """A version, read from a string.

    Versions are compared by a word, a number that most of them have, else by what the library compiles of their strings, by which all are hashed and
    matched. Compiled forms, parts and prints are made when they are first asked for, and held.

    >>> version = Version("1!2.1.0-Beta.3+Ubuntu-01")
    >>> version
    <Version('1!2.1.0b3+ubuntu.1')>
    >>> version.epoch, version.release, version.pre, version.post, version.dev, version.local
    (1, (2, 1, 0), ('b', 3), None, None, 'ubuntu.1')
    >>> version.public, version.base_version, version.is_prerelease
    ('1!2.1.0b3', '1!2.1.0', True)

    Raises `InvalidVersion`, with the reason, where the string is no version.
    """


def parse(version: str) -> Version:
    """The version that the text is.

    >>> parse("1.0.dev1")
    <Version('1.0.dev1')>
    """
    return Version(version)


def normalize_pre(letter: str, /) -> str:
    """The normalized spelling of the label of a pre-release, or the string in lower case where it is no such label.

    >>> normalize_pre("ALPHA"), normalize_pre("rc")
    ('a', 'rc')
    """
    lower = letter.lower()
    return _SPELLINGS.get(lower, lower)


# ---- names that only tools read which look behind the public ones

# What PEP 440, "Normalization", makes of each spelling.
_SPELLINGS = {"alpha": "a", "beta": "b", "c": "rc", "pre": "rc", "preview": "rc", "rev": "post", "r": "post"}


def _parse_letter_version(letter: str | None, number: str | bytes | int | None) -> tuple[str, int] | None:
    """The normalized label of a suffix and its number: 0 where there is none, and a post-release where there is no label."""
    if letter:
        lower = letter.lower()
        return _SPELLINGS.get(lower, lower), int(number or 0)
    return ("post", int(number)) if number else None


def _parse_local_version(local: str | None) -> _LocalSegments | None:
    """The segments of a local part."""
    if local is None:
        return None
    return tuple(int(it) if it.isdigit() else it.lower() for it in local.replace("-", ".").replace("_", ".").split("."))


def _text_of(
    epoch: int,
    release: tuple[int, ...],
    dev: tuple[str, int] | None,
    pre: tuple[str, int] | None,
    post: tuple[str, int] | None,
    local: _LocalSegments | None,
) -> str:
    suffixes = [f"{'.' if it is not pre else ''}{it[0]}{it[1]}" for it in (pre, post, dev) if it]
    return f"{epoch}!{'.'.join(map(str, release))}{''.join(suffixes)}{'+' + '.'.join(map(str, local)) if local else ''}"


class _Extreme:
    """What lies above all else in a key, or below."""

    def __init__(self, is_above: bool) -> None:
        self.is_above = is_above

    def __lt__(self, other: object) -> bool:
        return not self.is_above and self is not other

    def __gt__(self, other: object) -> bool:
        return self.is_above and self is not other

    def __le__(self, other: object) -> bool:
        return not self > other

    def __ge__(self, other: object) -> bool:
        return not self < other

    def __reduce__(self) -> str:
        return "_ABOVE" if self.is_above else "_BELOW"


_ABOVE, _BELOW = _Extreme(True), _Extreme(False)


def _extremes() -> tuple[Any, Any]:
    """What lies above all else and below; where these modules stand in place of `packaging`, what it has."""
    if Version.__module__ == __name__:
        return _ABOVE, _BELOW
    import importlib

    structures = importlib.import_module(Version.__module__.rpartition(".")[0] + "._structures")
    return structures.Infinity, structures.NegativeInfinity


def _cmpkey(
    epoch: int,
    release: tuple[int, ...],
    pre: tuple[str, int] | None,
    post: tuple[str, int] | None,
    dev: tuple[str, int] | None,
    local: _LocalSegments | None,
) -> tuple[Any, ...]:
    """A tuple that stands as the version with these parts does."""
    length = len(release)
    while length and not release[length - 1]:
        length -= 1
    if _core.follows_26():
        ranked = [] if local is None else [tuple((it, "") if isinstance(it, int) else (-1, it) for it in local)]
        return (epoch, release[:length], _suffix_by_26(pre, post, dev), *ranked)
    above, below = _extremes()
    first = (below if dev and not post else above) if pre is None else pre
    segments = below if local is None else tuple((it, "") if isinstance(it, int) else (below, it) for it in local)
    return epoch, release[:length], first, below if post is None else post, above if dev is None else dev, segments


# The ranks of what may stand behind a release: a developmental release alone, the pre-releases, and no pre-release.
_RANKS = {"dev": -1, "a": 0, "b": 1, "rc": 2, "": 3}


def _suffix_by_26(pre: tuple[str, int] | None, post: tuple[str, int] | None, dev: tuple[str, int] | None) -> tuple[int, ...]:
    """What orders versions of one release in `packaging` 26."""
    kind, number = pre if pre is not None else ("dev" if dev and not post else "", 0)
    return _RANKS[kind], number, int(post is not None), post[1] if post else 0, int(dev is None), dev[1] if dev else 0


def _text_in(kind: type, item: object) -> str | None:
    """The string of what `packaging`, or one of its copies, has in place of this class; None where it is none."""
    module = f"packaging.{kind.__module__.rpartition('.')[2]}"
    for each in type(item).__mro__:
        if each.__qualname__ == kind.__qualname__ and each.__module__.endswith(module):
            return each.__str__(item)  # type: ignore[call-arg]
    return None


def _text_of_other(item: object) -> str:
    """The string of a version of `packaging`, or of one of its copies."""
    text = _text_in(Version, item)
    if text is None:
        raise TypeError(f"expected a str or a Version, not {type(item)!r}")
    return text


def _twin_of(kind: type, item: object) -> Any:
    """What this class reads of the string of its like in `packaging`; `NotImplemented` where there is no such string, or it is none here."""
    text = _text_in(kind, item)
    try:
        return NotImplemented if text is None else kind(text)
    except ValueError:
        return NotImplemented
