"""Writes slp/_declared.py: the structs, numbers and calls of include/slp.h for ctypes, and the columns of its families as the library describes them.

    declare.py SLP_H LIBSLP_SO OUT

It needs no compiler. What it does not understand of the header is an error, never left out; so is a row of the header that is not as its columns are.
"""
from __future__ import annotations

import ctypes
import re
import sys
from pathlib import Path
from typing import Any

NUMBERS = {"char": "c_char", "uint8_t": "c_uint8", "int8_t": "c_int8", "uint16_t": "c_uint16", "uint32_t": "c_uint32", "int32_t": "c_int32", "size_t": "c_size_t", "float": "c_float"}
KINDS = {"uint8_t": "u", "uint16_t": "u", "uint32_t": "u", "int8_t": "i", "int32_t": "i", "float": "f"}
DTYPES = {("u", 1): "uint8", ("u", 2): "uint16", ("u", 4): "uint32", ("i", 1): "int8", ("i", 4): "int32", ("f", 4): "float32"}
# A family's columns, the struct of its rows, and what its class is called.
FAMILIES = [
    ("FRAME_START", "slp_frame_start", "FrameStart", "Columns"),
    ("PRE", "slp_pre", "Pre", "Columns"),
    ("POST", "slp_post", "Post", "Columns"),
    ("FRAME_END", "slp_frame_end", "FrameEnd", "Columns"),
    ("ITEM", "slp_item", "Item", "Rows"),
    ("FOD_PLATFORM", "slp_fod_platform", "FodPlatform", "Rows"),
    ("DREAMLAND_WHISPY", "slp_dreamland_whispy", "DreamlandWhispy", "Rows"),
    ("STADIUM_TRANSFORMATION", "slp_stadium_transformation", "StadiumTransformation", "Rows"),
]
# What a row has beside its columns.
NOT_COLUMNS = ("version", "present", "bits")


class Odd(Exception):
    """Something in the header that is not understood."""


def macros(text: str) -> tuple[dict[str, str], dict[str, str]]:
    """Macros that are a number or a text, and those that are parameters of calls."""
    constants, parameters = {}, {}
    for name, value in re.findall(r"^#define (SLP_\w+) (.*)$", text.replace("\\\n", " "), re.M):
        value = re.sub(r"/\*.*?\*/", "", value).strip()
        if name.endswith("_PARAMETERS"):
            parameters[name] = value
        elif re.fullmatch(r'\(?-?\d+\)?u?|"[^"]*"', value):
            constants[name] = value.rstrip("u").strip("()")
    return constants, parameters


def bare(text: str) -> str:
    """The header without comments, preprocessor lines and inline functions."""
    text = re.sub(r"/\*.*?\*/", "", text.replace("\\\n", " "), flags=re.S)
    text = re.sub(r"^#.*$", "", text, flags=re.M)
    text = text.replace('extern "C" {', "", 1)
    text = re.sub(r"static inline [^{;]*\{(?:[^{}]|\{[^{}]*\})*\}", "", text)
    return text.rstrip().removesuffix("}")


def enums(text: str) -> dict[str, int]:
    numbers: dict[str, int] = {}
    for body in re.findall(r"\benum \{(.*?)\};", text, re.S):
        following = 0
        for entry in [e.strip() for e in body.split(",") if e.strip()]:
            name, _, value = (part.strip() for part in entry.partition("="))
            following = ord(value[1]) if value.startswith("'") else int(value, 0) if value else following
            numbers[name] = following
            following += 1
    return numbers


def fields(body: str) -> list[tuple[str, str, int]]:
    """Type, name and count of each field; the count is 0 where it is no array, and the type ends with * where it is a pointer."""
    found = []
    for line in filter(None, (part.strip() for part in body.split(";"))):
        kind, names = re.fullmatch(r"((?:const )?\w+) (.*)", line, re.S).groups()  # type: ignore[union-attr]
        for name in names.split(","):
            star, plain, count = re.fullmatch(r"\s*(\*?)(\w+)(?:\[(\d+)\])?\s*", name).groups()  # type: ignore[union-attr]
            found.append((kind.replace("const ", "") + star, plain, int(count or 0)))
    return found


def c_type(kind: str, known: set[str]) -> str:
    if kind.endswith("*"):
        return "c_void_p"
    if kind in NUMBERS:
        return NUMBERS[kind]
    if kind in known:
        return kind
    raise Odd(f"a type that is not known: {kind}")


def structs(text: str) -> dict[str, list[tuple[str, str, int]]]:
    return {name: fields(body) for body, name in re.findall(r"typedef struct \{(.*?)\} (\w+);", text, re.S)}


def calls(text: str, parameters: dict[str, str], known: set[str]) -> dict[str, tuple[str, list[str]]]:
    text = re.sub(r"typedef struct \{.*?\} \w+;|\benum \{.*?\};", "", text, flags=re.S)
    found = {}
    for statement in filter(None, (s.strip() for s in text.split(";"))):
        match = re.fullmatch(r"(\w+) (\w+)\((.*)\)", statement, re.S)
        if not match:
            raise Odd(f"neither a struct nor an enum nor a call: {statement}")
        answer, name, inside = match.groups()
        for macro, value in parameters.items():
            inside = re.sub(rf"\b{macro}\b", value, inside)
        kinds = []
        for parameter in inside.split(","):
            kind, star, _ = re.fullmatch(r"\s*(?:const )?(\w+) (\*?)(\w+)\s*", parameter).groups()  # type: ignore[union-attr]
            kinds.append(c_type(kind + star, known))
        found[name] = (c_type(answer, known), kinds)
    return found


def flat(name: str, shapes: dict[str, list[tuple[str, str, int]]]) -> list[tuple[str, str]]:
    """The numbers of a row's struct with their types, those of structs inside it and of arrays one by one."""
    found = []
    for kind, field, count in shapes[name]:
        if field in NOT_COLUMNS:
            continue
        if kind in shapes:
            found += [(f"{field}_{inner}", t) for inner, t in flat(kind, shapes)]
        else:
            found += [(f"{field}_{k}", kind) for k in range(count)] if count else [(field, kind)]
    return found


def describe(library: str, shape: list[tuple[str, str, int]]) -> Any:
    """The call slp_column, whose answer has this shape."""

    class Answer(ctypes.Structure):
        _fields_ = [(field, getattr(ctypes, NUMBERS[kind]) * count if count else getattr(ctypes, NUMBERS[kind])) for kind, field, count in shape]

    call = ctypes.CDLL(library).slp_column
    call.restype, call.argtypes = Answer, (ctypes.c_uint8, ctypes.c_size_t)
    return call


def columns(described: Any, family: str, number: int, row: list[tuple[str, str]]) -> list[tuple[str, int, str, tuple[int, int]]]:
    """Name, width, kind and first version of a family's columns; the fields of its row stand in the same order and are of the same kinds."""
    found: list[tuple[str, int, str, tuple[int, int]]] = []
    while not (c := described(number, len(found))).refused:
        found.append((c.name.decode(), c.width, c.kind.decode(), (c.major, c.minor)))
    if len(found) != len(row):
        raise Odd(f"{family} has {len(found)} columns and its row {len(row)} fields")
    for (name, width, kind, _), (field, is_of) in zip(found, row):
        if field not in (name, f"{name}_id") or KINDS[is_of] != kind or (kind, width) not in DTYPES:
            raise Odd(f"column {name} of {family} beside the field {is_of} {field}")
    return found


def declared(header: str, library: str) -> str:
    constants, parameters = macros(header)
    plain = bare(header)
    numbers, shapes = enums(plain), structs(plain)
    described = describe(library, shapes["slp_column_answer"])
    out = ['"""Made of include/slp.h and the library by declare.py."""', "from __future__ import annotations", ""]
    out += [f"from ctypes import Structure, {', '.join(sorted(set(NUMBERS.values())))}, c_void_p", "from typing import TYPE_CHECKING", ""]
    out += ["from ._columns import Column, Columns, Rows", "", "if TYPE_CHECKING:", "    import numpy as np", "    import numpy.typing as npt", ""]
    out += [f"{name} = {value}" for name, value in constants.items()]
    out += [f"{name} = {value}" for name, value in numbers.items()]
    known: set[str] = set()
    for name, shape in shapes.items():
        inner = (f'("{field}", {c_type(kind, known)}{f" * {count}" if count else ""})' for kind, field, count in shape)
        out += ["", "", f"class {name}(Structure):", f"    _fields_ = [{', '.join(inner)}]"]
        known.add(name)
    out += ["", "", "# What each call answers, and takes.", "CALLS = {"]
    out += [f'    "{name}": ({answer}, ({", ".join(kinds)},)),' for name, (answer, kinds) in calls(plain, parameters, known).items()]
    out += ["}"]
    for family, row, name, base in FAMILIES:
        table = columns(described, family, numbers[f"SLP_FAMILY_{family}"], flat(row, shapes))
        out += ["", "", f"class {name}({base}):", f'    """The columns of {name}, as far as the replay\'s version has them."""', "", "    __slots__ = ()"]
        out += [f"    COLUMNS = ({', '.join(f'Column({n!r}, {w}, {k!r}, {v})' for n, w, k, v in table)},)", "    if TYPE_CHECKING:"]
        out += [f"        {n}: npt.NDArray[np.{DTYPES[k, w]}]" for n, w, k, _ in table]
    return "\n".join(out) + "\n"


def main(header: str, library: str, to: str) -> None:
    text = declared(Path(header).read_text(), str(Path(library).resolve()))
    path = Path(to)
    if not path.exists() or path.read_text() != text:
        path.write_text(text)


if __name__ == "__main__":
    try:
        main(*sys.argv[1:])
    except Odd as odd:
        sys.exit(f"declare.py: {odd}")
