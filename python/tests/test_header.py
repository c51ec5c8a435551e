"""The prototypes, the numbers and the names, held to include/durbizhan.h."""
import ctypes
import functools
import inspect
import re
import typing
import unittest

import durbizhan
from durbizhan import library, refusals

from .cases import TOP

HEADER = re.sub(r"/\*.*?\*/", "", (TOP / "include" / "durbizhan.h").read_text(encoding="utf-8"), flags=re.S)
TYPES = {
    "uint64_t": ctypes.c_uint64,
    "int64_t": ctypes.c_int64,
    "uint16_t": ctypes.c_uint16,
    "uint8_t": ctypes.c_uint8,
    "double": ctypes.c_double,
    "size_t": ctypes.c_size_t,
}
IN_C = {kind: name for name, kind in TYPES.items() if name != "size_t"}
PIECE = r"(const )?(\w+) (\*)?(\w+)(?:\[(\d+)\])?"
NAMED = {name: int(said) for name, said in re.findall(r"#define DURBIZHAN_(\w+) (\d+)", HEADER)}
# the answers, by the name that their places begin with
ANSWERS = tuple(name[: -len("ANSWER")] for name in NAMED if name.endswith("_ANSWER"))


def prototypes(text):
    """The functions of a header: what each returns, and its parameters."""
    text = re.sub(r"(?<=\[)DURBIZHAN_(\w+)", lambda named: str(NAMED[named[1]]), text)
    found = re.findall(r"(\w+) durbizhan_(\w+)\(([^()]*)\);", text)
    return {name: (returned, [" ".join(piece.split()) for piece in rest.split(",")]) for returned, name, rest in found}


@functools.lru_cache(maxsize=None)
def in_ctypes(piece):
    """The ctypes type of a parameter of the header."""
    _, kind, pointer, _, count = re.fullmatch(PIECE, piece).groups()
    if count:
        return ctypes.POINTER(TYPES[kind] * int(count))
    return ctypes.POINTER(TYPES[kind]) if pointer else TYPES[kind]


def in_c(parameter):
    """A parameter of PROTOTYPES as the header has it."""
    if isinstance(parameter, library.Whole):
        return [f"uint64_t {parameter.name}"]
    if isinstance(parameter, library.Real):
        return [f"double {parameter.name}"]
    kind = IN_C[parameter.element]
    if isinstance(parameter, library.Array):
        return [f"{kind} {parameter.name}[{parameter.count}]"]
    const = "const " if isinstance(parameter, library.Read) else ""
    return [f"{const}{kind} *{parameter.name}", f"size_t {parameter.name}_count"]


def differences(said):
    """The functions of which a header says something else than PROTOTYPES, or than the loaded library's types."""
    for name in said.keys() ^ library.PROTOTYPES.keys():
        yield name
    for name in said.keys() & library.PROTOTYPES.keys():
        returned, pieces = said[name]
        function = getattr(library.library(), f"durbizhan_{name}")
        if [piece for parameter in library.PROTOTYPES[name] for piece in in_c(parameter)] != pieces:
            yield name
        elif [function.restype, *function.argtypes] != [TYPES.get(returned), *map(in_ctypes, pieces)]:
            yield name


def damaged(piece):
    """A parameter with one thing wrong."""
    const, kind, pointer, name, count = re.fullmatch(PIECE, piece).groups()
    array = f"[{count}]" if count else ""
    yield f"{const or ''}{'int64_t' if kind != 'int64_t' else 'uint64_t'} {pointer or ''}{name}{array}"
    yield f"{'' if const else 'const '}{kind} {pointer or ''}{name}{array}"
    yield f"{const or ''}{kind} {pointer or ''}{name}s{array}"
    yield f"{const or ''}{kind} {'' if pointer else '*'}{name}{array}"
    yield f"{const or ''}{kind} {pointer or ''}{name}[{int(count or 0) + 1}]"


def flat_names(name):
    """The parameters of a function as Python has them: a universe, a window and three numbers are one each."""
    pieces = [parameter for parameter in library.PROTOTYPES[name] if not isinstance(parameter, library.Array)]
    row = " ".join(parameter.name for parameter in pieces)
    row = row.replace("axes bits frame_bits", "universe").replace("first_frame last_frame", "window")
    return re.sub(r"(\w+)_x \1_y \1_z", r"\1", row).split()


class Header(unittest.TestCase):
    def test_prototypes(self):
        self.assertEqual(len(prototypes(HEADER)), HEADER.count("durbizhan_"))
        self.assertEqual(list(differences(prototypes(HEADER))), [])

    def test_damaged_headers_differ(self):
        whole, tried = prototypes(HEADER), 0
        for name, (returned, pieces) in whole.items():
            for place, piece in enumerate(pieces):
                for others in [[], [piece, piece], *([other] for other in damaged(piece))]:
                    row = pieces[:place] + others + pieces[place + 1 :]
                    tried += 1
                    self.assertEqual(list(differences({**whole, name: (returned, row)})), [name], (place, others))
            self.assertEqual(list(differences({**whole, name: ("int64_t", pieces)})), [name])
            self.assertEqual(list(differences({**whole, "other": (returned, pieces)})), ["other"])
            self.assertEqual(list(differences({one: whole[one] for one in whole if one != name})), [name])
        self.assertGreater(tried, 1000)

    def test_numbers(self):
        self.assertGreater(len(ANSWERS), 10)
        numbers = {name: number for name, number in NAMED.items() if not name.startswith(ANSWERS)}
        for name, number in numbers.items():
            self.assertEqual(getattr(durbizhan, name), number, name)
        in_capitals = {name for name in durbizhan.__all__ if name.isupper()}
        self.assertEqual(in_capitals, {*numbers, "VERSION"})
        kinds = {kind.name: kind.number for kind in refusals.REFUSALS.values()}
        self.assertEqual(kinds, {name: numbers[name] for name in list(numbers)[3 : list(numbers).index("WHITE")]})

    def test_version(self):
        (said,) = re.findall(r'#define DURBIZHAN_VERSION "(.*)"', HEADER)
        (packed,) = re.findall(r'^version = "(.*)"$', (TOP / "pyproject.toml").read_text(encoding="utf-8"), re.M)
        self.assertEqual((durbizhan.VERSION, packed), (said, said))

    def test_words(self):
        named = re.findall(r"#define DURBIZHAN_(\w+)\(i\) \(DURBIZHAN_(\w+) \+ \(i\)\)", HEADER)
        self.assertEqual(len(named), HEADER.count("(i) "))
        for name, first in named:
            words = [getattr(durbizhan, name.lower())(i) for i in (0, 1, 63)]
            self.assertEqual(words, [NAMED[first] + i for i in (0, 1, 63)])

    def test_places(self):
        """Where a length, a lack of work room and a field are looked for is where the header has them."""
        answers = re.findall(r"durbizhan_(\w+)\([^()]*answer\[DURBIZHAN_(\w+)_ANSWER\]\);", HEADER)
        self.assertEqual(len(answers), HEADER.count("answer["))
        for name, group in answers:
            *given, answer = library.PROTOTYPES[name]
            writes = any(isinstance(one, library.Room) for one in given)
            length = NAMED["REPORT_FRAMES" if name == "report" else f"{group}_LENGTH"] if writes else None
            self.assertEqual((answer.length, answer.of_work), (length, NAMED.get(f"{group}_LACK")), name)
        for kind in (durbizhan.Contacts, durbizhan.Part):
            places = [NAMED[f"{kind.__name__}_{field}".upper()] for field in kind._fields]
            self.assertEqual(places, list(range(len(places))))

    def test_names(self):
        for name in library.PROTOTYPES:
            self.assertIn(name, durbizhan.__all__)
            function = getattr(durbizhan, name)
            self.assertTrue(function.__doc__, name)
            self.assertEqual(list(inspect.signature(function).parameters), flat_names(name), name)

    def test_all_stands(self):
        for name in durbizhan.__all__:
            self.assertTrue(hasattr(durbizhan, name), name)
        public = {name for name, thing in vars(durbizhan).items() if name[0] != "_" and not inspect.ismodule(thing)}
        self.assertEqual(public, set(durbizhan.__all__))

    def test_type_hints(self):
        modules = [thing for thing in vars(durbizhan).values() if inspect.ismodule(thing)]
        functions = [f for module in modules for f in every_function(module)]
        self.assertGreater(len(functions), 90)
        for function in functions:
            named = [name for name in inspect.signature(function).parameters if name not in ("self", "cls")]
            self.assertEqual(typing.get_type_hints(function).keys(), {*named, "return"}, function.__qualname__)


def every_function(module):
    """The functions of a module, and the methods of its classes, that are written there."""
    for thing in vars(module).values():
        if getattr(thing, "__module__", None) != module.__name__:
            continue
        for one in vars(thing).values() if inspect.isclass(thing) else [thing]:
            one = one.fget if isinstance(one, property) else getattr(one, "__func__", one)
            if inspect.isfunction(one) and one.__code__.co_filename == module.__file__:
                yield one


if __name__ == "__main__":
    unittest.main()
