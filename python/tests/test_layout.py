"""Structures, functions and refusals, beside the header."""

import ctypes
import inspect
import re
import subprocess
import tempfile
import typing
import unittest
from pathlib import Path

import bezhantiru
from bezhantiru._library import FUNCTIONS, STRUCTURES, library
from bezhantiru._refused import WORDS

from .common import HEADER, PACKAGE, compiled, declared


class Layout(unittest.TestCase):
    def test_structures(self):
        named = re.findall(r"^\} (bezhantiru_\w+);", HEADER, flags=re.M)
        self.assertEqual(set(named) - set(STRUCTURES), set())
        lines, wanted = [], []
        for name in named:
            structure = STRUCTURES[name]
            lines.append(f'printf("%zu %zu\\n", sizeof({name}), _Alignof({name}));')
            wanted.append(f"{ctypes.sizeof(structure)} {ctypes.alignment(structure)}")
            for field, _ in structure._fields_:
                place = f"offsetof({name}, {field}), sizeof((({name} *)0)->{field})"
                lines.append(f'printf("%zu %zu\\n", {place});')
                part = getattr(structure, field)
                wanted.append(f"{part.offset} {part.size}")
        source = "#include <bezhantiru.h>\n#include <stdio.h>\nint main(void) {\n%s\nreturn 0;\n}\n"
        with tempfile.TemporaryDirectory() as folder:
            path = Path(folder) / "layout.c"
            path.write_text(source % "\n".join(lines))
            program = compiled(path, folder)
            done = subprocess.run([program], stdout=subprocess.PIPE, text=True, check=True)
        self.assertEqual(done.stdout.splitlines(), wanted)

    def test_fields_are_the_headers_and_in_its_order(self):
        for body, name in re.findall(r"typedef struct \{(.*?)\n\} (bezhantiru_\w+);", HEADER, re.S):
            fields = re.findall(r"^    \w+ (\w+)(?:\[\d+\])?;", body, flags=re.M)
            self.assertEqual(fields, [field for field, _ in STRUCTURES[name]._fields_], name)

    def test_functions(self):
        names = declared()
        self.assertEqual(sorted(names), sorted(FUNCTIONS))
        for name in names:
            self.assertTrue(library.has(name), f"the library has no {name}")
            head = re.search(rf"\w+\s+bezhantiru_{name}\(([^)]*)\);", HEADER)
            answer, arguments = FUNCTIONS[name]
            found = [kind(argument) for argument in head[1].split(",")]
            self.assertEqual(found, arguments, name)
            result = head[0].split()[0]
            self.assertEqual(answer, STRUCTURES.get(result) or plain(result))

    def test_refusals(self):
        listed = re.findall(r"^ \* +(\d+)  \S", HEADER.split("Table")[0], flags=re.M)
        self.assertGreaterEqual(len(listed), 19)
        self.assertEqual(set(map(int, listed)) - set(WORDS), set())


def plain(name: str) -> typing.Any:
    """A type of C's that is no structure."""
    return ctypes.c_size_t if name == "size_t" else getattr(ctypes, f"c_{name[:-2]}")


def kind(argument: str) -> typing.Any:
    """The type of a parameter of the header."""
    words = argument.replace("const ", "").split()
    base = STRUCTURES.get(words[0]) or plain(words[0])
    return ctypes.POINTER(base) if "*" in argument or "[" in argument else base


class Package(unittest.TestCase):
    def test_everything_public_is_documented_and_typed(self):
        self.assertTrue((PACKAGE / "bezhantiru" / "py.typed").is_file())
        for name in bezhantiru.__all__:
            thing = getattr(bezhantiru, name)
            self.assertTrue(inspect.getdoc(thing), name)
            public = [thing]
            if inspect.isclass(thing):
                members = inspect.getmembers(thing, inspect.isfunction)
                public = [of for key, of in members if not key.startswith("_")]
            for function in public:
                if inspect.isfunction(function) and not hasattr(thing, "_fields"):
                    parameters = inspect.signature(function).parameters.values()
                    for parameter in parameters:
                        typed = (
                            parameter.name == "self" or parameter.annotation is not parameter.empty
                        )
                        self.assertTrue(typed, f"{name}: {parameter}")
                    self.assertIn("return", function.__annotations__, name)

    def test_arguments_have_the_headers_names(self):
        for name in declared():
            function = getattr(bezhantiru, name, None)
            if function is None:
                continue
            head = re.search(rf"bezhantiru_{name}\(([^)]*)\);", HEADER)[1]
            names = [re.sub(r"\[.*", "", word.split()[-1].lstrip("*")) for word in head.split(",")]
            found = list(inspect.signature(function).parameters)
            if name == "path_run":
                found[:1] = ["stages", "first", "second", "third", "fourth"]
            places = [names.index(parameter) for parameter in found]
            self.assertEqual(places, sorted(places), name)
