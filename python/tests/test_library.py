"""Where the shared library is looked for, what it exports, the docstrings, the package and the examples."""
import ctypes.util
import doctest
import importlib.util
import inspect
import os
import pathlib
import re
import subprocess
import sys
import tempfile
import unittest
import zipfile

import durbizhan
from durbizhan import library

from .cases import EXAMPLES, TOP

MODULES = [durbizhan, *(thing for thing in vars(durbizhan).values() if inspect.ismodule(thing))]
# what each example is run on
HELD = {
    "answers": [EXAMPLES / "sleeve.scene"],
    "clear": [],
    "contacts": [EXAMPLES / "keyed.scene"],
    "mover": [EXAMPLES / "mover.keys"],
    "octree": [2, EXAMPLES / "solid.octree"],
    "report": [],
    "sweep": [EXAMPLES / "sleeve.scene", os.devnull],
}


def run(*words, **environment):
    """What Python prints, and its exit status."""
    told = {**os.environ, "PYTHONPATH": str(TOP / "python"), "PYTHONDONTWRITEBYTECODE": "1", **environment}
    words = [sys.executable, *map(str, words)]
    done = subprocess.run(words, capture_output=True, text=True, env=told, cwd="/", check=False)
    return done.stdout, done.returncode, done.stderr


def said(path):
    """What the text at an example's top says that it prints."""
    text = path.read_text(encoding="utf-8").split("It prints", 1)[1]
    text = re.split(r'\*/|"""', text, maxsplit=1)[0]
    return "".join(f"{line}\n" for line in re.findall(r"^(?: \*  |   ) (.*)$", text, re.M))


class Places(unittest.TestCase):
    ASKED = "import durbizhan; print(durbizhan.leaves([256]))"

    def test_named(self):
        self.assertEqual(run("-c", self.ASKED, DURBIZHAN_LIBRARY=str(library.place())), ("1\n", 0, ""))

    def test_named_and_not_there(self):
        _, status, complaint = run("-c", self.ASKED, DURBIZHAN_LIBRARY="/nowhere/libdurbizhan.so")
        self.assertEqual(status, 1)
        self.assertIn("FileNotFoundError: no shared library at /nowhere/libdurbizhan.so: tools/shared", complaint)

    def test_imported_without(self):
        self.assertEqual(run("-c", "import durbizhan", DURBIZHAN_LIBRARY="/nowhere")[1], 0)

    def test_a_library_that_lacks_a_function(self):
        another = next(pathlib.Path("/").glob("lib/*/libc.so.6"), None) or ctypes.util.find_library("c")
        _, status, complaint = run("-c", self.ASKED, DURBIZHAN_LIBRARY=str(another))
        self.assertEqual(status, 1)
        self.assertIn("durbizhan_leaves", complaint)

    def test_exports(self):
        words = ["nm", "-D", "--defined-only", library.place()]
        printed = subprocess.run(words, capture_output=True, text=True, check=True)
        exported = {line.split()[-1] for line in printed.stdout.splitlines()}
        self.assertEqual(exported, {f"durbizhan_{name}" for name in library.PROTOTYPES})


class Docstrings(unittest.TestCase):
    def test_what_they_show(self):
        tried = 0
        for module in MODULES:
            found = doctest.testmod(module)
            self.assertEqual(found.failed, 0, module.__name__)
            tried += found.attempted
        self.assertGreater(tried, 40)

    def test_refusals_are_named(self):
        for name in library.PROTOTYPES.keys() - {"leaves", "balls", "lines", "scene"}:
            named = re.search(r"Refused\b|refusals as of", getattr(durbizhan, name).__doc__)
            self.assertTrue(named, name)


class Readme(unittest.TestCase):
    def test_what_it_shows(self):
        text = (TOP / "README.md").read_text(encoding="utf-8")
        shown = re.findall(r"```python\n(.*?)```\n\n```\n(.*?)```\n", text, re.S)
        self.assertEqual(len(shown), 1)
        for program, printed in shown:
            self.assertEqual(run("-c", program), (printed, 0, ""))


class Package(unittest.TestCase):
    ASKED = "import durbizhan; print(durbizhan.__file__, durbizhan.library.place(), durbizhan.leaves([256]))"

    def setUp(self):
        spec = importlib.util.spec_from_file_location("python_package", TOP / "tools" / "python_package.py")
        self.backend = importlib.util.module_from_spec(spec)
        spec.loader.exec_module(self.backend)

    def extracted(self, directory, name):
        """The names of the files of a wheel, which are put into the folder."""
        with zipfile.ZipFile(pathlib.Path(directory, name)) as wheel:
            wheel.extractall(directory)
            return set(wheel.namelist())

    def test_wheel(self):
        with tempfile.TemporaryDirectory() as work:
            names = self.extracted(work, self.backend.build_wheel(work))
            modules = {f"durbizhan/{path.name}" for path in (TOP / "python" / "durbizhan").glob("*.py")}
            self.assertLess(modules | {"durbizhan/py.typed", "durbizhan-1.0.dist-info/RECORD"}, names)
            self.assertIn("durbizhan/libdurbizhan.so", names)
            package = pathlib.Path(work, "durbizhan")
            printed, _, _ = run("-c", self.ASKED, PYTHONPATH=work, DURBIZHAN_LIBRARY="")
            self.assertEqual(printed, f"{package / '__init__.py'} {package.resolve() / 'libdurbizhan.so'} 1\n")

    def test_wheel_without_the_library(self):
        self.backend.LIBRARY = pathlib.Path("/nowhere")
        with tempfile.TemporaryDirectory() as work:
            name = self.backend.build_wheel(work)
            self.assertEqual(name, "durbizhan-1.0-py3-none-any.whl")
            self.assertNotIn("durbizhan/libdurbizhan.so", self.extracted(work, name))
            _, status, complaint = run("-c", self.ASKED, PYTHONPATH=work, DURBIZHAN_LIBRARY="")
            self.assertEqual(status, 1)
            self.assertIn("tools/shared, run in the clone, builds it", complaint)
            printed, _, _ = run("-c", self.ASKED, PYTHONPATH=work, DURBIZHAN_LIBRARY=str(library.place()))
            self.assertTrue(printed.endswith(f"{library.place()} 1\n"))

    def test_editable(self):
        with tempfile.TemporaryDirectory() as work:
            names = self.extracted(work, self.backend.build_editable(work))
            self.assertEqual({name for name in names if ".dist-info" not in name}, {"durbizhan.pth"})
            self.assertEqual(pathlib.Path(work, "durbizhan.pth").read_text(), f"{TOP / 'python'}\n")

    @unittest.skipUnless(importlib.util.find_spec("pip"), "there is no pip")
    def test_pip(self):
        with tempfile.TemporaryDirectory() as work:
            words = ["-m", "pip", "install", "--quiet", "--no-index", "--target", work, TOP]
            _, status, complaint = run(*words, PIP_DISABLE_PIP_VERSION_CHECK="1", PIP_ROOT_USER_ACTION="ignore")
            self.assertEqual(status, 0, complaint)
            asked = "import durbizhan; print(durbizhan.leaves([256]))"
            self.assertEqual(run("-c", asked, PYTHONPATH=work, DURBIZHAN_LIBRARY="")[0], "1\n")


class Examples(unittest.TestCase):
    def test_they_print_what_those_in_c_print(self):
        for name, words in HELD.items():
            with self.subTest(name=name):
                text = said(EXAMPLES / "c" / f"{name}.c")
                self.assertTrue(text)
                self.assertEqual(said(EXAMPLES / "python" / f"{name}.py"), text)
                printed = run(EXAMPLES / "python" / f"{name}.py", *words)
                self.assertEqual(printed, (text, 0, ""))

    def test_each_is_held(self):
        for language, suffix in (("python", "py"), ("c", "c")):
            self.assertEqual({path.stem for path in (EXAMPLES / language).glob(f"*.{suffix}")}, set(HELD))

    def test_they_print_what_the_readme_says_of_those_in_c(self):
        text = (TOP / "README.md").read_text(encoding="utf-8")
        shown = re.findall(r"^```sh\ntools/example (\w+) ([^\n]*)\n```\n\n```\n(.*?)```\n", text, re.M | re.S)
        self.assertEqual({name for name, _, _ in shown} | {"clear"}, set(HELD))
        for name, words, printed in shown:
            places = [TOP / word if "/" in word else word for word in words.split()]
            self.assertEqual(run(EXAMPLES / "python" / f"{name}.py", *places), (printed, 0, ""))

    def test_scenes_that_are_not_told(self):
        prop, sleeve = EXAMPLES / "prop.scene", EXAMPLES / "sleeve.scene"
        for name, words, printed, status in (
            ("report", [prop, sleeve], f"{sleeve} is of another universe or window\n", 1),
            ("report", [prop, EXAMPLES / "sleeve.txt"], "refused 1\n", 1),
            ("report", [EXAMPLES / "missing"], "", 1),
            ("answers", [EXAMPLES / "sleeve-shorter.scene"], "verdict clear\nends    clear\n", 0),
            ("answers", [EXAMPLES / "sleeve.txt"], "refused 1\n", 1),
            ("answers", [EXAMPLES / "missing"], "", 1),
            ("answers", [], "", 2),
            ("contacts", [EXAMPLES / "sleeve.txt"], "refused 1\n", 1),
            ("contacts", [EXAMPLES / "missing"], "", 1),
            ("contacts", [], "", 2),
        ):
            found = run(EXAMPLES / "python" / f"{name}.py", *words)
            self.assertEqual(found[:2], (printed, status))
            self.assertNotIn("Traceback", found[2])

    def test_the_space_is_written(self):
        with tempfile.TemporaryDirectory() as work:
            shape = pathlib.Path(work, "shape")
            for scene, status in ((EXAMPLES / "sleeve.scene", 0), (EXAMPLES / "sleeve.txt", 1)):
                self.assertEqual(run(EXAMPLES / "python" / "sweep.py", scene, shape)[1], status)
            half = b"((((W(WB(W(WBWW"
            self.assertEqual(shape.read_bytes(), b"BNT\2\0\3\4\4\x1f\0\0\0(" + half + half)

    def test_octrees_that_are_refused(self):
        tried = [(1, "PFFFFFFFF", "B\nF\n"), (0, "PFFFFFFFF", "refused 7\n"), (11, "F", "refused 2\n")]
        for bits, octree, printed in tried:
            with tempfile.NamedTemporaryFile("w") as text:
                text.write(octree)
                text.flush()
                self.assertEqual(run(EXAMPLES / "python" / "octree.py", bits, text.name)[0], printed)

    def test_scenes(self):
        for scene in sorted(EXAMPLES.glob("*.scene")):
            printed = run(EXAMPLES / "python" / "clear.py", scene)
            self.assertEqual(printed, (durbizhan.lines(scene.read_bytes()), 0, ""))

    def test_movers_that_are_refused(self):
        there = ["axes 4 bits 4 frame 5", "box 12 0 0  14 16 8", "mover 3 4 4"]
        for keys, line, status in (
            (["key 0  0 4 4", "key 16  8 4 4", "key 32  0 4 4"], "clear", 0),
            (["key 0  0 4 4"], "refused 11", 1),
            (["key 0  0 4 4", "key 32  1 4 4"], "refused 12", 1),
            (["key 0  0 4 4", "key 16  8 4 0.03125"], "refused 10", 1),
        ):
            with tempfile.NamedTemporaryFile("w", suffix=".keys") as text:
                text.write("\n".join([*there, *keys]))
                text.flush()
                self.assertEqual(run(EXAMPLES / "python" / "mover.py", text.name), (f"{line}\n", status, ""))
        for text in (EXAMPLES / "sleeve.txt", EXAMPLES / "missing"):
            self.assertEqual(run(EXAMPLES / "python" / "mover.py", text)[:2], ("", 2))


if __name__ == "__main__":
    unittest.main()
