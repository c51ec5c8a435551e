"""Universe, Scene, Shape, the stand-ins and the verdicts: their methods against the functions and against the
voxels."""
import array
import itertools
import pickle
import threading
import unittest

import durbizhan
from durbizhan import Box, Clear, Cut, Hit, Key, Mover, Scene, Shape, Span, Universe, Window

from .cases import EXAMPLES, FIRST, LINE, MET, PLANE, ROWS, SECOND, SPAN, scene_file


def example(name):
    return Scene.from_bytes((EXAMPLES / f"{name}.scene").read_bytes())


def black(words, rows, balls, voxel):
    """Whether a tree holds the centre of a voxel, in whole numbers, as rules 2.3, 2.9, 3.1 and 3.3 say."""
    pending = []
    for word in words:
        if word < 2:
            pending.append(word == 1)
        elif word < 5:
            later, earlier = pending.pop(), pending.pop()
            pending.append((earlier or later, earlier and later, earlier and not later)[word - 2])
        elif word < 512:
            a0, *others = rows[5 * (word - 256) : 5 * (word - 256) + 5]
            pending.append(2 * a0 + sum(a * (2 * c + 1) for a, c in zip(others, voxel)) >= 0)
        else:
            *centre, radius = balls[4 * (word - 512) : 4 * (word - 512) + 4]
            pending.append(sum((2 * c + 1 - 2 * p) ** 2 for p, c in zip(centre, voxel[:-1])) <= 4 * radius**2)
    return pending[0]


class Universes(unittest.TestCase):
    def test_questions(self):
        universe = Universe(4, 6, 11)
        self.assertEqual((universe.levels, universe.frames, universe.window), (29, 2048, (0, 2047)))
        self.assertEqual([universe.side(axis) for axis in (1, 2, 3, 4)], [64, 64, 64, 2048])
        self.assertEqual(universe.room(4), durbizhan.room(universe, 4, 0))
        self.assertEqual(Universe(1, 0, 0).window, Window(0, 0))

    def test_refused(self):
        for universe in (Universe(1, 1, 0), Universe(5, 0, 0), Universe(2, 2, 1 << 60)):
            for question in ("levels", "frames", "window"):
                with self.assertRaises(durbizhan.BadUniverse):
                    getattr(universe, question)
            with self.assertRaises(durbizhan.BadUniverse):
                universe.side(1)
            with self.assertRaises(durbizhan.BadUniverse):
                universe.room(1)
        for axis in (0, 5, -1):
            with self.assertRaises(ValueError):
                Universe(4, 6, 11).side(axis)


class Verdicts(unittest.TestCase):
    def test_clear(self):
        self.assertFalse(Clear())
        self.assertTrue(Clear().clear)
        self.assertFalse(hasattr(Clear(), "first"))
        self.assertEqual(str(Clear()), "clear")
        self.assertEqual(Clear(), Clear())

    def test_hit(self):
        hit = Hit(0, 0, 1)
        self.assertTrue(hit)
        self.assertFalse(hit.clear)
        self.assertEqual((hit.first, hit.last, hit.voxels, str(hit)), (0, 0, 1, "hit first 0 last 0 voxels 1"))
        self.assertNotEqual(hit, Hit(0, 0, 2))
        self.assertNotEqual(hit, Clear())

    def test_a_clearance_is_its_verdict(self):
        self.assertFalse(durbizhan.Clearance(Clear(), SPAN))
        self.assertTrue(durbizhan.Clearance(Hit(0, 0, 1), SPAN))


class Refusals(unittest.TestCase):
    def test_each_has_its_number_and_its_line(self):
        kinds = durbizhan.refusals.REFUSALS
        self.assertEqual(sorted(kinds), list(range(1, 13)))
        for number, kind in kinds.items():
            made = durbizhan.refusals.refusal(number, 77, False)
            self.assertIsInstance(made, durbizhan.Refused)
            self.assertIs(type(made), kind)
            self.assertEqual(made.number, number)
            self.assertEqual(str(made), "refused 6 needed 77" if number == 6 else f"refused {number}")

    def test_pickled(self):
        short = pickle.loads(pickle.dumps(durbizhan.NoRoom(77, True)))
        self.assertEqual((short.needed, short.of_work), (77, True))
        self.assertEqual((str(short), repr(short)), ("refused 6 needed 77", "NoRoom(77, True)"))


class Scenes(unittest.TestCase):
    def test_from_bytes(self):
        for version, file in ((1, (EXAMPLES / "program.scene").read_bytes()), (2, scene_file(2)), (3, scene_file(3))):
            scene = durbizhan.scene(file)
            self.assertEqual(scene, Scene.from_bytes(bytearray(file)))
            self.assertEqual((scene.version, scene.universe, scene.window), (version, PLANE, (0, 3)))
            self.assertEqual((scene.rows, scene.balls), (array.array("q", ROWS), array.array("q")))
            self.assertEqual((scene.first, scene.second), (array.array("H", FIRST), array.array("H", SECOND)))

    def test_balls_and_frames(self):
        file = scene_file(universe=(2, 3, 4), balls=[-1, 0, 0, 2, 5, 0, 0, 1024], first=[512, 513, 2], window=(1, 15))
        scene = Scene.from_bytes(file)
        self.assertEqual((scene.universe, scene.window), (Universe(2, 3, 4), Window(1, 15)))
        self.assertEqual((list(scene.balls), list(scene.first)), ([-1, 0, 0, 2, 5, 0, 0, 1024], [512, 513, 2]))

    def test_room(self):
        self.assertEqual(Scene(PLANE, ROWS, [], FIRST, [1], (0, 3)).room(), durbizhan.room(PLANE, 2, 0))
        for first, second in (([512], [1]), ([1], [512])):
            self.assertEqual(Scene(PLANE, [], [0, 0, 0, 0], first, second, (0, 3)).room(), 31)
        self.assertEqual(Scene(PLANE, [], [0, 0, 0, 0], [1], [1], (0, 3)).room(), 1)

    def test_the_examples_have_the_lines_of_the_program(self):
        names = ["program", "sleeve", "sleeve-shorter", "sleeve-longer", "prop", "wall", "two-heads", "long-shot"]
        for name in names:
            scene = example(name)
            file = (EXAMPLES / f"{name}.scene").read_bytes()
            first = f"axes {scene.universe.axes} bits {scene.universe.bits}"
            first += "" if scene.version == 1 else f" frame {scene.universe.frame_bits}"
            second = f"leaves {scene.leaves()} raw {len(scene.raw().expression)} room {scene.room()}"
            self.assertEqual(f"{first}\n{second}\n{scene.verdict()}\n", durbizhan.lines(file), name)
            verdict = scene.verdict()
            self.assertEqual(scene.verdict_at_once(), verdict, name)
            self.assertEqual(scene.ends(), Span(verdict.first, verdict.last) if verdict else Clear(), name)

    def test_what_the_readme_says(self):
        self.assertEqual(example("sleeve").verdict(), Hit(9, 9, 16))
        self.assertEqual(len(example("sleeve").raw().expression), 299)
        self.assertLess(len(example("sleeve").merged().expression), 299)
        self.assertEqual(example("sleeve").contacts(), (0, 16, 16))
        self.assertEqual(example("sleeve").ends(), Span(9, 9))
        self.assertEqual(example("sleeve-shorter").verdict(), Clear())
        self.assertEqual(example("sleeve-shorter").contacts(), (0, 0, 0))
        self.assertEqual(example("two-heads").verdict(), Hit(4, 11, 32))
        self.assertEqual(example("long-shot").verdict(), Hit(1088, 1099, 192))

    def test_conversions(self):
        for name in ("program", "sleeve", "two-heads"):
            scene = example(name)
            surfaces = (scene.universe, scene.rows, scene.balls)
            for tree, words in ((1, [scene.first]), (2, [scene.second]), (None, [scene.first, scene.second])):
                count = "two" if tree is None else "one"
                for kind in ("raw", "merged"):
                    expression = getattr(durbizhan, f"{kind}_{count}")(*surfaces, *words)
                    self.assertEqual(getattr(scene, kind)(tree), (scene.universe, expression))
                    looked = getattr(durbizhan, f"pruned_{kind}_{count}")(*surfaces, *words).looked
                    self.assertEqual(getattr(scene, f"pruned_{kind}")(tree), ((scene.universe, expression), looked))
                self.assertEqual(scene.raw(tree).merge(), scene.merged(tree))
            for tree in (0, 3):
                with self.assertRaises(ValueError):
                    scene.raw(tree)

    def test_lent_room(self):
        scene, room = example("program"), bytearray(16)
        self.assertEqual(scene.verdict(room), Hit(1, 2, 2))
        self.assertEqual(room, MET + bytes(3))
        for question in (scene.raw, scene.merged):
            room = bytearray(13)
            self.assertIs(question(out=room).expression.obj, room)
            self.assertEqual(room, MET)
        work = array.array("q", bytes(8 * 3 * 5 * 6))
        for question in (scene.pruned_raw, scene.pruned_merged):
            room = bytearray(13)
            self.assertIs(question(work=work, out=room).shape.expression.obj, room)
            self.assertEqual(room, MET)
            with self.assertRaises(durbizhan.NoRoom):
                question(work=work[1:])

    def test_three_numbers_serve_as_a_universe(self):
        scene = Scene((2, 2, 2), ROWS, [], FIRST, SECOND, (0, 3))
        self.assertEqual((scene.universe.levels, scene.window.last, scene.version), (4, 3, None))
        self.assertEqual(scene.verdict(), Hit(1, 2, 2))

    def test_every_voxel_has_the_colour_of_the_tree_at_its_centre(self):
        rows = [-3, 2, -1, 1, 0, 9, -1, -3, 0, 2]
        balls = [1, 3, 2, 2, 4, 0, 0, 3]
        words = [256, 257, 3, 512, 513, 4, 2]
        scene = Scene(Universe(4, 2, 1), rows, balls, words, [1], Window(0, 1))
        shape, found = scene.merged(), 0
        for voxel in itertools.product(range(4), range(4), range(4), range(2)):
            found += shape.colour(*voxel)
            self.assertEqual(shape.colour(*voxel), black(words, rows, balls, voxel), voxel)
        self.assertTrue(10 < found < 118)
        self.assertEqual(shape.numbers().volume, found)
        self.assertEqual(scene.verdict().voxels, found)

    def test_threads(self):
        scene, found = example("sleeve"), []
        threads = [threading.Thread(target=lambda: found.append(scene.verdict())) for _ in range(8)]
        for thread in threads:
            thread.start()
        for thread in threads:
            thread.join()
        self.assertEqual(found, [Hit(9, 9, 16)] * 8)


class Shapes(unittest.TestCase):
    def test_files(self):
        shape = Shape(Universe(*LINE), SPAN)
        self.assertEqual(Shape.from_bytes(shape.to_bytes()), shape)
        room = bytearray(17)
        self.assertIs(shape.to_bytes(room).obj, room)
        self.assertEqual(room, shape.to_bytes())
        self.assertEqual(Shape.from_bytes(room, bytearray(5)).expression, SPAN)
        with self.assertRaises(durbizhan.NoRoom):
            Shape.from_bytes(room, bytearray(4))

    def test_questions(self):
        shape = Shape(Universe(*PLANE), MET)
        self.assertIsNone(shape.well_formed())
        self.assertEqual(shape.numbers(), (2, Hit(1, 2, 2)))
        self.assertEqual(shape.numbers((2, 3)), (2, Hit(2, 2, 1)))
        self.assertEqual(shape.report(), (array.array("Q", [0, 1, 1, 0]), 2))
        self.assertEqual(shape.report((1, 1), array.array("Q", [7])).total, 1)
        self.assertEqual((shape.colour(2, 1), shape.colour(1, 2)), (1, 0))
        self.assertEqual(shape.part(b"\0"), (1, 1))
        self.assertEqual(shape.sweep(2), (Universe(1, 0, 2), b"(W(BW"))
        self.assertEqual(shape.merge(), shape)
        self.assertEqual(Shape(Universe(*LINE), b"(B(BW").held(), 4)
        self.assertEqual(Shape(PLANE, MET).numbers(), shape.numbers())

    def test_room(self):
        shape = Shape(Universe(*PLANE), MET)
        for question, length in ((lambda out: shape.sweep(2, out), 5), (shape.merge, 13)):
            room = bytearray(length)
            self.assertIs(question(room).expression.obj, room)
            with self.assertRaises(durbizhan.NoRoom):
                question(bytearray(length - 1))

    def test_refused(self):
        bad = [(PLANE, b"(", durbizhan.BadExpression), ((5, 2, 2), MET, durbizhan.BadUniverse)]
        for universe, expression, kind in bad:
            shape = Shape(Universe(*universe), expression)
            for question in ("well_formed", "numbers", "report", "merge", "held", "to_bytes"):
                with self.assertRaises(kind):
                    getattr(shape, question)()
            for question in (lambda: shape.colour(0), lambda: shape.part(b""), lambda: shape.sweep(1)):
                with self.assertRaises(kind):
                    question()

    def test_octrees(self):
        octree, expression = ((EXAMPLES / f"solid.{kind}").read_bytes().rstrip() for kind in ("octree", "expression"))
        solid = Shape.octree_import((3, 2, 2), octree)
        self.assertEqual(solid, (Universe(3, 2, 2), expression))
        self.assertEqual(solid.octree_export(), octree)
        room = bytearray(len(octree))
        self.assertIs(solid.octree_export(room).obj, room)
        with self.assertRaises(durbizhan.NoRoom):
            Shape.octree_import((3, 2, 2), octree, bytearray(len(expression) - 1))
        with self.assertRaises(durbizhan.BadUniverse):
            Shape(Universe(*PLANE), MET).octree_export()


class StandIns(unittest.TestCase):
    def test_box(self):
        box = Box((0, 4, 4), (3, 8, 8), (1, 0, 0))
        self.assertEqual(box.rows(), durbizhan.box((0, 4, 4), (3, 8, 8), (1, 0, 0)))
        self.assertEqual(box.rows(), example("sleeve").rows[:30])
        self.assertEqual(box.words(), list(example("sleeve").first))
        self.assertEqual(box.words(6), list(example("sleeve").second))
        with self.assertRaises(durbizhan.BadProxy):
            Box((0, 0, 0), (-1, 0, 0)).rows()

    def test_cut(self):
        self.assertEqual(Cut((1, 0, 0), -2.5, (0.5, 0, 0)).rows(), array.array("q", [-640, 256, 0, 0, -128]))
        self.assertEqual(Cut((1, 0, 0), -2.5).rows(), array.array("q", [-640, 256, 0, 0, 0]))
        with self.assertRaises(durbizhan.BadProxy):
            Cut((65, 0, 0), 0).rows()

    def test_mover(self):
        keys = [Key(0, (0, 4, 4)), Key(16, (14, 4, 4)), Key(20, (14, 4, 4)), Key(32, (2, 4, 4))]
        banister = Box((12, 0, 0), (14, 16, 8))
        static = (Universe(4, 4, 5), banister.rows(), [], banister.words())
        sleeve = Mover(Box((0, 0, 0), (3, 4, 4)), keys)
        self.assertEqual(sleeve.verdict(*static).verdict, Hit(11, 24, 224))
        self.assertEqual(Mover(sleeve.box, keys[1:3]).verdict(*static).verdict, Clear())
        room = bytearray(1 << 16)
        self.assertIs(sleeve.verdict(*static, room).expression.obj, room)
        for mover, kind in (
            (Mover(sleeve.box, keys[:1]), durbizhan.BadKeys),
            (Mover(sleeve.box, [keys[0], Key(32, (1, 4, 4))]), durbizhan.BadStep),
            (Mover(Box((0, 0, 0), (3, 4, 4), (1, 0, 0)), keys), durbizhan.BadProxy),
        ):
            with self.assertRaises(kind):
                mover.verdict(*static)
        with self.assertRaises(ValueError):
            Mover(sleeve.box, [Key(0, (0, 4)), Key(1, (0, 4, 4, 4))]).verdict(*static)


if __name__ == "__main__":
    unittest.main()
