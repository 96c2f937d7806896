"""Tests of cut instructions, and of the classes that stand for callers."""

import unittest

from class_file import ABSTRACT, INTERFACE, PUBLIC, STATIC, parse
from class_maker import ALOAD_0, ANEWARRAY, GETSTATIC, ICONST_1, INVOKESPECIAL, INVOKESTATIC, INVOKEVIRTUAL, POP, RETURN, ClassMaker, u2
from class_patch import CUT, NAME, CannotCut, Patch, stand_ins
from public_entry import CALLERS, Callers, Types, in_parts, without_callers
from refusals import instructions
from sarif import Moment


def cut(code: bytes, maker: ClassMaker, offset: int) -> tuple[bytes, set[tuple[str, str, str]]]:
    """The code of a method in which the instruction at an offset is cut out, and the methods that its class names then."""
    maker.add_method(STATIC, "m", "()V", 4, 4, code)
    data = maker.content()
    patch = Patch(data)
    patch.cut(parse(data).methods["m", "()V"].code_at + offset)
    found = parse(patch.content())
    member = found.methods["m", "()V"]
    return patch.content()[member.code_at:member.code_at + member.code_length], found.methods_named


class Cuts(unittest.TestCase):
    """Instructions that are cut out."""

    def of(self, code: bytes, maker: ClassMaker, takes_and_gives: str) -> None:
        """Sees that the first instruction becomes a call of this descriptor, and the rest stays."""
        written, named = cut(code + bytes([POP, RETURN]), maker, 0)
        self.assertEqual((written[0], written[-2:], len(written)), (INVOKESTATIC, bytes([POP, RETURN]), len(code) + 2))
        self.assertIn((CUT, NAME, takes_and_gives), named)

    def test_calls(self) -> None:
        maker = ClassMaker("a/B")
        self.of(maker.call(INVOKEVIRTUAL, "x/Y", "z", "(I[Lx/Z;J)Lx/W;"), maker, "(Ljava/lang/Object;ILjava/lang/Object;J)Lx/W;")
        maker = ClassMaker("a/B")
        self.of(maker.call(INVOKESTATIC, "x/Y", "z", "(Lx/Z;)I"), maker, "(Ljava/lang/Object;)I")
        maker = ClassMaker("a/B")
        self.of(maker.call(INVOKESPECIAL, "x/Y", "<init>", "()V"), maker, "(Ljava/lang/Object;)V")

    def test_fields_and_objects(self) -> None:
        maker = ClassMaker("a/B")
        self.of(maker.access(GETSTATIC, "x/Y", "z", "Lx/W;"), maker, "()Lx/W;")
        maker = ClassMaker("a/B")
        self.of(maker.new("x/Y")[:3], maker, "()Ljava/lang/Object;")

    def test_casts_and_arrays(self) -> None:
        maker = ClassMaker("a/B")
        written, _ = cut(bytes([ALOAD_0, 192]) + u2(maker.class_entry("x/Y")) + bytes([POP, RETURN]), maker, 1)
        self.assertEqual(written, bytes([ALOAD_0, 0, 0, 0, POP, RETURN]))
        maker = ClassMaker("a/B")
        written, _ = cut(bytes([ICONST_1, ANEWARRAY]) + u2(maker.class_entry("x/Y")) + bytes([POP, RETURN]), maker, 1)
        self.assertEqual([opcode for _, opcode in instructions(written)], [ICONST_1, ANEWARRAY, POP, RETURN])

    def test_others_stay(self) -> None:
        with self.assertRaises(CannotCut):
            cut(bytes([ALOAD_0, POP, RETURN]), ClassMaker("a/B"), 0)

    def test_what_stands_for_them(self) -> None:
        found = parse(stand_ins(["()V", "(I)J"]))
        self.assertEqual((found.name, list(found.methods)), (CUT, [(NAME, "()V"), (NAME, "(I)J")]))
        self.assertTrue(all(each.has(STATIC) for each in found.methods.values()))


class NoJdk:
    """A JDK without classes."""

    def read(self, _: str) -> None:
        """Nothing."""


class Public(unittest.TestCase):
    """The classes of callers."""

    def setUp(self) -> None:
        shop, visitor = ClassMaker("a/Shop"), ClassMaker("a/Visitor")
        shop.add_constructor()
        shop.add_method(PUBLIC, "take", "(La/Visitor;JLx/Lib;)La/Shop;", 2, 5, bytes([ALOAD_0, 176]))
        shop.add_method(0, "hidden", "()V", 0, 1, bytes([RETURN]))
        visitor.add_method(PUBLIC, "visit", "(La/Shop;)I", 1, 2, bytes([ICONST_1, 172]))
        library = {"a/Shop": parse(shop.content()), "a/Visitor": parse(visitor.content())}
        library["a/Visitor"].flags |= INTERFACE | ABSTRACT
        library["a/Visitor"].methods["visit", "(La/Shop;)I"].flags |= ABSTRACT
        self.files = Callers(Types(library, NoJdk()), sorted(library)).files()

    def test_calls_what_is_public(self) -> None:
        named = parse(self.files[CALLERS]).methods_named
        self.assertIn(("a/Shop", "take", "(La/Visitor;JLx/Lib;)La/Shop;"), named)
        self.assertIn(("a/Shop", "<init>", "()V"), named)
        self.assertNotIn(("a/Shop", "hidden", "()V"), named)

    def test_implements_interfaces_and_calls_back(self) -> None:
        found = parse(self.files["typestate/Caller$0"])
        self.assertEqual((found.interfaces, ("visit", "(La/Shop;)I") in found.methods), (["a/Visitor"], True))
        self.assertIn((CALLERS, "main", "()V"), found.methods_named)

    def test_has_objects_of_the_library(self) -> None:
        self.assertIn("()Lx/Lib;", [descriptor for name, descriptor in parse(self.files[CALLERS]).methods if name.startswith("give")])

    def test_parts(self) -> None:
        self.assertEqual([len(each) for each in in_parts([bytes(3000)] * 3)], [2, 1])

    def test_story_without_callers(self) -> None:
        texts = ["typestate.Callers.main calls typestate.Callers.part0()", "typestate.Callers.part0 calls a.B.c()", "close() in a.B.c: open -> closed",
                 "back in typestate.Callers.part0", "the loop of line 0 goes round again"]
        told = without_callers([Moment(text, "", "", 0, depth) for depth, text in enumerate(texts)])
        self.assertEqual([(each.text, each.depth) for each in told], [("the caller calls a.B.c()", 0), (texts[2], 1)])
