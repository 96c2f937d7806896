#!/usr/bin/env python3
"""What the program has to print of the cases, from their texts alone.

  expect.py ASSEMBLER CASES > stdout

ASSEMBLER is the folder of `assemble.py`, which turns each `source.txt` into class files; they are written too. Nothing here comes
from the program. The table of plain instructions is written after JVMS 6.5. What a search of the program finds is not computed:
it stands in comments of the texts, behind the instruction or the handler:

  # refused REASON          the method is refused here; behind a superclass: so is its class
  # resolves MEMBER         where a member is found, if not in the class that the instruction names
  # chosen METHOD           the target of a special call, if it is not the resolved method
"""
import os
import re
import sys

PLAIN = {}


def plain(names, pops, pushes, stores="", raises=()):
    """`pushes` and `stores` by signs: p a primitive, n null, l the local variable, a digit a popped unit."""
    for name in names.split():
        PLAIN[name] = (pops, pushes, stores, list(raises))


ARITHMETIC = "java/lang/ArithmeticException"
NULL = "java/lang/NullPointerException"
INDEX = "java/lang/ArrayIndexOutOfBoundsException"
STORE = "java/lang/ArrayStoreException"
CAST = "java/lang/ClassCastException"
SIZE = "java/lang/NegativeArraySizeException"
INIT = ["java/lang/ExceptionInInitializerError", "java/lang/NoClassDefFoundError"]

plain("nop goto goto_w", 0, "")
plain("aconst_null", 0, "n")
plain("iconst_m1 iconst_0 iconst_1 iconst_2 iconst_3 iconst_4 iconst_5 fconst_0 fconst_1 fconst_2 bipush sipush", 0, "p")
plain("lconst_0 lconst_1 dconst_0 dconst_1 ldc2_w", 0, "pp")
plain("iload fload", 0, "p")
plain("lload dload", 0, "pp")
plain("aload", 0, "l")
plain("istore fstore", 1, "", "p")
plain("lstore dstore", 2, "", "pp")
plain("astore", 1, "", "0")
plain("iinc", 0, "", "p")
plain("pop", 1, "")
plain("pop2", 2, "")
plain("dup", 1, "00")
plain("dup_x1", 2, "101")
plain("dup_x2", 3, "2012")
plain("dup2", 2, "0101")
plain("dup2_x1", 3, "12012")
plain("dup2_x2", 4, "230123")
plain("swap", 2, "10")
plain("iadd isub imul ishl ishr iushr iand ior ixor fadd fsub fmul fdiv frem", 2, "p")
plain("idiv irem", 2, "p", "", [ARITHMETIC])
plain("ladd lsub lmul land lor lxor dadd dsub dmul ddiv drem", 4, "pp")
plain("ldiv lrem", 4, "pp", "", [ARITHMETIC])
plain("lshl lshr lushr", 3, "pp")
plain("ineg fneg i2f f2i i2b i2c i2s", 1, "p")
plain("lneg dneg l2d d2l", 2, "pp")
plain("i2l i2d f2l f2d", 1, "pp")
plain("l2i l2f d2i d2f", 2, "p")
plain("lcmp dcmpl dcmpg", 4, "p")
plain("fcmpl fcmpg", 2, "p")
plain("ifeq ifne iflt ifge ifgt ifle ifnull ifnonnull tableswitch lookupswitch", 1, "")
plain("if_icmpeq if_icmpne if_icmplt if_icmpge if_icmpgt if_icmple if_acmpeq if_acmpne", 2, "")
plain("instanceof", 1, "p")

LETTERS = {"boolean": "Z", "char": "C", "float": "F", "double": "D", "byte": "B", "short": "S", "int": "I", "long": "J"}


def units(descriptor):
    """The units of a type: `p` a primitive, `r` a reference."""
    if descriptor[0] in "JD":
        return "pp"
    if descriptor[0] in "L[":
        return "r"
    return "" if descriptor == "V" else "p"


def signature(descriptor):
    inner, result = descriptor[1:].split(")")
    return "".join(units(t) for t in re.findall(r"\[*(?:L[^;]*;|[BCDFIJSZ])", inner)), units(result)


class Case:
    def __init__(self, text, tool):
        self.tool = tool
        self.notes = {n: line.split("#", 1)[1].strip() for n, line in enumerate(text.split("\n"), 1) if " # " in line}
        self.classes = {c.name: c for c in tool.read_listing(text)}
        self.files = tool.assemble(text)
        found = re.search(r"^class .*?(\S+)\nsuper \S+ # refused (\S+)$", text, re.MULTILINE)
        self.without_superclass = found.groups() if found else None
        # the assembler keeps no line of a handler: the notes are found by its words
        self.handler_notes = {" ".join(line.split("#", 1)[0].split()[1:]): line.split("#", 1)[1].strip()
                              for line in text.split("\n") if line.split()[:1] == ["handler"] and "#" in line}

    def initialised(self, name):
        """Whether the class or one above it has an initialiser with code."""
        listing = self.classes.get(name)
        if listing is None:
            return False
        if any(m.name == "<clinit>" and m.descriptor == "()V" and m.lines for m in listing.methods):
            return True
        return any(self.initialised(above) for above in [listing.super_class] + listing.interfaces if above)

    def superclass_offset(self, name):
        """Where the superclass stands in the file: after the version, the constant pool, the flags and the class (JVMS 4.1)."""
        sizes = {3: 5, 4: 5, 5: 9, 6: 9, 7: 3, 8: 3, 15: 4, 16: 3}
        pool = self.tool.Parsed(self.files[name]).pool.values()
        return 10 + sum(3 + len(e[1]) if e[0] == 1 else sizes.get(e[0], 5) for e in pool) + 4

    def lines(self):
        if self.without_superclass:
            name, reason = self.without_superclass
            return ["refused %s.class %d %s" % (name, self.superclass_offset(name), reason)]
        out = []
        for name in sorted(self.classes, key=lambda n: n.encode()):
            for method in self.classes[name].methods:
                if method.lines:
                    out += self.of_method(name, method)
        return out

    def of_method(self, name, method):
        full = "%s.%s%s" % (name, method.name, method.descriptor)
        start = self.tool.code_start(self.files[name], method.name + method.descriptor)
        code = Code(self, full, method)
        for offset, _, note in code.instructions:
            if note.startswith("refused "):
                return [full, "refused %s.class %d %s" % (name, start + offset, note.split()[1])]
        for place, handler in enumerate(method.handlers):
            note = self.handler_notes.get(" ".join(str(w) for w in handler), "")
            if note.startswith("refused "):
                return [full, "refused %s.class %d %s" % (name, start + code.length + 2 + 8 * place, note.split()[1])]
        params = len(signature(method.descriptor)[0]) + (0 if "static" in code.flags or method.name == "<clinit>" else 1)
        return [full, "slots %d stack %d params %d" % (method.locals, method.stack, params)] + code.nodes()


class Code:
    def __init__(self, case, full, method):
        self.case, self.full, self.method = case, full, method
        self.flags = ["static"] if method.flags & 8 else []
        pool = case.tool.Pool()
        self.instructions, self.length = [], 0
        for number, _, words in method.lines:
            size = len(case.tool.instruction(pool, words, self.length)[0])
            self.instructions.append((self.length, words, case.notes.get(number, "")))
            self.length += size
        self.after = {o: n for (o, _, _), n in zip(self.instructions, [i[0] for i in self.instructions[1:]] + [None])}

    def targets(self, words):
        name = words[0]
        if name == "tableswitch":
            return [int(w) for w in words[3:]]
        if name == "lookupswitch":
            return [int(words[1])] + [int(w.split(":")[1]) for w in words[2:]]
        return [int(words[1])] if name.startswith(("if", "goto")) else []

    def follows(self, offset, words):
        name = words[0]
        onward = name not in ("goto", "goto_w", "tableswitch", "lookupswitch", "athrow") and not name.endswith("return")
        found = []
        for next_one in ([self.after[offset]] if onward else []) + self.targets(words):
            if next_one not in found:
                found.append(next_one)
        return found

    def nodes(self):
        by_offset = {o: (w, n) for o, w, n in self.instructions}
        heights, todo, lines = {0: 0}, [0], {}
        while todo:
            offset = todo.pop()
            words, note = by_offset[offset]
            line, after = self.node(offset, words, note, heights[offset])
            lines[offset] = line
            assert after <= self.method.stack, (self.full, offset)
            covering = [h for h in self.method.handlers if h[0] <= offset < h[1]]
            for next_one, height in [(n, after) for n in self.follows(offset, words)] + [(h[2], 1) for h in covering]:
                assert heights.get(next_one, height) == height, (self.full, next_one)
                if next_one not in heights:
                    heights[next_one] = height
                    todo.append(next_one)
        return [lines[o] for o in sorted(lines)]

    def node(self, offset, words, note, height):
        op, pops, pushes, raises, trigger = self.operation(offset, words, note, self.method.locals + height)
        line = "%d: %s" % (offset, op)
        line += "".join([" >"] * bool(self.follows(offset, words)) + [" %d" % n for n in self.follows(offset, words)])
        covering = [h for h in self.method.handlers if h[0] <= offset < h[1]]
        line += "".join([" !"] * bool(covering) + [" %d/%s" % (h[2], "*" if h[3] == "any" else h[3]) for h in covering])
        if trigger:
            line += " init " + trigger
            if self.case.initialised(trigger):
                raises = raises + INIT
        line += "".join([" throws"] * bool(raises) + [" " + r for r in raises])
        assert pops <= height, (self.full, offset)
        return line, height - pops + pushes

    def site(self, offset, name):
        return "[New %s %d %s]" % (self.full, offset, name)

    def operation(self, offset, words, note, top):
        """The operation as text, the units that it pops and pushes, what it raises, and its trigger."""
        name, rest = words[0], words[1:]
        if name == "wide":
            name, rest = rest[0], rest[1:]
        short = re.fullmatch(r"([ilfda](?:load|store))_([0-3])", name)
        if short:
            name, rest = short.group(1), [short.group(2)]
        if name in ("ldc", "ldc_w"):
            if rest[0] in ("int", "float"):
                return "moves %d<prim" % top, 0, 1, [], None
            kind = {"string": "java/lang/String", "class": "java/lang/Class"}[rest[0]]
            return "constant [Boot - 0 %s] target %d" % (kind, top), 0, 1, [], None
        if name in PLAIN:
            return self.moves(name, rest, top)
        if name in ("getstatic", "putstatic", "getfield", "putfield"):
            return self.access(name, rest, note, top)
        if name.startswith("invoke"):
            return self.call(name, rest, note, top)
        if name in ("aaload", "iaload", "laload", "faload", "daload", "baload", "caload", "saload"):
            base = top - 2
            op = "load element array %d target %d" % (base, base) if name == "aaload" else "probe %d" % base
            return op, 2, 2 if name[0] in "ld" else 1, [NULL, INDEX], None
        if name in ("aastore", "iastore", "lastore", "fastore", "dastore", "bastore", "castore", "sastore"):
            pops = 4 if name[0] in "ld" else 3
            base = top - pops
            if name == "aastore":
                return "store element array %d value %d" % (base, base + 2), 3, 0, [NULL, INDEX, STORE], None
            return "probe %d" % base, pops, 0, [NULL, INDEX], None
        if name == "arraylength":
            return "probe %d" % (top - 1), 1, 1, [NULL], None
        if name in ("monitorenter", "monitorexit"):
            return "probe %d" % (top - 1), 1, 0, [NULL], None
        if name == "new":
            return "new %s target %d" % (self.site(offset, rest[0]), top), 0, 1, [], rest[0]
        if name == "newarray":
            return "new array %s target %d" % (self.site(offset, "[" + LETTERS[rest[0]]), top - 1), 1, 1, [SIZE], None
        if name == "anewarray":
            array = "[" + (rest[0] if rest[0][0] == "[" else "L%s;" % rest[0])
            return "new array %s target %d" % (self.site(offset, array), top - 1), 1, 1, [SIZE], None
        if name == "multianewarray":
            count = int(rest[1])
            sites = " ".join(self.site(offset, rest[0][n:]) for n in range(count))
            return "new array %s target %d" % (sites, top - count), count, 1, [SIZE], None
        if name == "athrow":
            return "throw %d" % (top - 1), 1, 0, [NULL], None
        if name == "checkcast":
            return "cast %s slot %d" % (rest[0], top - 1), 1, 1, [CAST], None
        if name == "return":
            return "return", 0, 0, [], None
        if name == "areturn":
            return "return %d" % (top - 1), 1, 0, [], None
        if name in ("ireturn", "freturn", "lreturn", "dreturn"):
            return "return", 2 if name[0] in "ld" else 1, 0, [], None
        raise ValueError(name)

    def moves(self, name, rest, top):
        pops, pushes, stores, raises = PLAIN[name]
        base = top - pops
        local = int(rest[0]) if re.search(r"load|store|iinc", name) else None
        made = []
        for start, signs in ((local, stores), (base, pushes)):
            for place, sign in enumerate(signs):
                source = {"p": "prim", "n": "null", "l": local}.get(sign)
                source = base + int(sign) if source is None else source
                if source != start + place:
                    made.append("%d<%s" % (start + place, source))
        made += ["%d<prim" % (base + k) for k in range(len(pushes), pops)]
        return " ".join(["moves"] + made), pops, len(pushes), raises, None

    def found(self, note, default):
        words = note.split()
        return words[words.index("resolves") + 1] if "resolves" in words else default

    def access(self, name, rest, note, top):
        owner, _, field = rest[0].rpartition(".")
        found = self.found(note, "%s.%s:%s" % (owner, field, rest[1]))
        kinds = units(rest[1])
        trigger = found.split(":")[0].rpartition(".")[0]
        if name == "getstatic":
            if kinds == "r":
                return "load static %s target %d" % (found, top), 0, 1, [], trigger
            return " ".join(["moves"] + ["%d<prim" % (top + k) for k in range(len(kinds))]), 0, len(kinds), [], trigger
        if name == "putstatic":
            base = top - len(kinds)
            if kinds == "r":
                return "store static %s value %d" % (found, base), 1, 0, [], trigger
            return " ".join(["moves"] + ["%d<prim" % (base + k) for k in range(len(kinds))]), len(kinds), 0, [], trigger
        if name == "getfield":
            base = top - 1
            op = "load %s object %d target %d" % (found, base, base) if kinds == "r" else "probe %d" % base
            return op, 1, len(kinds), [NULL], None
        base = top - 1 - len(kinds)
        op = "store %s object %d value %d" % (found, base, base + 1) if kinds == "r" else "probe %d" % base
        return op, 1 + len(kinds), 0, [NULL], None

    def call(self, name, rest, note, top):
        kind = name[len("invoke"):]
        owner, member, descriptor = self.case.tool.split_method(rest[0])
        parameters, result = signature(descriptor)
        pops = ("" if kind == "static" else "r") + parameters
        base = top - len(pops)
        found = self.found(note, rest[0])
        words = note.split()
        op = "call %s %s" % (kind, found)
        if kind in ("special", "static"):
            op += " chosen " + (words[words.index("chosen") + 1] if "chosen" in words else found)
        op += " named " + member + descriptor
        if pops:
            op += " args " + " ".join(str(base + k) if u == "r" else "." for k, u in enumerate(pops))
        if result == "r":
            op += " result %d" % base
        trigger = found.split("(")[0].rpartition(".")[0] if kind == "static" else None
        return op, len(pops), len(result), [] if kind == "static" else [NULL], trigger


def main(words):
    sys.path.insert(0, words[0])
    import assemble
    folder = words[1]
    for name in sorted(os.listdir(folder), key=lambda n: n.encode()):
        with open(os.path.join(folder, name, "source.txt"), encoding="utf-8") as file:
            case = Case(file.read(), assemble)
        for class_name, data in case.files.items():
            path = os.path.join(folder, name, *class_name.split("/")) + ".class"
            os.makedirs(os.path.dirname(path), exist_ok=True)
            with open(path, "wb") as file:
                file.write(data)
        print(name)
        print("\n".join(case.lines()) + "\n")


if __name__ == "__main__":
    main(sys.argv[1:])
