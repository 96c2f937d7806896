package desugar;

import org.objectweb.asm.Opcodes;
import org.objectweb.asm.tree.ClassNode;
import org.objectweb.asm.tree.FieldInsnNode;
import org.objectweb.asm.tree.InsnList;
import org.objectweb.asm.tree.MethodInsnNode;
import org.objectweb.asm.tree.MethodNode;

/** Private members of nest mates, which Java 8 does not know: fields and constructors are opened to the package, other methods get accessors. */
final class Nests {
    /** The first version of class files that have nests. */
    private static final int FIRST = 55;

    private Nests() {
    }

    private static boolean hasNest(Place place) {
        return (place.host().version & 0xFFFF) >= FIRST;
    }

    /** The call in place of that of a private method, or null where it can stay. */
    static InsnList rewrite(Place place, MethodInsnNode call) {
        tellMissing(place, call.owner);
        Program.Method found = hasNest(place) ? place.work().program.method(call.owner, call.name, call.desc) : null;
        if (found == null || !found.is(Opcodes.ACC_PRIVATE) || place.work().program.own(found.owner().name) == null) {
            return null;
        }
        boolean isHere = found.owner() == place.host();
        if (call.name.equals("<init>")) {
            if (!isHere) {
                found.node().access &= ~Opcodes.ACC_PRIVATE;
                count(place, found.owner());
            }
            return null;
        }
        boolean isSpecial = found.is(Opcodes.ACC_STATIC) || call.getOpcode() == Opcodes.INVOKESPECIAL;
        if (isHere && isSpecial && call.owner.equals(found.owner().name)) {
            return null;
        }
        return isHere ? own(found) : of(place, found);
    }

    /** The call of a private method of the class itself: it is not looked for in the object's class. */
    private static InsnList own(Program.Method found) {
        InsnList list = new InsnList();
        int opcode = found.is(Opcodes.ACC_STATIC) ? Opcodes.INVOKESTATIC : Opcodes.INVOKESPECIAL;
        list.add(new MethodInsnNode(opcode, found.owner().name, found.node().name, found.node().desc, Program.isInterface(found.owner())));
        return list;
    }

    /** The call of a nest mate's accessor. */
    private static InsnList of(Place place, Program.Method found) {
        ClassNode mate = found.owner();
        int kind = found.is(Opcodes.ACC_STATIC) ? Opcodes.H_INVOKESTATIC : Opcodes.H_INVOKESPECIAL;
        Target target = new Target(kind, mate.name, found.node().name, found.node().desc, Program.isInterface(mate), mate.name);
        MethodNode made = place.work().accessor(mate, target);
        count(place, mate);
        InsnList list = new InsnList();
        list.add(new MethodInsnNode(Opcodes.INVOKESTATIC, mate.name, made.name, made.desc, Program.isInterface(mate)));
        return list;
    }

    /** Opens a nest mate's private field that is used here. */
    static void open(Place place, FieldInsnNode use) {
        tellMissing(place, use.owner);
        Program.Field found = hasNest(place) ? place.work().program.field(use.owner, use.name, use.desc) : null;
        if (found != null && found.is(Opcodes.ACC_PRIVATE) && found.owner() != place.host() && place.work().program.own(found.owner().name) != null) {
            found.node().access &= ~Opcodes.ACC_PRIVATE;
            count(place, found.owner());
        }
    }

    /** Says where a nest mate is used that is not there: what is used of it may be private. */
    private static void tellMissing(Place place, String owner) {
        Program program = place.work().program;
        if (!hasNest(place) || program.own(owner) != null) {
            return;
        }
        ClassNode nest = program.own(Program.nest(place.host()));
        boolean isMember = nest != null && nest.nestMembers != null && nest.nestMembers.contains(owner);
        if (isMember || owner.equals(Program.nest(place.host()))) {
            place.problem("a member of " + owner + " is used, which may be private, and that class is not there", "name the jar or folder that has it too");
        }
    }

    private static void count(Place place, ClassNode mate) {
        place.work().changed.add(mate.name);
        place.work().count("uses of private members of nest mates");
    }
}
