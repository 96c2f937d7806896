package desugar;

import org.objectweb.asm.ConstantDynamic;
import org.objectweb.asm.Handle;
import org.objectweb.asm.Opcodes;
import org.objectweb.asm.tree.AbstractInsnNode;
import org.objectweb.asm.tree.ClassNode;
import org.objectweb.asm.tree.FieldInsnNode;
import org.objectweb.asm.tree.FieldNode;
import org.objectweb.asm.tree.FrameNode;
import org.objectweb.asm.tree.InsnList;
import org.objectweb.asm.tree.InvokeDynamicInsnNode;
import org.objectweb.asm.tree.LdcInsnNode;
import org.objectweb.asm.tree.LineNumberNode;
import org.objectweb.asm.tree.MethodInsnNode;
import org.objectweb.asm.tree.MethodNode;

/** Rewrites a class: each instruction of each method, those methods that are added on the way too, and what Java 8 does not know. */
final class Rewriter {
    private final Work work;
    private final Reflection reflection;

    Rewriter(Work work, Reflection reflection) {
        this.work = work;
        this.reflection = reflection;
    }

    void rewrite(ClassNode host) {
        Lambdas.prepare(work, host);
        for (int at = 0; at < host.methods.size(); at++) {
            rewrite(host, host.methods.get(at));
        }
        if ((host.version & 0xFFFF) > Opcodes.V1_8) {
            work.changed.add(host.name);
        }
    }

    private void rewrite(ClassNode host, MethodNode method) {
        int line = 0;
        for (AbstractInsnNode each : method.instructions.toArray()) {
            line = each instanceof LineNumberNode number ? number.line : line;
            InsnList instead = instead(new Place(work, host, method, line), each);
            if (instead != null) {
                method.instructions.insertBefore(each, instead);
                method.instructions.remove(each);
                work.changed.add(host.name);
            }
        }
    }

    /** What stands in place of an instruction, or null where it stays. */
    private InsnList instead(Place place, AbstractInsnNode each) {
        if (each instanceof InvokeDynamicInsnNode site) {
            return insteadOf(place, site);
        }
        if (each instanceof MethodInsnNode call) {
            return insteadOf(place, call);
        }
        if (each instanceof FieldInsnNode use) {
            Nests.open(place, use);
            return reflection.rewrite(place, use);
        }
        return each instanceof LdcInsnNode load && load.cst instanceof ConstantDynamic constant ? Constants.rewrite(place, constant) : null;
    }

    private InsnList insteadOf(Place place, MethodInsnNode call) {
        if (Clones.is(call)) {
            return Clones.rewrite(place, call);
        }
        InsnList told = reflection.rewrite(place, call);
        return told == null ? Nests.rewrite(place, call) : told;
    }

    private static InsnList insteadOf(Place place, InvokeDynamicInsnNode site) {
        Handle bootstrap = site.bsm;
        if (Lambdas.is(site)) {
            return Lambdas.rewrite(place, site);
        }
        if (Concats.is(bootstrap)) {
            return Concats.rewrite(place, site);
        }
        if (Records.is(bootstrap)) {
            return Records.rewrite(place, site);
        }
        if (Switches.is(bootstrap)) {
            return Switches.rewrite(place, site);
        }
        place.problem("invokedynamic by " + bootstrap.getOwner() + "." + bootstrap.getName() + " stays, and is refused where it may run",
            "begin with an entry that does not reach it, or write this place in Java");
        return null;
    }

    /** Makes a class file of version 52 of a later one: takes out what that version does not know; and frames where a version has none. */
    static void downgrade(ClassNode host) {
        if ((host.version & 0xFFFF) < Opcodes.V1_6) {
            host.methods.forEach(Rewriter::withoutFrames);
        }
        if ((host.version & 0xFFFF) <= Opcodes.V1_8) {
            return;
        }
        host.version = Opcodes.V1_8;
        host.access &= ~Opcodes.ACC_RECORD;
        host.module = null;
        host.nestHostClass = null;
        host.nestMembers = null;
        host.permittedSubclasses = null;
        host.recordComponents = null;
        host.attrs = null;
        for (MethodNode each : host.methods) {
            each.attrs = null;
        }
        for (FieldNode each : host.fields) {
            each.attrs = null;
        }
    }

    private static void withoutFrames(MethodNode method) {
        for (AbstractInsnNode each : method.instructions.toArray()) {
            if (each instanceof FrameNode) {
                method.instructions.remove(each);
            }
        }
    }
}
