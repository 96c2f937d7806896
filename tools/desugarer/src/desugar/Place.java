package desugar;

import org.objectweb.asm.Opcodes;
import org.objectweb.asm.tree.ClassNode;
import org.objectweb.asm.tree.MethodNode;

/** Where an instruction stands that is rewritten: its class, its method, and its line (0 where none is known). */
record Place(Work work, ClassNode host, MethodNode method, int line) {
    /** Says that this place cannot be rewritten. */
    void problem(String what, String advice) {
        String where = host.name + "." + method.name + method.desc + (line > 0 ? " line " + line : "");
        work.problems.add(where, what, advice);
    }

    /** A new static method of the host for code that needs branches; it is in no one's way, and an interface may have it. */
    MethodNode helper(String name, String descriptor) {
        return new MethodNode(Opcodes.ACC_PRIVATE | Opcodes.ACC_STATIC | Opcodes.ACC_SYNTHETIC, work.free(host, name), descriptor, null, null);
    }

    /** Adds a method to the host. */
    void add(MethodNode made) {
        host.methods.add(made);
        work.changed.add(host.name);
    }
}
