package desugar;

import java.util.Arrays;
import java.util.HashSet;
import java.util.Set;
import org.objectweb.asm.ConstantDynamic;
import org.objectweb.asm.Opcodes;
import org.objectweb.asm.tree.AbstractInsnNode;
import org.objectweb.asm.tree.ClassNode;
import org.objectweb.asm.tree.InvokeDynamicInsnNode;
import org.objectweb.asm.tree.LdcInsnNode;
import org.objectweb.asm.tree.LineNumberNode;
import org.objectweb.asm.tree.MethodNode;

/** Finds, before anything is rewritten, the classes that cannot become class files of Java 8. They stay as they are, with their nest mates. */
final class Survey {
    private static final String ADVICE =
        "the class and its nest mates stay as they are, of a later version: compile them with --release 8, or leave them out";

    private Survey() {
    }

    /** The hosts of the nests that stay as they are. */
    static Set<String> staying(Work work) {
        Set<String> found = new HashSet<>();
        for (ClassNode each : work.program.all()) {
            if ((each.version & 0xFFFF) > Opcodes.V1_8 && stays(work, each)) {
                found.add(Program.nest(each));
            }
        }
        return found;
    }

    private static boolean stays(Work work, ClassNode host) {
        boolean found = false;
        for (MethodNode method : host.methods) {
            int line = 0;
            for (AbstractInsnNode each : method.instructions) {
                line = each instanceof LineNumberNode number ? number.line : line;
                if (isUnknown(each)) {
                    new Place(work, host, method, line).problem("a dynamic constant is of a kind that is not known here", ADVICE);
                    found = true;
                }
            }
        }
        return found;
    }

    private static boolean isUnknown(AbstractInsnNode each) {
        if (each instanceof LdcInsnNode load && load.cst instanceof ConstantDynamic constant) {
            return !Constants.isKnown(constant);
        }
        if (!(each instanceof InvokeDynamicInsnNode site)) {
            return false;
        }
        boolean isSwitch = Switches.is(site.bsm);
        return Arrays.stream(site.bsmArgs).anyMatch(word -> word instanceof ConstantDynamic && !(isSwitch && Switches.EnumLabel.of(word) != null));
    }
}
