package desugar;

import java.util.ArrayList;
import java.util.HashMap;
import java.util.HashSet;
import java.util.List;
import java.util.Map;
import java.util.Set;
import java.util.TreeMap;
import org.objectweb.asm.Handle;
import org.objectweb.asm.Opcodes;
import org.objectweb.asm.tree.ClassNode;
import org.objectweb.asm.tree.MethodNode;

/** What a run has and makes: the program, the classes that are changed or new, the accessors, and what could not be done. */
final class Work {
    final Program program = new Program();
    final Problems problems = new Problems();
    /** The names of the classes that were changed. */
    final Set<String> changed = new HashSet<>();
    /** The classes that were made: one for each lambda. */
    final List<ClassNode> made = new ArrayList<>();
    /** How often each kind of place was rewritten. */
    final Map<String, Integer> counts = new TreeMap<>();
    /** The bodies of lambdas that were made static, by class, name and the descriptor that they had. */
    final Map<String, MethodNode> bodies = new HashMap<>();
    /** The names of the methods that copy arrays, by their class and the array's. */
    final Map<String, String> copies = new HashMap<>();
    /** Whether typestate.Copy is called, and typestate.Reflect or typestate.Resources. */
    boolean usesCopy, usesReflect;
    private final Map<String, MethodNode> accessors = new HashMap<>();
    private final Map<String, Integer> numbers = new HashMap<>();

    void count(String kind) {
        counts.merge(kind, 1, Integer::sum);
    }

    /** A name for a new method of a class, which none of its methods has. */
    String free(ClassNode host, String name) {
        while (true) {
            String tried = "typestate$" + name + "$" + numbers.merge(host.name + "." + name, 1, Integer::sum);
            if (host.methods.stream().noneMatch(each -> each.name.equals(tried))) {
                return tried;
            }
        }
    }

    /** A name for a new class beside another one, which no class has. */
    String freeClass(String host) {
        while (true) {
            String tried = host + "$Lambda$" + numbers.merge(host, 1, Integer::sum);
            if (program.find(tried) == null) {
                return tried;
            }
        }
    }

    /** A static method of a class that others of its package may call, and that calls what the class itself may call. */
    MethodNode accessor(ClassNode host, Target target) {
        String key = host.name + " " + target;
        return accessors.computeIfAbsent(key, unused -> makeAccessor(host, target));
    }

    private MethodNode makeAccessor(ClassNode host, Target target) {
        int visible = Program.isInterface(host) ? Opcodes.ACC_PUBLIC : 0;
        String descriptor = target.staticDescriptor();
        MethodNode made = new MethodNode(visible | Opcodes.ACC_STATIC | Opcodes.ACC_SYNTHETIC, free(host, "access"), descriptor, null, null);
        target.before(made);
        Code.loadArguments(made, descriptor, 0);
        target.call(made);
        Code.giveBack(made, descriptor);
        host.methods.add(made);
        changed.add(host.name);
        return made;
    }

    /** The call of an accessor. */
    Target through(ClassNode host, Target target) {
        MethodNode made = accessor(host, target);
        Handle handle = new Handle(Opcodes.H_INVOKESTATIC, host.name, made.name, made.desc, Program.isInterface(host));
        return Target.of(handle);
    }
}
