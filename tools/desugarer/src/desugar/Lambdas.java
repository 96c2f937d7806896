package desugar;

import java.util.ArrayList;
import java.util.Arrays;
import java.util.HashMap;
import java.util.HashSet;
import java.util.List;
import java.util.Map;
import java.util.Set;
import org.objectweb.asm.Handle;
import org.objectweb.asm.Opcodes;
import org.objectweb.asm.Type;
import org.objectweb.asm.tree.AbstractInsnNode;
import org.objectweb.asm.tree.ClassNode;
import org.objectweb.asm.tree.InsnList;
import org.objectweb.asm.tree.InvokeDynamicInsnNode;
import org.objectweb.asm.tree.MethodInsnNode;
import org.objectweb.asm.tree.MethodNode;

/** Lambdas and method references: the class of each call site is written out, and the bodies of lambdas are made static and open to it. */
final class Lambdas {
    private static final String FACTORY = "java/lang/invoke/LambdaMetafactory";
    private static final String DESERIALIZE = "$deserializeLambda$";

    private Lambdas() {
    }

    static boolean is(InvokeDynamicInsnNode site) {
        Object[] words = site.bsmArgs;
        return site.bsm.getOwner().equals(FACTORY) && (site.bsm.getName().equals("metafactory") || site.bsm.getName().equals("altMetafactory"))
            && words.length >= 3 && words[0] instanceof Type && words[1] instanceof Handle && words[2] instanceof Type;
    }

    /** The static method call that makes the object, in place of the call site. */
    static InsnList rewrite(Place place, InvokeDynamicInsnNode site) {
        Shape shape = Shape.of(site);
        Target target = reach(place, moved(place, (Handle) site.bsmArgs[1]));
        ClassNode made = new LambdaClass(place, shape, target).made();
        place.work().made.add(made);
        place.work().count("lambdas and method references");
        InsnList list = new InsnList();
        list.add(new MethodInsnNode(Opcodes.INVOKESTATIC, made.name, LambdaClass.MAKE, site.desc, false));
        return list;
    }

    // ---- the bodies

    /** Opens the bodies of a class's lambdas to the classes that call them, and takes out what only reads lambdas from a stream. */
    static void prepare(Work work, ClassNode host) {
        host.methods.removeIf(each -> each.name.equals(DESERIALIZE) && isPrivateMade(each) && readsLambdas(each));
        Set<String> called = directlyCalled(host);
        Map<String, MethodNode> bodies = new HashMap<>();
        for (MethodNode each : host.methods) {
            if (isPrivateMade(each) && each.name.startsWith("lambda$") && !called.contains(each.name + each.desc)) {
                bodies.put(each.name + each.desc, each);
            }
        }
        for (String key : implementations(host)) {
            MethodNode body = bodies.remove(key);
            if (body != null) {
                open(work, host, body, key);
            }
        }
    }

    private static boolean isPrivateMade(MethodNode each) {
        int wanted = Opcodes.ACC_PRIVATE | Opcodes.ACC_SYNTHETIC;
        return (each.access & wanted) == wanted;
    }

    private static boolean readsLambdas(MethodNode each) {
        return each.desc.equals("(Ljava/lang/invoke/SerializedLambda;)Ljava/lang/Object;");
    }

    private static Set<String> directlyCalled(ClassNode host) {
        Set<String> found = new HashSet<>();
        for (MethodNode method : host.methods) {
            for (AbstractInsnNode each : method.instructions) {
                if (each instanceof MethodInsnNode call && call.owner.equals(host.name)) {
                    found.add(call.name + call.desc);
                }
            }
        }
        return found;
    }

    /** The methods of a class, by name and descriptor, that its own lambdas call. */
    private static List<String> implementations(ClassNode host) {
        List<String> found = new ArrayList<>();
        for (MethodNode method : host.methods) {
            for (AbstractInsnNode each : method.instructions) {
                if (each instanceof InvokeDynamicInsnNode site && is(site)) {
                    Handle handle = (Handle) site.bsmArgs[1];
                    if (handle.getOwner().equals(host.name)) {
                        found.add(handle.getName() + handle.getDesc());
                    }
                }
            }
        }
        return found;
    }

    private static void open(Work work, ClassNode host, MethodNode body, String key) {
        boolean isStatic = (body.access & Opcodes.ACC_STATIC) != 0;
        String descriptor = isStatic ? body.desc : Code.withFirst(Type.getObjectType(host.name), body.desc);
        if (!isStatic && host.methods.stream().anyMatch(each -> each.name.equals(body.name) && each.desc.equals(descriptor))) {
            return;
        }
        body.access = body.access & ~Opcodes.ACC_PRIVATE | Opcodes.ACC_STATIC | (Program.isInterface(host) ? Opcodes.ACC_PUBLIC : 0);
        if (!isStatic) {
            body.desc = descriptor;
            body.signature = null;
            body.parameters = null;
            body.visibleParameterAnnotations = null;
            body.invisibleParameterAnnotations = null;
        }
        work.bodies.put(host.name + "." + key, body);
        work.changed.add(host.name);
    }

    /** The method of a handle, or the static one that a body was made. */
    private static Target moved(Place place, Handle handle) {
        MethodNode body = place.work().bodies.get(handle.getOwner() + "." + handle.getName() + handle.getDesc());
        if (body == null || !handle.getOwner().equals(place.host().name)) {
            return Target.of(handle);
        }
        return Target.of(new Handle(Opcodes.H_INVOKESTATIC, handle.getOwner(), body.name, body.desc, handle.isInterface()));
    }

    // ---- access

    /** The method itself where each class of the package may call it, and else an accessor of the class that has the lambda. */
    private static Target reach(Place place, Target target) {
        Program program = place.work().program;
        Program.Method found = program.method(target.owner(), target.name(), target.descriptor());
        ClassNode owner = program.find(target.owner());
        String here = Program.packageOf(place.host().name);
        boolean isSpecial = target.kind() == Opcodes.H_INVOKESPECIAL;
        if (found != null && owner != null && !isSpecial && isOpen(owner.access, owner, here) && isOpen(found.node().access, found.owner(), here)) {
            return target;
        }
        boolean isInherited = found != null && found.is(Opcodes.ACC_PROTECTED) && !target.isStatic() && !target.isNew();
        return place.work().through(place.host(), isSpecial || isInherited ? target.on(place.host().name) : target);
    }

    private static boolean isOpen(int access, ClassNode declaring, String here) {
        if ((access & Opcodes.ACC_PUBLIC) != 0) {
            return true;
        }
        return (access & Opcodes.ACC_PRIVATE) == 0 && Program.packageOf(declaring.name).equals(here);
    }

    // ---- what a call site asks for

    /** The functional interface of a call site: the method's name, the site's descriptor, the method's types, and further interfaces. */
    record Shape(String name, String site, Type method, Type instantiated, List<String> interfaces, List<Type> bridges) {
        private static final int SERIALIZABLE = 1, MARKERS = 2, BRIDGES = 4;

        static Shape of(InvokeDynamicInsnNode site) {
            Object[] words = site.bsmArgs;
            List<String> interfaces = new ArrayList<>(List.of(Type.getReturnType(site.desc).getInternalName()));
            List<Type> bridges = new ArrayList<>();
            int flags = words.length > 3 ? (Integer) words[3] : 0;
            int at = 4;
            if ((flags & MARKERS) != 0) {
                int count = (Integer) words[at++];
                Arrays.stream(words, at, at + count).forEach(each -> addNew(interfaces, ((Type) each).getInternalName()));
                at += count;
            }
            if ((flags & BRIDGES) != 0) {
                int count = (Integer) words[at++];
                Arrays.stream(words, at, at + count).forEach(each -> addNew(bridges, (Type) each));
            }
            if ((flags & SERIALIZABLE) != 0) {
                addNew(interfaces, "java/io/Serializable");
            }
            bridges.remove((Type) words[0]);
            return new Shape(site.name, site.desc, (Type) words[0], (Type) words[2], interfaces, bridges);
        }

        private static <T> void addNew(List<T> list, T each) {
            if (!list.contains(each)) {
                list.add(each);
            }
        }
    }
}
