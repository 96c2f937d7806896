package desugar;

import java.util.List;
import java.util.Map;
import java.util.TreeMap;
import org.objectweb.asm.Opcodes;
import org.objectweb.asm.Type;
import org.objectweb.asm.tree.ClassNode;
import org.objectweb.asm.tree.FieldInsnNode;
import org.objectweb.asm.tree.InsnList;
import org.objectweb.asm.tree.MethodInsnNode;
import org.objectweb.asm.tree.MethodNode;

/**
 * Methods of java.lang.Class that only tell something, and static fields that the verifier refuses though they do nothing: static methods of
 * typestate.Reflect and typestate.Resources give the same.
 */
final class Reflection {
    /** The classes that have these methods. */
    static final List<String> CLASSES = List.of("typestate/Reflect", "typestate/Resources");
    private static final String CLASS = "java/lang/Class";
    /** Static fields of classes of the base stubs, with the methods that give what they hold. */
    private static final Map<String, String> FIELDS = Map.of("java/lang/System.in", "in", "java/lang/String.CASE_INSENSITIVE_ORDER", "ignoringCase");
    /** The class of each method that stands for one of java.lang.Class or for a field, by the method's name and descriptor. */
    private final Map<String, String> told = new TreeMap<>();

    /** Reads which methods there are, from a class that has them. */
    void read(ClassNode each) {
        for (MethodNode method : each.methods) {
            if ((method.access & Opcodes.ACC_STATIC) != 0) {
                told.put(method.name + method.desc, each.name);
            }
        }
    }

    /** The call of the static method in place of that of a method of java.lang.Class, or null where none stands for it. */
    InsnList rewrite(Place place, MethodInsnNode call) {
        if (call.getOpcode() != Opcodes.INVOKEVIRTUAL || !call.owner.equals(CLASS)) {
            return null;
        }
        return with(place, "methods of Class", call.name, Code.withFirst(Type.getObjectType(CLASS), call.desc));
    }

    /** The call of the static method in place of a field that no stub can describe, or null for another field. */
    InsnList rewrite(Place place, FieldInsnNode field) {
        String method = field.getOpcode() == Opcodes.GETSTATIC ? FIELDS.get(field.owner + "." + field.name) : null;
        return method == null ? null : with(place, "uses of System.in and of String.CASE_INSENSITIVE_ORDER", method, "()" + field.desc);
    }

    private InsnList with(Place place, String kind, String name, String descriptor) {
        String owner = told.get(name + descriptor);
        if (owner == null) {
            return null;
        }
        place.work().usesReflect = true;
        place.work().count(kind);
        InsnList list = new InsnList();
        list.add(new MethodInsnNode(Opcodes.INVOKESTATIC, owner, name, descriptor, false));
        return list;
    }
}
