package desugar;

import java.util.Arrays;
import org.objectweb.asm.Handle;
import org.objectweb.asm.Label;
import org.objectweb.asm.MethodVisitor;
import org.objectweb.asm.Opcodes;
import org.objectweb.asm.Type;
import org.objectweb.asm.tree.ClassNode;
import org.objectweb.asm.tree.InnerClassNode;
import org.objectweb.asm.tree.InsnList;
import org.objectweb.asm.tree.InvokeDynamicInsnNode;
import org.objectweb.asm.tree.MethodInsnNode;
import org.objectweb.asm.tree.MethodNode;

/** What records do for equals, hashCode and toString by java.lang.runtime.ObjectMethods, written out over their components. */
final class Records {
    private static final int HASH_FACTOR = 31;
    private final Place place;
    private final String[] names;
    private final Handle[] fields;
    private final MethodNode code;
    private final Type record;

    private Records(Place place, InvokeDynamicInsnNode site) {
        this.place = place;
        this.record = (Type) site.bsmArgs[0];
        this.names = ((String) site.bsmArgs[1]).split(";");
        this.fields = Arrays.stream(site.bsmArgs, 2, site.bsmArgs.length).toArray(Handle[]::new);
        this.code = place.helper(site.name, site.desc);
    }

    static boolean is(Handle bootstrap) {
        return bootstrap.getOwner().equals("java/lang/runtime/ObjectMethods");
    }

    /** The call of a method that does the same, in place of the call site; null where it cannot be done. */
    static InsnList rewrite(Place place, InvokeDynamicInsnNode site) {
        boolean isOwn = Arrays.stream(site.bsmArgs, 2, site.bsmArgs.length)
            .allMatch(each -> each instanceof Handle field && field.getTag() == Opcodes.H_GETFIELD && field.getOwner().equals(place.host().name));
        if (!isOwn || !Arrays.asList("equals", "hashCode", "toString").contains(site.name)) {
            place.problem("a record's method is made of other things than its fields", "write this method in the record");
            return null;
        }
        Records made = new Records(place, site);
        switch (site.name) {
            case "equals" -> made.equalsMethod();
            case "hashCode" -> made.hashCodeMethod();
            default -> made.toStringMethod();
        }
        place.add(made.code);
        place.work().count("methods of records");
        InsnList list = new InsnList();
        list.add(new MethodInsnNode(Opcodes.INVOKESTATIC, place.host().name, made.code.name, made.code.desc, Program.isInterface(place.host())));
        return list;
    }

    private void load(int slot, Handle field) {
        code.visitVarInsn(Opcodes.ALOAD, slot);
        code.visitFieldInsn(Opcodes.GETFIELD, field.getOwner(), field.getName(), field.getDesc());
    }

    // ---- equals

    private void equalsMethod() {
        Label differ = new Label();
        Label same = new Label();
        code.visitVarInsn(Opcodes.ALOAD, 0);
        code.visitVarInsn(Opcodes.ALOAD, 1);
        code.visitJumpInsn(Opcodes.IF_ACMPEQ, same);
        code.visitVarInsn(Opcodes.ALOAD, 1);
        code.visitTypeInsn(Opcodes.INSTANCEOF, record.getInternalName());
        code.visitJumpInsn(Opcodes.IFEQ, differ);
        for (Handle each : fields) {
            load(0, each);
            code.visitVarInsn(Opcodes.ALOAD, 1);
            code.visitTypeInsn(Opcodes.CHECKCAST, record.getInternalName());
            code.visitFieldInsn(Opcodes.GETFIELD, each.getOwner(), each.getName(), each.getDesc());
            compare(Type.getType(each.getDesc()), differ);
        }
        answer(same, Opcodes.ICONST_1);
        answer(differ, Opcodes.ICONST_0);
    }

    private void answer(Label at, int opcode) {
        code.visitLabel(at);
        Code.sameFrame(code, place.host().version);
        code.visitInsn(opcode);
        code.visitInsn(Opcodes.IRETURN);
    }

    private void compare(Type type, Label differ) {
        switch (type.getSort()) {
            case Type.LONG -> code.visitInsn(Opcodes.LCMP);
            case Type.FLOAT, Type.DOUBLE -> ofWrapper(type, "compare", "(" + type + type + ")I");
            case Type.OBJECT, Type.ARRAY -> ofObjects("equals", "(Ljava/lang/Object;Ljava/lang/Object;)Z");
            default -> {
                code.visitJumpInsn(Opcodes.IF_ICMPNE, differ);
                return;
            }
        }
        code.visitJumpInsn(Conversions.isPrimitive(type) ? Opcodes.IFNE : Opcodes.IFEQ, differ);
    }

    private void ofWrapper(Type type, String name, String descriptor) {
        code.visitMethodInsn(Opcodes.INVOKESTATIC, Conversions.wrapper(type), name, descriptor, false);
    }

    private void ofObjects(String name, String descriptor) {
        code.visitMethodInsn(Opcodes.INVOKESTATIC, "java/util/Objects", name, descriptor, false);
    }

    // ---- hashCode

    private void hashCodeMethod() {
        code.visitInsn(Opcodes.ICONST_0);
        for (Handle each : fields) {
            Type type = Type.getType(each.getDesc());
            Code.number(code, HASH_FACTOR);
            code.visitInsn(Opcodes.IMUL);
            load(0, each);
            if (Conversions.isPrimitive(type)) {
                ofWrapper(type, "hashCode", "(" + type + ")I");
            } else {
                ofObjects("hashCode", "(Ljava/lang/Object;)I");
            }
            code.visitInsn(Opcodes.IADD);
        }
        code.visitInsn(Opcodes.IRETURN);
    }

    // ---- toString

    private void toStringMethod() {
        Concats.begin(code);
        StringBuilder text = new StringBuilder(simpleName(place.host())).append('[');
        for (int at = 0; at < fields.length; at++) {
            text.append(at > 0 ? ", " : "").append(names[at]).append('=');
            Concats.appendText(code, text);
            load(0, fields[at]);
            Concats.append(code, Type.getType(fields[at].getDesc()));
        }
        Concats.appendText(code, text.append(']'));
        Concats.end(code);
        code.visitInsn(Opcodes.ARETURN);
    }

    /** The name of a class as its source has it. */
    private static String simpleName(ClassNode host) {
        for (InnerClassNode each : host.innerClasses) {
            if (each.name.equals(host.name) && each.innerName != null) {
                return each.innerName;
            }
        }
        return host.name.substring(host.name.lastIndexOf('/') + 1);
    }
}
