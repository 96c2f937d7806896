package desugar;

import org.objectweb.asm.Label;
import org.objectweb.asm.Opcodes;
import org.objectweb.asm.Type;
import org.objectweb.asm.tree.InsnList;
import org.objectweb.asm.tree.MethodInsnNode;
import org.objectweb.asm.tree.MethodNode;

/** Clones of arrays: a static method copies them. It is one of the class itself where the array's class is known, and else typestate.Copy's. */
final class Clones {
    static final String COPY = "typestate/Copy";

    private Clones() {
    }

    static boolean is(MethodInsnNode call) {
        return call.owner.startsWith("[") && call.name.equals("clone") && call.desc.equals("()Ljava/lang/Object;");
    }

    /** The call of a copying method, in place of the call of clone. */
    static InsnList rewrite(Place place, MethodInsnNode call) {
        Type array = Type.getObjectType(call.owner);
        Type element = Type.getType(call.owner.substring(1));
        boolean mayHelp = !Program.isInterface(place.host()) || (place.host().version & 0xFFFF) >= Opcodes.V1_8;
        place.work().count("clones of arrays");
        InsnList list = new InsnList();
        if (mayHelp && !Conversions.isPrimitive(element) && place.work().program.isExact(element)) {
            String name = place.work().copies.computeIfAbsent(place.host().name + " " + array, unused -> helper(place, array, element));
            list.add(call(place.host().name, name, array, Program.isInterface(place.host())));
        } else {
            place.work().usesCopy = true;
            list.add(call(COPY, "copy", Conversions.isPrimitive(element) ? array : Type.getType(Object[].class), false));
        }
        return list;
    }

    private static MethodInsnNode call(String owner, String name, Type array, boolean isInterface) {
        return new MethodInsnNode(Opcodes.INVOKESTATIC, owner, name, Type.getMethodDescriptor(array, array), isInterface);
    }

    /** A method that copies an array element by element; its name. */
    private static String helper(Place place, Type array, Type element) {
        MethodNode code = place.helper("copy", Type.getMethodDescriptor(array, array));
        Label test = new Label();
        Label end = new Label();
        code.visitVarInsn(Opcodes.ALOAD, 0);
        code.visitInsn(Opcodes.ARRAYLENGTH);
        code.visitTypeInsn(Opcodes.ANEWARRAY, element.getInternalName());
        code.visitVarInsn(Opcodes.ASTORE, 1);
        code.visitInsn(Opcodes.ICONST_0);
        code.visitVarInsn(Opcodes.ISTORE, 2);
        code.visitLabel(test);
        if ((place.host().version & 0xFFFF) >= Opcodes.V1_6) {
            code.visitFrame(Opcodes.F_APPEND, 2, new Object[] {array.getInternalName(), Opcodes.INTEGER}, 0, null);
        }
        code.visitVarInsn(Opcodes.ILOAD, 2);
        code.visitVarInsn(Opcodes.ALOAD, 0);
        code.visitInsn(Opcodes.ARRAYLENGTH);
        code.visitJumpInsn(Opcodes.IF_ICMPGE, end);
        moveElement(code);
        code.visitJumpInsn(Opcodes.GOTO, test);
        code.visitLabel(end);
        Code.sameFrame(code, place.host().version);
        code.visitVarInsn(Opcodes.ALOAD, 1);
        code.visitInsn(Opcodes.ARETURN);
        place.add(code);
        return code.name;
    }

    private static void moveElement(MethodNode code) {
        code.visitVarInsn(Opcodes.ALOAD, 1);
        code.visitVarInsn(Opcodes.ILOAD, 2);
        code.visitVarInsn(Opcodes.ALOAD, 0);
        code.visitVarInsn(Opcodes.ILOAD, 2);
        code.visitInsn(Opcodes.AALOAD);
        code.visitInsn(Opcodes.AASTORE);
        code.visitIincInsn(2, 1);
    }
}
