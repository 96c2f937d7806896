package desugar;

import org.objectweb.asm.MethodVisitor;
import org.objectweb.asm.Opcodes;
import org.objectweb.asm.Type;

/** Small parts of code that are made in several places. */
final class Code {
    private Code() {
    }

    /** A method descriptor with one more parameter, in front. */
    static String withFirst(Type first, String descriptor) {
        return "(" + first.getDescriptor() + descriptor.substring(1);
    }

    /** Loads the parameters of a descriptor, of which the first one stands in a slot. */
    static void loadArguments(MethodVisitor code, String descriptor, int first) {
        int slot = first;
        for (Type each : Type.getArgumentTypes(descriptor)) {
            code.visitVarInsn(each.getOpcode(Opcodes.ILOAD), slot);
            slot += each.getSize();
        }
    }

    /** Gives back the result of a descriptor. */
    static void giveBack(MethodVisitor code, String descriptor) {
        code.visitInsn(Type.getReturnType(descriptor).getOpcode(Opcodes.IRETURN));
    }

    /** Loads an int. */
    static void number(MethodVisitor code, int value) {
        if (value >= -1 && value <= 5) {
            code.visitInsn(Opcodes.ICONST_0 + value);
        } else if (value >= Byte.MIN_VALUE && value <= Byte.MAX_VALUE) {
            code.visitIntInsn(Opcodes.BIPUSH, value);
        } else if (value >= Short.MIN_VALUE && value <= Short.MAX_VALUE) {
            code.visitIntInsn(Opcodes.SIPUSH, value);
        } else {
            code.visitLdcInsn(value);
        }
    }

    /** A frame with the parameters alone (JVMS 4.7.4); class files below version 50 have none. */
    static void sameFrame(MethodVisitor code, int version) {
        if ((version & 0xFFFF) >= Opcodes.V1_6) {
            code.visitFrame(Opcodes.F_SAME, 0, null, 0, null);
        }
    }
}
