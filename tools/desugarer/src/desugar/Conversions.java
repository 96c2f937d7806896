package desugar;

import java.util.Map;
import org.objectweb.asm.MethodVisitor;
import org.objectweb.asm.Opcodes;
import org.objectweb.asm.Type;

/** Turns a value of one type into one of another as the classes of java.lang.invoke.LambdaMetafactory do: by widening, boxing and casts. */
final class Conversions {
    private static final Map<Type, String> WRAPPERS = Map.of(
        Type.BOOLEAN_TYPE, "java/lang/Boolean", Type.CHAR_TYPE, "java/lang/Character", Type.BYTE_TYPE, "java/lang/Byte",
        Type.SHORT_TYPE, "java/lang/Short", Type.INT_TYPE, "java/lang/Integer", Type.LONG_TYPE, "java/lang/Long",
        Type.FLOAT_TYPE, "java/lang/Float", Type.DOUBLE_TYPE, "java/lang/Double");

    private Conversions() {
    }

    /** The wrapper class of a primitive type. */
    static String wrapper(Type primitive) {
        return WRAPPERS.get(primitive);
    }

    /** The primitive type of a wrapper class, or null. */
    private static Type primitive(Type reference) {
        return WRAPPERS.entrySet().stream().filter(each -> reference.equals(Type.getObjectType(each.getValue()))).map(Map.Entry::getKey)
            .findFirst().orElse(null);
    }

    static boolean isPrimitive(Type type) {
        return type.getSort() < Type.ARRAY;
    }

    /** Turns a value of a type into one of the target's, by way of the type that the functional interface has at the call. */
    static void convert(MethodVisitor code, Type from, Type to, Type functional) {
        if (from == Type.VOID_TYPE) {
            return;
        }
        if (to == Type.VOID_TYPE) {
            code.visitInsn(from.getSize() == 2 ? Opcodes.POP2 : Opcodes.POP);
        } else if (isPrimitive(from)) {
            fromPrimitive(code, from, to);
        } else {
            fromReference(code, from, to, functional);
        }
    }

    private static void fromPrimitive(MethodVisitor code, Type from, Type to) {
        if (isPrimitive(to)) {
            widen(code, from, to);
            return;
        }
        Type boxed = primitive(to);
        if (boxed != null) {
            widen(code, from, boxed);
            box(code, boxed);
        } else {
            box(code, from);
            cast(code, Type.getObjectType(wrapper(from)), to);
        }
    }

    private static void fromReference(MethodVisitor code, Type from, Type to, Type functional) {
        Type source = isPrimitive(functional) ? from : functional;
        cast(code, from, source);
        if (isPrimitive(to)) {
            toPrimitive(code, source, to);
        } else {
            cast(code, source, to);
        }
    }

    private static void toPrimitive(MethodVisitor code, Type source, Type to) {
        Type boxed = primitive(source);
        if (boxed == null) {
            boolean isNumber = to != Type.BOOLEAN_TYPE && to != Type.CHAR_TYPE;
            Type wrapper = Type.getObjectType(isNumber ? "java/lang/Number" : wrapper(to));
            cast(code, source, wrapper);
            unbox(code, wrapper, to);
        } else if (boxed == Type.BOOLEAN_TYPE || boxed == Type.CHAR_TYPE) {
            unbox(code, source, boxed);
            widen(code, boxed, to);
        } else {
            unbox(code, source, to);
        }
    }

    static void box(MethodVisitor code, Type primitive) {
        String wrapper = wrapper(primitive);
        code.visitMethodInsn(Opcodes.INVOKESTATIC, wrapper, "valueOf", "(" + primitive.getDescriptor() + ")L" + wrapper + ";", false);
    }

    private static void unbox(MethodVisitor code, Type wrapper, Type to) {
        code.visitMethodInsn(Opcodes.INVOKEVIRTUAL, wrapper.getInternalName(), to.getClassName() + "Value", "()" + to.getDescriptor(), false);
    }

    static void cast(MethodVisitor code, Type from, Type to) {
        if (!from.equals(to) && !to.getDescriptor().equals("Ljava/lang/Object;")) {
            code.visitTypeInsn(Opcodes.CHECKCAST, to.getInternalName());
        }
    }

    private static void widen(MethodVisitor code, Type from, Type to) {
        int source = size(from);
        int target = size(to);
        int[][] opcodes = {
            {0, Opcodes.I2L, Opcodes.I2F, Opcodes.I2D}, {0, 0, Opcodes.L2F, Opcodes.L2D}, {0, 0, 0, Opcodes.F2D}, {0, 0, 0, 0},
        };
        if (opcodes[source][target] != 0) {
            code.visitInsn(opcodes[source][target]);
        }
    }

    /** The place of a primitive type in the order in which types are widened; those that the machine has as int stand together. */
    private static int size(Type type) {
        switch (type.getSort()) {
            case Type.LONG:
                return 1;
            case Type.FLOAT:
                return 2;
            case Type.DOUBLE:
                return 3;
            default:
                return 0;
        }
    }
}
