package desugar;

import org.objectweb.asm.ConstantDynamic;
import org.objectweb.asm.Handle;
import org.objectweb.asm.MethodVisitor;
import org.objectweb.asm.Opcodes;
import org.objectweb.asm.Type;
import org.objectweb.asm.tree.InsnList;
import org.objectweb.asm.tree.MethodNode;

/** Dynamic constants by java.lang.invoke.ConstantBootstraps that are plain values: they are loaded where they stand. */
final class Constants {
    static final String FACTORY = "java/lang/invoke/ConstantBootstraps";

    private Constants() {
    }

    /** Whether a constant can be loaded without its bootstrap method: null, the class of a primitive type, an enum's constant, a static field. */
    static boolean isKnown(ConstantDynamic constant) {
        Handle bootstrap = constant.getBootstrapMethod();
        if (!bootstrap.getOwner().equals(FACTORY)) {
            return false;
        }
        return switch (bootstrap.getName()) {
            case "nullConstant", "primitiveClass", "enumConstant" -> true;
            case "getStaticFinal" -> constant.getBootstrapMethodArgumentCount() == 0 || constant.getBootstrapMethodArgument(0) instanceof Type;
            default -> false;
        };
    }

    /** The code that loads the constant. */
    static InsnList rewrite(Place place, ConstantDynamic constant) {
        MethodNode code = new MethodNode();
        switch (constant.getBootstrapMethod().getName()) {
            case "nullConstant" -> code.visitInsn(Opcodes.ACONST_NULL);
            case "primitiveClass" -> primitiveClass(code, Type.getType(constant.getName()));
            default -> staticField(code, constant);
        }
        place.work().count("dynamic constants");
        return code.instructions;
    }

    private static void primitiveClass(MethodVisitor code, Type type) {
        String owner = type == Type.VOID_TYPE ? "java/lang/Void" : Conversions.wrapper(type);
        code.visitFieldInsn(Opcodes.GETSTATIC, owner, "TYPE", "Ljava/lang/Class;");
    }

    /** An enum's constant is a static field of its class; of another field the class is named, or it is that of the value or of its wrapper. */
    private static void staticField(MethodVisitor code, ConstantDynamic constant) {
        Type type = Type.getType(constant.getDescriptor());
        Type owner = type;
        if (constant.getBootstrapMethodArgumentCount() > 0) {
            owner = (Type) constant.getBootstrapMethodArgument(0);
        } else if (Conversions.isPrimitive(type)) {
            owner = Type.getObjectType(Conversions.wrapper(type));
        }
        code.visitFieldInsn(Opcodes.GETSTATIC, owner.getInternalName(), constant.getName(), type.getDescriptor());
    }
}
