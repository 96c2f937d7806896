package desugar;

import org.objectweb.asm.ConstantDynamic;
import org.objectweb.asm.Handle;
import org.objectweb.asm.MethodVisitor;
import org.objectweb.asm.Opcodes;
import org.objectweb.asm.Type;
import org.objectweb.asm.tree.InsnList;
import org.objectweb.asm.tree.InvokeDynamicInsnNode;
import org.objectweb.asm.tree.MethodNode;

/** Texts that are joined by invokedynamic: they are joined by a StringBuilder, as javac writes it for Java 8. */
final class Concats {
    private static final String FACTORY = "java/lang/invoke/StringConcatFactory";
    private static final String BUILDER = "java/lang/StringBuilder";
    private static final char ARGUMENT = '\1', CONSTANT = '\2';

    private Concats() {
    }

    static boolean is(Handle bootstrap) {
        return bootstrap.getOwner().equals(FACTORY);
    }

    /** The code in place of the call site; the values wait in local variables behind those of the method. Null where it cannot be done. */
    static InsnList rewrite(Place place, InvokeDynamicInsnNode site) {
        Type[] given = Type.getArgumentTypes(site.desc);
        boolean hasRecipe = site.bsm.getName().equals("makeConcatWithConstants");
        String recipe = hasRecipe ? (String) site.bsmArgs[0] : String.valueOf(ARGUMENT).repeat(given.length);
        for (int at = 1; at < site.bsmArgs.length; at++) {
            if (!isText(site.bsmArgs[at])) {
                place.problem("a text is joined with a constant that is not known here", "compile the class with --release 8");
                return null;
            }
        }
        MethodNode code = new MethodNode();
        store(code, given, place.method().maxLocals);
        join(code, given, place.method().maxLocals, recipe, site.bsmArgs);
        place.work().count("joined texts");
        return code.instructions;
    }

    private static boolean isText(Object constant) {
        return !(constant instanceof ConstantDynamic || constant instanceof Type || constant instanceof Handle);
    }

    private static void store(MethodVisitor code, Type[] given, int first) {
        int slot = first;
        for (Type each : given) {
            slot += each.getSize();
        }
        for (int at = given.length - 1; at >= 0; at--) {
            slot -= given[at].getSize();
            code.visitVarInsn(given[at].getOpcode(Opcodes.ISTORE), slot);
        }
    }

    private static void join(MethodVisitor code, Type[] given, int first, String recipe, Object[] words) {
        begin(code);
        int argument = 0;
        int constant = 1;
        int slot = first;
        StringBuilder text = new StringBuilder();
        for (char each : recipe.toCharArray()) {
            if (each == ARGUMENT) {
                appendText(code, text);
                Type type = given[argument++];
                code.visitVarInsn(type.getOpcode(Opcodes.ILOAD), slot);
                append(code, type);
                slot += type.getSize();
            } else {
                text.append(each == CONSTANT ? words[constant++] : String.valueOf(each));
            }
        }
        appendText(code, text);
        end(code);
    }

    /** Begins a text. */
    static void begin(MethodVisitor code) {
        code.visitTypeInsn(Opcodes.NEW, BUILDER);
        code.visitInsn(Opcodes.DUP);
        code.visitMethodInsn(Opcodes.INVOKESPECIAL, BUILDER, "<init>", "()V", false);
    }

    /** Appends a text that is known, and empties it. */
    static void appendText(MethodVisitor code, StringBuilder text) {
        if (text.length() > 0) {
            code.visitLdcInsn(text.toString());
            append(code, Type.getType(String.class));
            text.setLength(0);
        }
    }

    /** Appends the value on the stack, which has this type. */
    static void append(MethodVisitor code, Type type) {
        code.visitMethodInsn(Opcodes.INVOKEVIRTUAL, BUILDER, "append", "(" + appended(type) + ")L" + BUILDER + ";", false);
    }

    private static String appended(Type type) {
        switch (type.getSort()) {
            case Type.BYTE:
            case Type.SHORT:
                return "I";
            case Type.OBJECT:
                return type.getInternalName().equals("java/lang/String") ? type.getDescriptor() : "Ljava/lang/Object;";
            case Type.ARRAY:
                return "Ljava/lang/Object;";
            default:
                return type.getDescriptor();
        }
    }

    /** Ends a text, which is then on the stack. */
    static void end(MethodVisitor code) {
        code.visitMethodInsn(Opcodes.INVOKEVIRTUAL, BUILDER, "toString", "()Ljava/lang/String;", false);
    }
}
