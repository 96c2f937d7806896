import java.io.IOException;
import java.nio.file.Files;
import java.nio.file.Path;
import org.objectweb.asm.ClassWriter;
import org.objectweb.asm.ConstantDynamic;
import org.objectweb.asm.Handle;
import org.objectweb.asm.MethodVisitor;
import org.objectweb.asm.Opcodes;
import org.objectweb.asm.Type;

/** Makes class files that the compiler of this JDK does not make, into a folder: dynamic constants, switches of Java 21, and what is not known. */
public final class Made {
    private static final String FACTORY = "java/lang/invoke/ConstantBootstraps", LOOKUP = "Ljava/lang/invoke/MethodHandles$Lookup;";
    private static final String KIND = "java/lang/Thread$State";

    private Made() {
    }

    public static void main(String[] words) throws IOException {
        Path folder = Path.of(words[0]);
        constants(folder.resolve("known"));
        references(folder.resolve("known"));
        switches(folder.resolve("later"), Opcodes.V1_8 + 13);
        unknownConstant(folder.resolve("unknown"));
        unknownCall(folder.resolve("unknown"));
    }

    private static ClassWriter begin(String name, int version) {
        ClassWriter made = new ClassWriter(ClassWriter.COMPUTE_MAXS);
        made.visit(version, Opcodes.ACC_PUBLIC | Opcodes.ACC_SUPER, name, null, "java/lang/Object", null);
        return made;
    }

    private static MethodVisitor main(ClassWriter made) {
        return made.visitMethod(Opcodes.ACC_PUBLIC | Opcodes.ACC_STATIC, "main", "([Ljava/lang/String;)V", null, null);
    }

    private static void end(Path folder, String name, ClassWriter made, MethodVisitor code) throws IOException {
        code.visitInsn(Opcodes.RETURN);
        code.visitMaxs(0, 0);
        Files.createDirectories(folder);
        Files.write(folder.resolve(name + ".class"), made.toByteArray());
    }

    /** Prints what stands on the stack. */
    private static void print(MethodVisitor code, String type, Runnable push) {
        code.visitFieldInsn(Opcodes.GETSTATIC, "java/lang/System", "out", "Ljava/io/PrintStream;");
        push.run();
        code.visitMethodInsn(Opcodes.INVOKESTATIC, "java/lang/String", "valueOf", "(" + type + ")Ljava/lang/String;", false);
        code.visitMethodInsn(Opcodes.INVOKEVIRTUAL, "java/io/PrintStream", "println", "(Ljava/lang/String;)V", false);
    }

    private static ConstantDynamic constant(String bootstrap, String name, String type, Object... words) {
        String more = bootstrap.equals("invoke") ? "Ljava/lang/invoke/MethodHandle;[Ljava/lang/Object;" : "";
        String other = bootstrap.equals("enumConstant") ? "Ljava/lang/Enum;" : "Ljava/lang/Object;";
        String result = bootstrap.equals("primitiveClass") ? "Ljava/lang/Class;" : other;
        String descriptor = "(" + LOOKUP + "Ljava/lang/String;Ljava/lang/Class;" + more + ")" + result;
        return new ConstantDynamic(name, type, new Handle(Opcodes.H_INVOKESTATIC, FACTORY, bootstrap, descriptor, false), words);
    }

    private static void constants(Path folder) throws IOException {
        ClassWriter made = begin("MadeConstants", Opcodes.V11);
        MethodVisitor code = main(made);
        ConstantDynamic[] all = {
            constant("nullConstant", "none", "Ljava/lang/Object;"), constant("primitiveClass", "I", "Ljava/lang/Class;"),
            constant("primitiveClass", "V", "Ljava/lang/Class;"), constant("enumConstant", "BLOCKED", "L" + KIND + ";"),
        };
        for (ConstantDynamic each : all) {
            print(code, "Ljava/lang/Object;", () -> code.visitLdcInsn(each));
        }
        print(code, "I", () -> code.visitLdcInsn(constant("getStaticFinal", "MAX_VALUE", "I")));
        print(code, "J", () -> code.visitLdcInsn(constant("getStaticFinal", "MIN_VALUE", "J")));
        end(folder, "MadeConstants", made, code);
    }

    /** A reference to a method that is inherited and protected: javac writes a lambda for it, others do not. */
    private static void references(Path folder) throws IOException {
        String text = "Ljava/lang/String;", object = "Ljava/lang/Object;", above = "java/lang/Exception", name = "MadeReferences";
        ClassWriter made = new ClassWriter(ClassWriter.COMPUTE_MAXS);
        made.visit(Opcodes.V1_8, Opcodes.ACC_PUBLIC | Opcodes.ACC_SUPER, name, null, above, new String[] {"java/lang/Cloneable"});
        MethodVisitor code = made.visitMethod(Opcodes.ACC_PUBLIC, "<init>", "()V", null, null);
        code.visitVarInsn(Opcodes.ALOAD, 0);
        code.visitLdcInsn("above");
        code.visitMethodInsn(Opcodes.INVOKESPECIAL, above, "<init>", "(" + text + ")V", false);
        code.visitInsn(Opcodes.RETURN);
        code.visitMaxs(0, 0);
        code = made.visitMethod(Opcodes.ACC_PUBLIC, "getMessage", "()" + text, null, null);
        code.visitLdcInsn("below");
        code.visitInsn(Opcodes.ARETURN);
        code.visitMaxs(0, 0);
        MethodVisitor main = main(made);
        print(main, object, () -> {
            reference(main, name, new Handle(Opcodes.H_INVOKEVIRTUAL, "java/lang/Object", "clone", "()" + object, false));
            main.visitTypeInsn(Opcodes.CHECKCAST, above);
            main.visitMethodInsn(Opcodes.INVOKEVIRTUAL, above, "getMessage", "()" + text, false);
        });
        end(folder, name, made, main);
    }

    /** Makes a Supplier of a method of a new object, and gets what it gives. */
    private static void reference(MethodVisitor code, String owner, Handle method) {
        String words = "Ljava/lang/invoke/MethodType;Ljava/lang/invoke/MethodHandle;Ljava/lang/invoke/MethodType;";
        Handle bootstrap = new Handle(Opcodes.H_INVOKESTATIC, "java/lang/invoke/LambdaMetafactory", "metafactory",
            "(" + LOOKUP + "Ljava/lang/String;Ljava/lang/invoke/MethodType;" + words + ")Ljava/lang/invoke/CallSite;", false);
        Type type = Type.getType("()Ljava/lang/Object;");
        code.visitTypeInsn(Opcodes.NEW, owner);
        code.visitInsn(Opcodes.DUP);
        code.visitMethodInsn(Opcodes.INVOKESPECIAL, owner, "<init>", "()V", false);
        code.visitInvokeDynamicInsn("get", "(L" + owner + ";)Ljava/util/function/Supplier;", bootstrap, type, method, type);
        code.visitMethodInsn(Opcodes.INVOKEINTERFACE, "java/util/function/Supplier", "get", "()Ljava/lang/Object;", true);
    }

    /** A switch with labels of each kind that Java 21 has, of a class file of a version. */
    private static void switches(Path folder, int version) throws IOException {
        ClassWriter made = begin("MadeSwitch", version);
        MethodVisitor code = main(made);
        String text = "Ljava/lang/String;";
        Handle ofClass = new Handle(Opcodes.H_INVOKESTATIC, "java/lang/constant/ClassDesc", "of",
            "(" + text + ")Ljava/lang/constant/ClassDesc;", true);
        Handle ofEnum = new Handle(Opcodes.H_INVOKESTATIC, "java/lang/Enum$EnumDesc", "of",
            "(Ljava/lang/constant/ClassDesc;" + text + ")Ljava/lang/Enum$EnumDesc;", false);
        ConstantDynamic owner = constant("invoke", "invoke", "Ljava/lang/constant/ClassDesc;", ofClass, "java.lang.Thread$State");
        Object label = constant("invoke", "invoke", "Ljava/lang/Enum$EnumDesc;", ofEnum, owner, "BLOCKED");
        Handle bootstrap = new Handle(Opcodes.H_INVOKESTATIC, "java/lang/runtime/SwitchBootstraps", "typeSwitch",
            "(" + LOOKUP + text + "Ljava/lang/invoke/MethodType;[Ljava/lang/Object;)Ljava/lang/invoke/CallSite;", false);
        Object[] labels = {"a", 5, 97, label, Type.getObjectType(KIND), Type.getObjectType("[I"), Type.getObjectType("java/lang/Integer")};
        Runnable[] targets = {
            () -> code.visitLdcInsn("a"), () -> code.visitLdcInsn("b"), () -> number(code, 5), () -> number(code, 6), () -> letter(code),
            () -> kind(code, "BLOCKED"), () -> kind(code, "NEW"), () -> array(code), () -> code.visitInsn(Opcodes.ACONST_NULL),
        };
        for (Runnable target : targets) {
            for (int restart : new int[] {0, 4}) {
                print(code, "I", () -> {
                    target.run();
                    code.visitIntInsn(Opcodes.BIPUSH, restart);
                    code.visitInvokeDynamicInsn("typeSwitch", "(Ljava/lang/Object;I)I", bootstrap, labels);
                });
            }
        }
        end(folder, "MadeSwitch", made, code);
    }

    private static void number(MethodVisitor code, int value) {
        code.visitIntInsn(Opcodes.BIPUSH, value);
        code.visitMethodInsn(Opcodes.INVOKESTATIC, "java/lang/Integer", "valueOf", "(I)Ljava/lang/Integer;", false);
    }

    private static void letter(MethodVisitor code) {
        code.visitIntInsn(Opcodes.BIPUSH, 'a');
        code.visitMethodInsn(Opcodes.INVOKESTATIC, "java/lang/Character", "valueOf", "(C)Ljava/lang/Character;", false);
    }

    private static void kind(MethodVisitor code, String name) {
        code.visitFieldInsn(Opcodes.GETSTATIC, KIND, name, "L" + KIND + ";");
    }

    private static void array(MethodVisitor code) {
        code.visitInsn(Opcodes.ICONST_0);
        code.visitIntInsn(Opcodes.NEWARRAY, Opcodes.T_INT);
    }

    private static void unknownConstant(Path folder) throws IOException {
        ClassWriter made = begin("MadeUnknown", Opcodes.V11);
        MethodVisitor code = main(made);
        Handle own = new Handle(Opcodes.H_INVOKESTATIC, "MadeUnknown", "own",
            "(" + LOOKUP + "Ljava/lang/String;Ljava/lang/Class;)Ljava/lang/Object;", false);
        print(code, "Ljava/lang/Object;", () -> code.visitLdcInsn(new ConstantDynamic("each", "Ljava/lang/Object;", own)));
        end(folder, "MadeUnknown", made, code);
    }

    private static void unknownCall(Path folder) throws IOException {
        ClassWriter made = begin("MadeCall", Opcodes.V1_8);
        MethodVisitor code = main(made);
        Handle own = new Handle(Opcodes.H_INVOKESTATIC, "other/Library", "bootstrap",
            "(" + LOOKUP + "Ljava/lang/String;Ljava/lang/invoke/MethodType;)Ljava/lang/invoke/CallSite;", false);
        code.visitInvokeDynamicInsn("call", "()V", own);
        end(folder, "MadeCall", made, code);
    }
}
