package desugar;

import org.objectweb.asm.Label;
import org.objectweb.asm.MethodVisitor;
import org.objectweb.asm.Opcodes;
import org.objectweb.asm.Type;
import org.objectweb.asm.tree.ClassNode;

/** The class of a lambda's call site: it holds the captured values, implements the functional interface, and calls the lambda's body. */
final class LambdaClass {
    /** The static method that makes an object of the class from the captured values. */
    static final String MAKE = "make";
    private static final String OBJECT = "java/lang/Object";
    private static final int FINAL_FIELD = Opcodes.ACC_PRIVATE | Opcodes.ACC_FINAL;

    private final Place place;
    private final Lambdas.Shape shape;
    private final Target target;
    private final Type[] captured;
    private final ClassNode made = new ClassNode();

    LambdaClass(Place place, Lambdas.Shape shape, Target target) {
        this.place = place;
        this.shape = shape;
        this.target = target;
        this.captured = Type.getArgumentTypes(shape.site());
    }

    /** The class. */
    ClassNode made() {
        int access = Opcodes.ACC_FINAL | Opcodes.ACC_SUPER | Opcodes.ACC_SYNTHETIC;
        String[] interfaces = shape.interfaces().toArray(new String[0]);
        made.visit(Opcodes.V1_8, access, place.work().freeClass(place.host().name), null, OBJECT, interfaces);
        made.visitSource(place.host().sourceFile, null);
        for (int at = 0; at < captured.length; at++) {
            made.visitField(FINAL_FIELD, field(at), captured[at].getDescriptor(), null, null);
        }
        constructor();
        make();
        implement(shape.method(), Opcodes.ACC_PUBLIC);
        shape.bridges().forEach(each -> implement(each, Opcodes.ACC_PUBLIC | Opcodes.ACC_BRIDGE | Opcodes.ACC_SYNTHETIC));
        return made;
    }

    private static String field(int at) {
        return "captured" + at;
    }

    private MethodVisitor begin(int access, String name, String descriptor) {
        MethodVisitor code = made.visitMethod(access, name, descriptor, null, null);
        code.visitCode();
        if (place.line() > 0) {
            Label start = new Label();
            code.visitLabel(start);
            code.visitLineNumber(place.line(), start);
        }
        return code;
    }

    private String constructorDescriptor() {
        return Type.getMethodDescriptor(Type.VOID_TYPE, captured);
    }

    private void constructor() {
        MethodVisitor code = begin(Opcodes.ACC_PRIVATE, "<init>", constructorDescriptor());
        code.visitVarInsn(Opcodes.ALOAD, 0);
        code.visitMethodInsn(Opcodes.INVOKESPECIAL, OBJECT, "<init>", "()V", false);
        int slot = 1;
        for (int at = 0; at < captured.length; at++) {
            code.visitVarInsn(Opcodes.ALOAD, 0);
            code.visitVarInsn(captured[at].getOpcode(Opcodes.ILOAD), slot);
            code.visitFieldInsn(Opcodes.PUTFIELD, made.name, field(at), captured[at].getDescriptor());
            slot += captured[at].getSize();
        }
        code.visitInsn(Opcodes.RETURN);
    }

    private void make() {
        MethodVisitor code = begin(Opcodes.ACC_STATIC, MAKE, shape.site());
        code.visitTypeInsn(Opcodes.NEW, made.name);
        code.visitInsn(Opcodes.DUP);
        Code.loadArguments(code, shape.site(), 0);
        code.visitMethodInsn(Opcodes.INVOKESPECIAL, made.name, "<init>", constructorDescriptor(), false);
        code.visitInsn(Opcodes.ARETURN);
    }

    /** The method of the interface, by one of its types. */
    private void implement(Type type, int access) {
        MethodVisitor code = begin(access, shape.name(), type.getDescriptor());
        target.before(code);
        for (int at = 0; at < captured.length; at++) {
            code.visitVarInsn(Opcodes.ALOAD, 0);
            code.visitFieldInsn(Opcodes.GETFIELD, made.name, field(at), captured[at].getDescriptor());
        }
        arguments(code, type);
        target.call(code);
        Type result = Type.getReturnType(target.staticDescriptor());
        Conversions.convert(code, result, type.getReturnType(), type.getReturnType());
        Code.giveBack(code, type.getDescriptor());
    }

    private void arguments(MethodVisitor code, Type type) {
        Type[] given = type.getArgumentTypes();
        Type[] functional = shape.instantiated().getArgumentTypes();
        Type[] wanted = Type.getArgumentTypes(target.staticDescriptor());
        int slot = 1;
        for (int at = 0; at < given.length; at++) {
            code.visitVarInsn(given[at].getOpcode(Opcodes.ILOAD), slot);
            Conversions.convert(code, given[at], wanted[captured.length + at], functional[at]);
            slot += given[at].getSize();
        }
    }
}
