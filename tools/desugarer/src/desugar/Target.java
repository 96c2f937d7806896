package desugar;

import org.objectweb.asm.Handle;
import org.objectweb.asm.MethodVisitor;
import org.objectweb.asm.Opcodes;
import org.objectweb.asm.Type;

/** A method that is called: by which kind of method handle (JVMS 5.4.3.5), and with a receiver of which class, if it has one. */
record Target(int kind, String owner, String name, String descriptor, boolean isInterface, String receiver) {
    static Target of(Handle handle) {
        return new Target(handle.getTag(), handle.getOwner(), handle.getName(), handle.getDesc(), handle.isInterface(), handle.getOwner());
    }

    /** The same with a receiver of another class. */
    Target on(String other) {
        return new Target(kind, owner, name, descriptor, isInterface, other);
    }

    boolean isNew() {
        return kind == Opcodes.H_NEWINVOKESPECIAL;
    }

    boolean isStatic() {
        return kind == Opcodes.H_INVOKESTATIC;
    }

    /** The descriptor of a static method that does the same: the receiver is the first parameter, a new object the result. */
    String staticDescriptor() {
        Type[] parameters = Type.getArgumentTypes(descriptor);
        if (isNew()) {
            return Type.getMethodDescriptor(Type.getObjectType(owner), parameters);
        }
        return isStatic() ? descriptor : Code.withFirst(Type.getObjectType(receiver), descriptor);
    }

    /** What stands before the arguments. */
    void before(MethodVisitor code) {
        if (isNew()) {
            code.visitTypeInsn(Opcodes.NEW, owner);
            code.visitInsn(Opcodes.DUP);
        }
    }

    /** The call, behind the arguments. */
    void call(MethodVisitor code) {
        code.visitMethodInsn(opcode(), owner, name, descriptor, isInterface);
    }

    private int opcode() {
        switch (kind) {
            case Opcodes.H_INVOKESTATIC:
                return Opcodes.INVOKESTATIC;
            case Opcodes.H_INVOKEVIRTUAL:
                return Opcodes.INVOKEVIRTUAL;
            case Opcodes.H_INVOKEINTERFACE:
                return Opcodes.INVOKEINTERFACE;
            default:
                return Opcodes.INVOKESPECIAL;
        }
    }
}
