package desugar;

import org.objectweb.asm.ConstantDynamic;
import org.objectweb.asm.Handle;
import org.objectweb.asm.Label;
import org.objectweb.asm.Opcodes;
import org.objectweb.asm.Type;
import org.objectweb.asm.tree.InsnList;
import org.objectweb.asm.tree.InvokeDynamicInsnNode;
import org.objectweb.asm.tree.MethodInsnNode;
import org.objectweb.asm.tree.MethodNode;

/** Switches over types and enums by java.lang.runtime.SwitchBootstraps, written out as tests in the order of the labels. */
final class Switches {
    private final Place place;
    private final InvokeDynamicInsnNode site;
    private final MethodNode code;

    private Switches(Place place, InvokeDynamicInsnNode site) {
        this.place = place;
        this.site = site;
        this.code = place.helper("switch", site.desc);
    }

    static boolean is(Handle bootstrap) {
        return bootstrap.getOwner().equals("java/lang/runtime/SwitchBootstraps");
    }

    /** The call of a method that finds the label, in place of the call site; null where it cannot be done. */
    static InsnList rewrite(Place place, InvokeDynamicInsnNode site) {
        boolean isEnum = site.bsm.getName().equals("enumSwitch");
        if (!isEnum && !site.bsm.getName().equals("typeSwitch")) {
            place.problem("a switch is of a kind that is not known here", "write it as a chain of ifs");
            return null;
        }
        for (Object label : site.bsmArgs) {
            if (!isKnown(label, isEnum)) {
                place.problem("a switch has a label that is not known here", "write it as a chain of ifs");
                return null;
            }
        }
        Switches made = new Switches(place, site);
        made.write(isEnum);
        place.add(made.code);
        place.work().count("switches over types and enums");
        InsnList list = new InsnList();
        list.add(new MethodInsnNode(Opcodes.INVOKESTATIC, place.host().name, made.code.name, site.desc, Program.isInterface(place.host())));
        return list;
    }

    private static boolean isKnown(Object label, boolean isEnum) {
        if (label instanceof Type type) {
            return type.getSort() >= Type.ARRAY && type.getSort() != Type.METHOD;
        }
        return label instanceof String || !isEnum && (label instanceof Integer || EnumLabel.of(label) != null);
    }

    /** The label of an enum's constant, by the class and the name. */
    record EnumLabel(String owner, String name) {
        /** The one that a dynamic constant describes as javac does, by EnumDesc.of(ClassDesc.of(owner), name); null where it does not. */
        static EnumLabel of(Object label) {
            if (label instanceof ConstantDynamic made && calls(made, "java/lang/Enum$EnumDesc", 3)
                && made.getBootstrapMethodArgument(1) instanceof ConstantDynamic owner && calls(owner, "java/lang/constant/ClassDesc", 2)) {
                return new EnumLabel(((String) owner.getBootstrapMethodArgument(1)).replace('.', '/'), (String) made.getBootstrapMethodArgument(2));
            }
            return null;
        }

        private static boolean calls(ConstantDynamic made, String owner, int words) {
            return made.getBootstrapMethod().getOwner().equals(Constants.FACTORY) && made.getBootstrapMethod().getName().equals("invoke")
                && made.getBootstrapMethodArgumentCount() == words && made.getBootstrapMethodArgument(0) instanceof Handle called
                && called.getOwner().equals(owner) && called.getName().equals("of") && made.getBootstrapMethodArgument(words - 1) instanceof String;
        }
    }

    private void write(boolean isEnum) {
        Label notNull = new Label();
        code.visitVarInsn(Opcodes.ALOAD, 0);
        code.visitJumpInsn(Opcodes.IFNONNULL, notNull);
        code.visitInsn(Opcodes.ICONST_M1);
        code.visitInsn(Opcodes.IRETURN);
        begin(notNull);
        for (int at = 0; at < site.bsmArgs.length; at++) {
            Label next = new Label();
            code.visitVarInsn(Opcodes.ILOAD, 1);
            Code.number(code, at);
            code.visitJumpInsn(Opcodes.IF_ICMPGT, next);
            test(site.bsmArgs[at], at, isEnum, next);
            begin(next);
        }
        answer(site.bsmArgs.length);
    }

    private void begin(Label label) {
        code.visitLabel(label);
        Code.sameFrame(code, place.host().version);
    }

    private void answer(int at) {
        Code.number(code, at);
        code.visitInsn(Opcodes.IRETURN);
    }

    /** Answers with the number of a label where it fits, and else goes on to the next one. */
    private void test(Object label, int at, boolean isEnum, Label next) {
        if (label instanceof Type type) {
            instance(type.getInternalName(), next);
        } else if (label instanceof Integer value) {
            number(value, at, next);
            return;
        } else if (label instanceof String text && !isEnum) {
            code.visitLdcInsn(text);
            code.visitVarInsn(Opcodes.ALOAD, 0);
            code.visitMethodInsn(Opcodes.INVOKEVIRTUAL, "java/lang/String", "equals", "(Ljava/lang/Object;)Z", false);
            code.visitJumpInsn(Opcodes.IFEQ, next);
        } else if (label instanceof String name) {
            named(name, next);
        } else {
            EnumLabel constant = EnumLabel.of(label);
            instance(constant.owner(), next);
            named(constant.name(), next);
        }
        answer(at);
    }

    private void instance(String name, Label next) {
        code.visitVarInsn(Opcodes.ALOAD, 0);
        code.visitTypeInsn(Opcodes.INSTANCEOF, name);
        code.visitJumpInsn(Opcodes.IFEQ, next);
    }

    private void named(String name, Label next) {
        code.visitLdcInsn(name);
        code.visitVarInsn(Opcodes.ALOAD, 0);
        code.visitTypeInsn(Opcodes.CHECKCAST, "java/lang/Enum");
        code.visitMethodInsn(Opcodes.INVOKEVIRTUAL, "java/lang/Enum", "name", "()Ljava/lang/String;", false);
        code.visitMethodInsn(Opcodes.INVOKEVIRTUAL, "java/lang/String", "equals", "(Ljava/lang/Object;)Z", false);
        code.visitJumpInsn(Opcodes.IFEQ, next);
    }

    private void number(int value, int at, Label next) {
        Label character = new Label();
        instance("java/lang/Number", character);
        equal("java/lang/Number", "intValue", "()I", value, next);
        answer(at);
        begin(character);
        instance("java/lang/Character", next);
        equal("java/lang/Character", "charValue", "()C", value, next);
        answer(at);
    }

    private void equal(String owner, String name, String descriptor, int value, Label next) {
        code.visitVarInsn(Opcodes.ALOAD, 0);
        code.visitTypeInsn(Opcodes.CHECKCAST, owner);
        code.visitMethodInsn(Opcodes.INVOKEVIRTUAL, owner, name, descriptor, false);
        Code.number(code, value);
        code.visitJumpInsn(Opcodes.IF_ICMPNE, next);
    }
}
