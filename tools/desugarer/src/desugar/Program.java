package desugar;

import java.io.IOException;
import java.io.InputStream;
import java.util.ArrayList;
import java.util.Collection;
import java.util.HashMap;
import java.util.LinkedHashMap;
import java.util.List;
import java.util.Map;
import java.util.Optional;
import org.objectweb.asm.ClassReader;
import org.objectweb.asm.Opcodes;
import org.objectweb.asm.Type;
import org.objectweb.asm.tree.ClassNode;
import org.objectweb.asm.tree.FieldNode;
import org.objectweb.asm.tree.MethodNode;

/** The classes that are read, by their names, and what the running JDK's library says of others: members are looked up in both. */
final class Program {
    private final Map<String, ClassNode> own = new LinkedHashMap<>();
    private final Map<String, Optional<ClassNode>> library = new HashMap<>();

    /** A method, and the class that declares it. */
    record Method(ClassNode owner, MethodNode node) {
        boolean is(int flag) {
            return (node.access & flag) != 0;
        }
    }

    /** A field, and the class that declares it. */
    record Field(ClassNode owner, FieldNode node) {
        boolean is(int flag) {
            return (node.access & flag) != 0;
        }
    }

    void add(ClassNode each) {
        own.put(each.name, each);
    }

    Collection<ClassNode> all() {
        return own.values();
    }

    /** The class of this name that was read, or null. */
    ClassNode own(String name) {
        return own.get(name);
    }

    /** The class of this name, without the code of its methods where it is the library's, or null. */
    ClassNode find(String name) {
        ClassNode found = own.get(name);
        return found != null ? found : library.computeIfAbsent(name, Program::read).orElse(null);
    }

    private static Optional<ClassNode> read(String name) {
        try (InputStream file = ClassLoader.getPlatformClassLoader().getResourceAsStream(name + ".class")) {
            if (file == null) {
                return Optional.empty();
            }
            ClassNode node = new ClassNode();
            new ClassReader(file.readAllBytes()).accept(node, ClassReader.SKIP_CODE | ClassReader.SKIP_DEBUG);
            return Optional.of(node);
        } catch (IOException | IllegalArgumentException fault) {
            return Optional.empty();
        }
    }

    /** The method that resolution finds (JVMS 5.4.3.3), or null where a class on the way is not there. */
    Method method(String owner, String name, String descriptor) {
        for (ClassNode each : above(owner)) {
            for (MethodNode node : each.methods) {
                if (node.name.equals(name) && node.desc.equals(descriptor)) {
                    return new Method(each, node);
                }
            }
        }
        return null;
    }

    /** The field that resolution finds (JVMS 5.4.3.2), or null where a class on the way is not there. */
    Field field(String owner, String name, String descriptor) {
        ClassNode found = find(owner);
        if (found == null) {
            return null;
        }
        for (FieldNode node : found.fields) {
            if (node.name.equals(name) && node.desc.equals(descriptor)) {
                return new Field(found, node);
            }
        }
        List<String> supers = new ArrayList<>(found.interfaces);
        if (found.superName != null) {
            supers.add(found.superName);
        }
        return supers.stream().map(above -> field(above, name, descriptor)).filter(each -> each != null).findFirst().orElse(null);
    }

    /** A class and what is above it: first its superclasses, then the interfaces. */
    private List<ClassNode> above(String name) {
        List<ClassNode> found = new ArrayList<>();
        String at = name.startsWith("[") ? "java/lang/Object" : name;
        for (ClassNode each = find(at); each != null; each = each.superName == null ? null : find(each.superName)) {
            found.add(each);
        }
        for (int next = 0; next < found.size(); next++) {
            for (String above : found.get(next).interfaces) {
                ClassNode each = find(above);
                if (each != null && !found.contains(each)) {
                    found.add(each);
                }
            }
        }
        return found;
    }

    /** Whether an array of these elements is of no class but the one of that type: no class is below the element's, as of an enum. */
    boolean isExact(Type element) {
        if (element.getSort() == Type.ARRAY) {
            return isExact(element.getElementType());
        }
        if (element.getSort() != Type.OBJECT) {
            return true;
        }
        ClassNode found = find(element.getInternalName());
        return found != null && (found.access & (Opcodes.ACC_FINAL | Opcodes.ACC_ENUM)) != 0;
    }

    /** The host of a class's nest (JVMS 5.4.4), which is the class itself where it names none. */
    static String nest(ClassNode each) {
        return each.nestHostClass == null ? each.name : each.nestHostClass;
    }

    /** The package of a class. */
    static String packageOf(String name) {
        return name.substring(0, name.lastIndexOf('/') + 1);
    }

    /** Whether a class is an interface. */
    static boolean isInterface(ClassNode each) {
        return (each.access & Opcodes.ACC_INTERFACE) != 0;
    }
}
