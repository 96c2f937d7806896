package typestate;

import java.util.Comparator;

/**
 * What tells something of a class, and the order of texts that ignores case, as static methods: tools/desugar puts their calls in place of those
 * of java.lang.Class, and of String.CASE_INSENSITIVE_ORDER, which the verifier refuses. This class is for a JVM; the verifier has a model of it
 * (models/src/typestate/Reflect.java). No method here initialises a class, makes an object of one, or calls one of its methods.
 */
public final class Reflect {
    private Reflect() {
    }

    public static Comparator<String> ignoringCase() {
        return String.CASE_INSENSITIVE_ORDER;
    }

    public static String getSimpleName(Class<?> type) {
        return type.getSimpleName();
    }

    public static String getCanonicalName(Class<?> type) {
        return type.getCanonicalName();
    }

    public static String getTypeName(Class<?> type) {
        return type.getTypeName();
    }

    public static String getPackageName(Class<?> type) {
        Class<?> element = type;
        while (element.isArray()) {
            element = element.getComponentType();
        }
        String name = element.getName();
        return element.isPrimitive() ? "java.lang" : name.substring(0, Math.max(0, name.lastIndexOf('.')));
    }

    public static String toString(Class<?> type) {
        return type.toString();
    }

    public static String toGenericString(Class<?> type) {
        return type.toGenericString();
    }

    public static int hashCode(Class<?> type) {
        return type.hashCode();
    }

    public static boolean equals(Class<?> type, Object other) {
        return type.equals(other);
    }

    public static int getModifiers(Class<?> type) {
        return type.getModifiers();
    }

    public static boolean isInstance(Class<?> type, Object object) {
        return type.isInstance(object);
    }

    public static boolean isAssignableFrom(Class<?> type, Class<?> other) {
        return type.isAssignableFrom(other);
    }

    public static boolean isInterface(Class<?> type) {
        return type.isInterface();
    }

    public static boolean isArray(Class<?> type) {
        return type.isArray();
    }

    public static boolean isPrimitive(Class<?> type) {
        return type.isPrimitive();
    }

    public static boolean isEnum(Class<?> type) {
        return type.isEnum();
    }

    public static boolean isAnnotation(Class<?> type) {
        return type.isAnnotation();
    }

    public static boolean isSynthetic(Class<?> type) {
        return type.isSynthetic();
    }

    public static boolean isAnonymousClass(Class<?> type) {
        return type.isAnonymousClass();
    }

    public static boolean isLocalClass(Class<?> type) {
        return type.isLocalClass();
    }

    public static boolean isMemberClass(Class<?> type) {
        return type.isMemberClass();
    }

    public static Class<?> getSuperclass(Class<?> type) {
        return type.getSuperclass();
    }

    public static Class<?>[] getInterfaces(Class<?> type) {
        return type.getInterfaces();
    }

    public static Class<?> getComponentType(Class<?> type) {
        return type.getComponentType();
    }

    public static Class<?> getDeclaringClass(Class<?> type) {
        return type.getDeclaringClass();
    }

    public static Class<?> getEnclosingClass(Class<?> type) {
        return type.getEnclosingClass();
    }

    public static Object cast(Class<?> type, Object object) {
        return type.cast(object);
    }

    public static Class<?> asSubclass(Class<?> type, Class<?> above) {
        return type.asSubclass(above);
    }

    public static Package getPackage(Class<?> type) {
        return type.getPackage();
    }
}
