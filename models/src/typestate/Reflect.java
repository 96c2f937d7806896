package typestate;

import java.util.Comparator;
import library.Library;

/**
 * What tells something of a class, and the order of texts that ignores case, as static methods: tools/desugar puts their calls in place of those
 * of java.lang.Class, and of String.CASE_INSENSITIVE_ORDER (tools/desugarer/runtime has the class for a JVM). The order is one object, as it is
 * in the library: so it stands in a static field.
 */
public final class Reflect {
    private static Comparator<String> ignoring;

    private Reflect() {
    }

    private static native Comparator<String> order();

    public static Comparator<String> ignoringCase() {
        if (ignoring == null) {
            ignoring = order();
        }
        return ignoring;
    }

    public static native String getSimpleName(Class<?> type);

    public static native String getCanonicalName(Class<?> type);

    public static native String getTypeName(Class<?> type);

    public static native String getPackageName(Class<?> type);

    public static native String toString(Class<?> type);

    public static native String toGenericString(Class<?> type);

    public static native int hashCode(Class<?> type);

    public static native boolean equals(Class<?> type, Object other);

    public static native int getModifiers(Class<?> type);

    public static native boolean isInstance(Class<?> type, Object object);

    public static native boolean isAssignableFrom(Class<?> type, Class<?> other);

    public static native boolean isInterface(Class<?> type);

    public static native boolean isArray(Class<?> type);

    public static native boolean isPrimitive(Class<?> type);

    public static native boolean isEnum(Class<?> type);

    public static native boolean isAnnotation(Class<?> type);

    public static native boolean isSynthetic(Class<?> type);

    public static native boolean isAnonymousClass(Class<?> type);

    public static native boolean isLocalClass(Class<?> type);

    public static native boolean isMemberClass(Class<?> type);

    public static native Class<?> getSuperclass(Class<?> type);

    public static Class<?>[] getInterfaces(Class<?> type) {
        Class<?>[] made = new Class<?>[Library.number()];
        made[Library.number()] = getSuperclass(type);
        return made;
    }

    public static native Class<?> getComponentType(Class<?> type);

    public static native Class<?> getDeclaringClass(Class<?> type);

    public static native Class<?> getEnclosingClass(Class<?> type);

    public static Object cast(Class<?> type, Object object) {
        Library.any();
        return object;
    }

    public static Class<?> asSubclass(Class<?> type, Class<?> above) {
        Library.any();
        return type;
    }

    public static native Package getPackage(Class<?> type);
}
