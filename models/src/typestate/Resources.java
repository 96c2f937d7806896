package typestate;

import java.io.InputStream;
import java.net.URL;
import library.Library;

/**
 * The loader and the resources of a class, and the standard input, as static methods: tools/desugar puts their calls in place of those of
 * java.lang.Class, and of System.in (tools/desugarer/runtime has the class for a JVM). The standard input is one object, as it is in the
 * library: so it stands in a static field. A resource may be looked for by a loader of the program's own.
 */
public final class Resources {
    private static InputStream input;

    private Resources() {
    }

    private static native InputStream opened();

    public static InputStream in() {
        if (input == null) {
            input = opened();
        }
        return input;
    }

    private static native ClassLoader loader();

    /** A loader comes back for each of its classes: one that was given before, one of the program's own, or null. */
    public static ClassLoader getClassLoader(Class<?> type) {
        Object found = Library.kept();
        if (found instanceof ClassLoader && Library.any()) {
            return (ClassLoader) found;
        }
        ClassLoader made = loader();
        Library.keep(made);
        return made;
    }

    private static native URL resource();

    public static URL getResource(Class<?> type, String name) {
        ClassLoader loader = getClassLoader(type);
        return loader != null && Library.any() ? loader.getResource(name) : resource();
    }

    public static InputStream getResourceAsStream(Class<?> type, String name) {
        ClassLoader loader = getClassLoader(type);
        return loader != null && Library.any() ? loader.getResourceAsStream(name) : opened();
    }
}
