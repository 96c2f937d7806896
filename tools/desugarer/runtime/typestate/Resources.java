package typestate;

import java.io.InputStream;
import java.net.URL;

/**
 * The loader and the resources of a class, and the standard input, as static methods: tools/desugar puts their calls in place of those of
 * java.lang.Class, and of System.in, which the verifier refuses. This class is for a JVM; the verifier has a model of it
 * (models/src/typestate/Resources.java).
 */
public final class Resources {
    private Resources() {
    }

    public static InputStream in() {
        return System.in;
    }

    public static ClassLoader getClassLoader(Class<?> type) {
        return type.getClassLoader();
    }

    public static URL getResource(Class<?> type, String name) {
        return type.getResource(name);
    }

    public static InputStream getResourceAsStream(Class<?> type, String name) {
        return type.getResourceAsStream(name);
    }
}
