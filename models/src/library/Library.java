package library;

import java.io.IOException;

/**
 * What models of library classes are made of. No class file of these methods is run: the tools describe them in the stub file, as they
 * do with each native method of a model (models/README.md).
 */
public final class Library {
    private Library() {
    }

    /** A choice: true or false, another one at each call. Like each described method it may also throw an unchecked exception of the library. */
    public static native boolean any();

    /** A number, another one at each call. */
    public static native int number();

    /** A text of the library's own making, or one that was kept. */
    public static native String text();

    /** Keeps an object for good: what is kept may come back from {@link #kept} and from each method that may give what was kept. */
    public static native void keep(Object object);

    /** An object that was kept at some time by {@link #keep} or a described method, one of the library's own making, or null. */
    public static native Object kept();

    /** Does nothing, or throws an IOException or one below it. */
    public static native void mayFail() throws IOException;
}
