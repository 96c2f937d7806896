package library;

import java.beans.Beans;
import java.io.IOException;

/** Objects that the library makes by the names of their classes, which may be the program's: what this rests on is told of the one call here. */
public final class ByName {
    private ByName() {
    }

    /** An object of some class, or null. */
    public static Object make() {
        try {
            return Library.any() ? null : Beans.instantiate(null, Library.text());
        } catch (IOException fault) {
            return null;
        } catch (ClassNotFoundException fault) {
            return null;
        }
    }
}
