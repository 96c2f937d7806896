package java.util;

import java.util.function.Supplier;
import library.Elements;
import library.Library;

/** Methods of all objects, for those that may be null. */
public final class Objects {
    private Objects() {
    }

    public static boolean equals(Object one, Object other) {
        return one == other || one != null && one.equals(other);
    }

    public static boolean deepEquals(Object one, Object other) {
        return one == other || Arrays.deepEqual(one, other);
    }

    public static int hashCode(Object one) {
        return Elements.hash(one);
    }

    public static int hash(Object... all) {
        return Arrays.hashCode(all);
    }

    public static String toString(Object one) {
        return Elements.text(one);
    }

    public static String toString(Object one, String otherwise) {
        return one == null ? otherwise : Elements.text(one);
    }

    public static <T> int compare(T one, T other, Comparator<? super T> order) {
        return one == other ? 0 : order.compare(one, other);
    }

    public static <T> T requireNonNull(T one) {
        if (one == null) {
            throw new NullPointerException();
        }
        return one;
    }

    public static <T> T requireNonNull(T one, String message) {
        if (one == null) {
            throw new NullPointerException(message);
        }
        return one;
    }

    public static boolean isNull(Object one) {
        return one == null;
    }

    public static boolean nonNull(Object one) {
        return one != null;
    }

    public static <T> T requireNonNull(T one, Supplier<String> message) {
        if (one == null) {
            throw new NullPointerException(Library.any() ? null : message.get());
        }
        return one;
    }
}
