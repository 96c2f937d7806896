package library;

import java.util.Collection;
import java.util.Comparator;
import java.util.Iterator;
import java.util.List;
import java.util.ListIterator;
import java.util.Map;
import java.util.SortedMap;

/**
 * What containers do with their elements: the calls that they make on them, and how they take those of other containers. What is
 * called stands in loops under choices, so that it may happen never, once or often, and in any order.
 */
public final class Elements {
    private Elements() {
    }

    // ---- one call

    /** Calls hashCode of an object, if there is one. */
    public static int hash(Object one) {
        return one == null ? 0 : one.hashCode();
    }

    /** Calls equals of the first with the second, if there is a first. */
    public static boolean equal(Object one, Object other) {
        return one == null ? other == null : one.equals(other);
    }

    /** Compares two objects by a comparator, or without one by the first itself. */
    @SuppressWarnings("unchecked")
    public static int compare(Comparator<?> order, Object one, Object other) {
        if (order != null) {
            return ((Comparator<Object>) order).compare(one, other);
        }
        return one instanceof Comparable ? ((Comparable<Object>) one).compareTo(other) : Library.number();
    }

    /** The text of an object: its toString is called, and its hashCode, since toString of java.lang.Object calls it. */
    public static String text(Object one) {
        if (one == null || Library.any()) {
            return Library.text();
        }
        if (Library.any()) {
            one.hashCode();
        }
        return one.toString();
    }

    // ---- searches

    /** A search through the elements by equals. Whether it finds one. */
    public static boolean equal(Object one) {
        while (Library.any()) {
            if (Library.any()) {
                equal(one, Library.kept());
            } else {
                equal(Library.kept(), one);
            }
        }
        return Library.any();
    }

    /** A search in a hash table, which orders keys of one place by compareTo. Whether it finds one. */
    public static boolean hashed(Object one) {
        while (Library.any()) {
            if (Library.any()) {
                hash(one);
            } else if (Library.any()) {
                hash(Library.kept());
            } else if (Library.any()) {
                equal(one);
            } else {
                ordered(null, one);
            }
        }
        return Library.any();
    }

    /** A search in a tree by a comparator, or without one by compareTo. Whether it finds one. */
    public static boolean ordered(Comparator<?> order, Object one) {
        while (Library.any()) {
            if (Library.any()) {
                compare(order, one, Library.kept());
            } else if (Library.any()) {
                compare(order, Library.kept(), one);
            } else {
                compare(order, Library.kept(), Library.kept());
            }
        }
        return Library.any();
    }

    /** A loop over the elements that asks for the texts of all. */
    public static String texts() {
        while (Library.any()) {
            text(Library.kept());
        }
        return Library.text();
    }

    // ---- elements from elsewhere

    /** Keeps what an array holds. */
    public static void keepAll(Object[] from) {
        for (Object each : from) {
            Library.keep(each);
        }
    }

    /** Keeps what a collection holds, which may be one of the user. */
    public static boolean takeAll(Collection<?> from) {
        while (Library.any()) {
            if (Library.any()) {
                from.size();
            } else if (Library.any()) {
                from.isEmpty();
            } else if (Library.any()) {
                keepAll(from.toArray());
            } else if (Library.any()) {
                from.forEach(new Keeper<Object>());
            } else {
                for (Object each : from) {
                    Library.keep(each);
                }
            }
        }
        return Library.any();
    }

    /** Takes a map into a hash table. */
    public static void hashAll(Map<?, ?> from) {
        from.size();
        for (Map.Entry<?, ?> each : from.entrySet()) {
            hashed(take(each));
        }
    }

    /** Takes a sorted map into a tree, without a question whether there is a next entry. */
    public static void takeSorted(SortedMap<?, ?> from) {
        from.size();
        Iterator<? extends Map.Entry<?, ?>> steps = from.entrySet().iterator();
        while (Library.any()) {
            take(steps.next());
        }
    }

    /** Keeps key and value of an entry. The key. */
    public static Object take(Map.Entry<?, ?> from) {
        Object key = from.getKey();
        Library.keep(key);
        Library.keep(from.getValue());
        return key;
    }

    /** Puts a value that was computed into a map, or takes the key out where there is none. */
    public static <K, V> V enter(Map<K, V> into, K key, V value) {
        if (value == null) {
            into.remove(key);
        } else {
            into.put(key, value);
        }
        return value;
    }

    // ---- arrays

    /** A new array of elements. */
    public static Object[] array() {
        return fill(new Object[Library.number()]);
    }

    /**
     * An array with elements in it, as toArray gives it. The library may give a new one of the same class, for which the array itself
     * stands.
     */
    public static <T> T[] fill(T[] into) {
        while (Library.any()) {
            into[Library.number()] = Elements.<T>kept();
        }
        return into;
    }

    /** What was kept, as a type has it. */
    @SuppressWarnings("unchecked")
    public static <T> T kept() {
        return (T) Library.kept();
    }

    /** Sorts an array: compares elements of it, and moves them. */
    public static void sort(Object[] all, Comparator<?> order) {
        while (Library.any()) {
            int at = Library.number();
            int other = Library.number();
            if (Library.any()) {
                compare(order, all[at], all[other]);
            } else {
                Object one = all[at];
                all[at] = all[other];
                all[other] = one;
            }
        }
    }

    // ---- lists

    /** Sorts a list, as the default method of List does. */
    @SuppressWarnings("unchecked")
    public static void sort(List<?> list, Comparator<?> order) {
        Object[] all = list.toArray();
        sort(all, order);
        ListIterator<Object> steps = (ListIterator<Object>) list.listIterator();
        for (Object each : all) {
            steps.next();
            steps.set(each);
        }
    }
}
