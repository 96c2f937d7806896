package java.util;

import java.io.Serializable;
import library.Library;

/** A set in a hash table, in the order of insertion. */
public class LinkedHashSet<E> extends HashSet<E> implements Set<E>, Cloneable, Serializable {
    public LinkedHashSet(int capacity, float load) {
    }

    public LinkedHashSet(int capacity) {
    }

    public LinkedHashSet() {
    }

    public LinkedHashSet(Collection<? extends E> other) {
        super(other);
    }

    @Override
    public native Spliterator<E> spliterator();

    @Override
    public Object clone() {
        Object other = super.clone();
        return Library.any() ? other : new LinkedHashSet<E>();
    }
}
