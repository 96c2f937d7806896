package java.util;

import java.io.Serializable;
import library.Elements;
import library.Library;

/** A set in a hash table. It calls hashCode, equals and compareTo of its elements. */
public class HashSet<E> extends AbstractSet<E> implements Set<E>, Cloneable, Serializable {
    public HashSet() {
    }

    public HashSet(Collection<? extends E> other) {
        other.size();
        addAll(other);
    }

    public HashSet(int capacity, float load) {
    }

    public HashSet(int capacity) {
    }

    @Override
    public native Iterator<E> iterator();

    @Override
    public native Spliterator<E> spliterator();

    @Override
    public int size() {
        return Library.number();
    }

    @Override
    public boolean isEmpty() {
        return Library.any();
    }

    @Override
    public boolean contains(Object element) {
        return Elements.hashed(element);
    }

    @Override
    public boolean add(E element) {
        Library.keep(element);
        return Elements.hashed(element);
    }

    @Override
    public boolean remove(Object element) {
        return Elements.hashed(element);
    }

    @Override
    public void clear() {
    }

    /** The library copies the object, so that it stands for its copy where it is of a class of the user. */
    @Override
    public Object clone() {
        Elements.hashed(Library.kept());
        return Library.any() ? this : new HashSet<E>();
    }
}
