package java.util;

import library.Bulk;
import library.Elements;
import library.Streams;

/** A collection without doubles. */
public interface Set<E> extends Collection<E>, Bulk<E> {
    @Override
    int size();

    @Override
    boolean isEmpty();

    @Override
    boolean contains(Object element);

    @Override
    Iterator<E> iterator();

    @Override
    Object[] toArray();

    @Override
    <T> T[] toArray(T[] into);

    @Override
    boolean add(E element);

    @Override
    boolean remove(Object element);

    @Override
    boolean containsAll(Collection<?> other);

    @Override
    boolean addAll(Collection<? extends E> other);

    @Override
    boolean retainAll(Collection<?> other);

    @Override
    boolean removeAll(Collection<?> other);

    @Override
    void clear();

    @Override
    boolean equals(Object other);

    @Override
    int hashCode();

    /** The library takes the elements later, when the result is asked for them. */
    @Override
    default Spliterator<E> spliterator() {
        Elements.takeAll(this);
        return Streams.spliterator();
    }
}
