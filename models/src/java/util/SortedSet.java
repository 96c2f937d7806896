package java.util;

import library.Elements;
import library.Library;
import library.Streams;

/** A set in the order of a comparator, or of its elements. */
public interface SortedSet<E> extends Set<E> {
    Comparator<? super E> comparator();

    SortedSet<E> subSet(E from, E to);

    SortedSet<E> headSet(E to);

    SortedSet<E> tailSet(E from);

    E first();

    E last();

    /** The library takes the elements, and asks for the comparator, later. */
    @Override
    default Spliterator<E> spliterator() {
        Elements.takeAll(this);
        if (Library.any()) {
            comparator();
        }
        return Streams.spliterator();
    }
}
