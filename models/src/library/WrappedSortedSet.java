package library;

import java.util.Comparator;
import java.util.SortedSet;
import java.util.Spliterator;

/** A view of a sorted set. */
public class WrappedSortedSet<E> extends WrappedSet<E> implements SortedSet<E> {
    private final SortedSet<E> set;

    public WrappedSortedSet(SortedSet<E> set) {
        super(set);
        this.set = set;
    }

    @Override
    public Comparator<? super E> comparator() {
        return set.comparator();
    }

    @Override
    public SortedSet<E> subSet(E from, E to) {
        return new WrappedSortedSet<E>(set.subSet(from, to));
    }

    @Override
    public SortedSet<E> headSet(E to) {
        return new WrappedSortedSet<E>(set.headSet(to));
    }

    @Override
    public SortedSet<E> tailSet(E from) {
        return new WrappedSortedSet<E>(set.tailSet(from));
    }

    @Override
    public E first() {
        return set.first();
    }

    @Override
    public E last() {
        return set.last();
    }

    @Override
    public Spliterator<E> spliterator() {
        return super.spliterator();
    }
}
