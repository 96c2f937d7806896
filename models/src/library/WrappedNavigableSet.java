package library;

import java.util.Iterator;
import java.util.NavigableSet;
import java.util.SortedSet;

/** A view of a navigable set. */
public final class WrappedNavigableSet<E> extends WrappedSortedSet<E> implements NavigableSet<E> {
    private final NavigableSet<E> set;

    public WrappedNavigableSet(NavigableSet<E> set) {
        super(set);
        this.set = set;
    }

    @Override
    public E lower(E element) {
        return set.lower(element);
    }

    @Override
    public E floor(E element) {
        return set.floor(element);
    }

    @Override
    public E ceiling(E element) {
        return set.ceiling(element);
    }

    @Override
    public E higher(E element) {
        return set.higher(element);
    }

    @Override
    public E pollFirst() {
        return Library.any() ? null : set.pollFirst();
    }

    @Override
    public E pollLast() {
        return Library.any() ? null : set.pollLast();
    }

    @Override
    public NavigableSet<E> descendingSet() {
        return new WrappedNavigableSet<E>(set.descendingSet());
    }

    @Override
    public Iterator<E> descendingIterator() {
        if (Library.any()) {
            return descendingSet().iterator();
        }
        Iterator<E> steps = set.descendingIterator();
        return Library.any() ? steps : new WrappedSteps<E>(steps);
    }

    @Override
    public NavigableSet<E> subSet(E from, boolean fromInclusive, E to, boolean toInclusive) {
        return new WrappedNavigableSet<E>(set.subSet(from, fromInclusive, to, toInclusive));
    }

    @Override
    public NavigableSet<E> headSet(E to, boolean inclusive) {
        return new WrappedNavigableSet<E>(set.headSet(to, inclusive));
    }

    @Override
    public NavigableSet<E> tailSet(E from, boolean inclusive) {
        return new WrappedNavigableSet<E>(set.tailSet(from, inclusive));
    }

    /** A synchronized or a checked view calls the method with bounds. */
    @Override
    public SortedSet<E> subSet(E from, E to) {
        return Library.any() ? subSet(from, true, to, false) : super.subSet(from, to);
    }

    @Override
    public SortedSet<E> headSet(E to) {
        return Library.any() ? headSet(to, false) : super.headSet(to);
    }

    @Override
    public SortedSet<E> tailSet(E from) {
        return Library.any() ? tailSet(from, true) : super.tailSet(from);
    }
}
