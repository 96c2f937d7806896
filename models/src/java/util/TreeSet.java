package java.util;

import java.io.Serializable;
import library.Elements;
import library.Library;

/** A set in the order of a comparator, or without one by compareTo of its elements. */
public class TreeSet<E> extends AbstractSet<E> implements NavigableSet<E>, Cloneable, Serializable {
    private transient Comparator<? super E> order;

    public TreeSet() {
    }

    public TreeSet(Comparator<? super E> order) {
        this.order = order;
    }

    public TreeSet(Collection<? extends E> other) {
        addAll(other);
    }

    public TreeSet(SortedSet<E> other) {
        order = other.comparator();
        addAll(other);
    }

    @Override
    public native Iterator<E> iterator();

    @Override
    public native Iterator<E> descendingIterator();

    @Override
    public native Spliterator<E> spliterator();

    @Override
    public NavigableSet<E> descendingSet() {
        return new Part<E>(Collections.reverseOrder(ordering()));
    }

    @Override
    public int size() {
        return Library.number();
    }

    @Override
    public boolean isEmpty() {
        return Library.any();
    }

    @Override
    public boolean contains(Object element) {
        return search(element);
    }

    @Override
    public boolean add(E element) {
        Library.keep(element);
        return search(element);
    }

    @Override
    public boolean remove(Object element) {
        return search(element);
    }

    @Override
    public void clear() {
    }

    @Override
    public boolean addAll(Collection<? extends E> other) {
        if (Library.any() && other.size() > 0 && other instanceof SortedSet) {
            Elements.equal(((SortedSet<?>) other).comparator(), order);
            if (Library.any()) {
                return takeSorted(other);
            }
        }
        return super.addAll(other);
    }

    /** Takes the elements of a sorted set as they come, without a question whether there is a next one. */
    private boolean takeSorted(Collection<?> other) {
        other.size();
        Iterator<?> steps = other.iterator();
        while (Library.any()) {
            Library.keep(steps.next());
        }
        return true;
    }

    @Override
    public NavigableSet<E> subSet(E from, boolean fromInclusive, E to, boolean toInclusive) {
        bound(from);
        bound(to);
        return new Part<E>(order);
    }

    @Override
    public NavigableSet<E> headSet(E to, boolean inclusive) {
        bound(to);
        return new Part<E>(order);
    }

    @Override
    public NavigableSet<E> tailSet(E from, boolean inclusive) {
        bound(from);
        return new Part<E>(order);
    }

    @Override
    public SortedSet<E> subSet(E from, E to) {
        return subSet(from, true, to, false);
    }

    @Override
    public SortedSet<E> headSet(E to) {
        return headSet(to, false);
    }

    @Override
    public SortedSet<E> tailSet(E from) {
        return tailSet(from, true);
    }

    @Override
    public Comparator<? super E> comparator() {
        return order;
    }

    @Override
    public E first() {
        return Elements.kept();
    }

    @Override
    public E last() {
        return Elements.kept();
    }

    @Override
    public E lower(E element) {
        return near(element);
    }

    @Override
    public E floor(E element) {
        return near(element);
    }

    @Override
    public E ceiling(E element) {
        return near(element);
    }

    @Override
    public E higher(E element) {
        return near(element);
    }

    @Override
    public E pollFirst() {
        return Elements.kept();
    }

    @Override
    public E pollLast() {
        return Elements.kept();
    }

    /** The library copies the object, so that it stands for its copy where it is of a class of the user. */
    @Override
    public Object clone() {
        return Library.any() ? this : new TreeSet<E>(order);
    }

    /** Looks for an element. */
    private boolean search(Object element) {
        return Elements.ordered(order, element);
    }

    /** Looks for an element next to one. */
    private E near(E element) {
        return search(element) ? Elements.<E>kept() : null;
    }

    /** Takes the bound of a part of the set, which is kept there and compared with itself, and later with elements. */
    private void bound(E element) {
        Library.keep(element);
        search(element);
    }

    /** The comparator, by which two elements are compared. */
    @SuppressWarnings("unchecked")
    private Comparator<E> ordering() {
        return (Comparator<E>) order;
    }

    /** A part of a set: whatever it is asked, elements are compared with its bounds. */
    private static final class Part<E> extends TreeSet<E> {
        Part(Comparator<? super E> order) {
            super(order);
        }

        /** Compares elements with the bounds. */
        private void compare() {
            Elements.ordered(comparator(), Library.kept());
        }

        @Override
        public Iterator<E> iterator() {
            compare();
            return super.iterator();
        }

        @Override
        public Iterator<E> descendingIterator() {
            compare();
            return super.descendingIterator();
        }

        @Override
        public int size() {
            compare();
            return super.size();
        }

        @Override
        public boolean isEmpty() {
            return size() == 0;
        }

        @Override
        public E first() {
            compare();
            return super.first();
        }

        @Override
        public E last() {
            return first();
        }

        @Override
        public E pollFirst() {
            return first();
        }

        @Override
        public E pollLast() {
            return first();
        }

        @Override
        public void clear() {
            compare();
        }
    }
}
