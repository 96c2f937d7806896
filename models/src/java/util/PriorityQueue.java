package java.util;

import java.io.Serializable;
import java.util.function.Consumer;
import library.Elements;
import library.Library;

/** A queue in the order of a comparator, or without one by compareTo of its elements. */
public class PriorityQueue<E> extends AbstractQueue<E> implements Serializable {
    private final Comparator<? super E> order;

    public PriorityQueue() {
        order = null;
    }

    public PriorityQueue(int capacity) {
        order = null;
    }

    public PriorityQueue(Comparator<? super E> order) {
        this.order = order;
    }

    public PriorityQueue(int capacity, Comparator<? super E> order) {
        this.order = order;
    }

    @SuppressWarnings("unchecked")
    public PriorityQueue(Collection<? extends E> other) {
        if (other instanceof SortedSet) {
            order = ((SortedSet<E>) other).comparator();
        } else if (other instanceof PriorityQueue) {
            order = ((PriorityQueue<E>) other).comparator();
        } else {
            order = null;
        }
        take(other);
    }

    @SuppressWarnings("unchecked")
    public PriorityQueue(PriorityQueue<? extends E> other) {
        order = (Comparator<? super E>) other.comparator();
        take(other);
    }

    @SuppressWarnings("unchecked")
    public PriorityQueue(SortedSet<? extends E> other) {
        order = (Comparator<? super E>) other.comparator();
        take(other);
    }

    /** Takes the elements of a collection, and orders them. */
    private void take(Collection<? extends E> other) {
        Elements.takeAll(other);
        reorder();
    }

    @Override
    public boolean add(E element) {
        return offer(element);
    }

    @Override
    public boolean offer(E element) {
        Library.keep(element);
        Elements.ordered(order, element);
        return true;
    }

    @Override
    public E peek() {
        return Elements.kept();
    }

    @Override
    public boolean remove(Object element) {
        boolean found = Elements.equal(element);
        reorder();
        return found;
    }

    @Override
    public boolean contains(Object element) {
        return Elements.equal(element);
    }

    @Override
    public Object[] toArray() {
        return Elements.array();
    }

    @Override
    public <T> T[] toArray(T[] into) {
        return Elements.fill(into);
    }

    /** Its iterator compares elements where one is removed, and for that reason is none of the program's own code. */
    @Override
    public Iterator<E> iterator() {
        return new Steps<E>(this);
    }

    @Override
    public int size() {
        return Library.number();
    }

    @Override
    public void clear() {
    }

    @Override
    public E poll() {
        reorder();
        return Elements.kept();
    }

    public Comparator<? super E> comparator() {
        return order;
    }

    @Override
    public final native Spliterator<E> spliterator();

    /** Compares elements after one has gone. */
    private void reorder() {
        Elements.ordered(order, Library.kept());
    }

    /** The iterator. */
    private static final class Steps<E> implements Iterator<E> {
        private final PriorityQueue<E> queue;

        Steps(PriorityQueue<E> queue) {
            this.queue = queue;
        }

        @Override
        public boolean hasNext() {
            return Library.any();
        }

        @Override
        public E next() {
            return Elements.kept();
        }

        @Override
        public void remove() {
            queue.reorder();
        }

        @Override
        public void forEachRemaining(Consumer<? super E> action) {
            while (hasNext()) {
                action.accept(next());
            }
        }
    }
}
