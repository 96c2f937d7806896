package java.util;

import java.io.Serializable;
import library.Elements;
import library.Library;

/** A queue with two ends in an array. Less than in later versions of the library: there, to make an iterator calls size. */
public class ArrayDeque<E> extends AbstractCollection<E> implements Deque<E>, Cloneable, Serializable {
    public ArrayDeque() {
    }

    public ArrayDeque(int capacity) {
    }

    public ArrayDeque(Collection<? extends E> other) {
        other.size();
        if (Library.any()) {
            addAll(other);
        } else {
            addEach(other);
        }
    }

    @Override
    public void addFirst(E element) {
        Library.keep(element);
    }

    @Override
    public void addLast(E element) {
        Library.keep(element);
    }

    @Override
    public boolean addAll(Collection<? extends E> other) {
        return Library.any() ? super.addAll(other) : addEach(other);
    }

    /** Later versions of the library hand a function to forEach of the other collection. */
    private boolean addEach(Collection<? extends E> other) {
        size();
        other.size();
        other.forEach(new Adder<E>(this));
        size();
        return true;
    }

    @Override
    public boolean offerFirst(E element) {
        addFirst(element);
        return true;
    }

    @Override
    public boolean offerLast(E element) {
        addLast(element);
        return true;
    }

    @Override
    public E removeFirst() {
        return there(pollFirst());
    }

    @Override
    public E removeLast() {
        return there(pollLast());
    }

    @Override
    public E pollFirst() {
        return Elements.kept();
    }

    @Override
    public E pollLast() {
        return Elements.kept();
    }

    @Override
    public E getFirst() {
        return there(Elements.<E>kept());
    }

    @Override
    public E getLast() {
        return there(Elements.<E>kept());
    }

    /** The element, if there is one. */
    private E there(E element) {
        if (element == null) {
            throw new NoSuchElementException();
        }
        return element;
    }

    @Override
    public E peekFirst() {
        return Elements.kept();
    }

    @Override
    public E peekLast() {
        return Elements.kept();
    }

    @Override
    public boolean removeFirstOccurrence(Object element) {
        return Elements.equal(element);
    }

    @Override
    public boolean removeLastOccurrence(Object element) {
        return Elements.equal(element);
    }

    @Override
    public boolean add(E element) {
        addLast(element);
        return true;
    }

    @Override
    public boolean offer(E element) {
        return offerLast(element);
    }

    @Override
    public E remove() {
        return removeFirst();
    }

    @Override
    public E poll() {
        return pollFirst();
    }

    @Override
    public E element() {
        return getFirst();
    }

    @Override
    public E peek() {
        return peekFirst();
    }

    @Override
    public void push(E element) {
        addFirst(element);
    }

    @Override
    public E pop() {
        return removeFirst();
    }

    @Override
    public int size() {
        return Library.number();
    }

    @Override
    public boolean isEmpty() {
        return Library.any();
    }

    @Override
    public native Iterator<E> iterator();

    @Override
    public native Iterator<E> descendingIterator();

    @Override
    public boolean contains(Object element) {
        return Elements.equal(element);
    }

    @Override
    public boolean remove(Object element) {
        return removeFirstOccurrence(element);
    }

    @Override
    public void clear() {
    }

    @Override
    public Object[] toArray() {
        size();
        return Elements.array();
    }

    @Override
    public <T> T[] toArray(T[] into) {
        size();
        return Elements.fill(into);
    }

    /** The library copies the object, so that it stands for its copy where it is of a class of the user. */
    @Override
    public ArrayDeque<E> clone() {
        return Library.any() ? this : new ArrayDeque<E>();
    }

    @Override
    public native Spliterator<E> spliterator();

    /** Adds what it is given to a queue. */
    private static final class Adder<E> implements java.util.function.Consumer<E> {
        private final ArrayDeque<E> queue;

        Adder(ArrayDeque<E> queue) {
            this.queue = queue;
        }

        @Override
        public void accept(E element) {
            queue.addLast(element);
        }
    }
}
