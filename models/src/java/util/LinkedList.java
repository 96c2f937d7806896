package java.util;

import java.io.Serializable;
import library.Elements;
import library.Library;

/**
 * A list of linked nodes. Its iterator is that of listIterator, which a user may override, and for that reason none of the program's
 * own code.
 */
public class LinkedList<E> extends AbstractSequentialList<E> implements List<E>, Deque<E>, Cloneable, Serializable {
    public LinkedList() {
    }

    public LinkedList(Collection<? extends E> other) {
        addAll(other);
    }

    @Override
    public E getFirst() {
        return Elements.kept();
    }

    @Override
    public E getLast() {
        return Elements.kept();
    }

    @Override
    public E removeFirst() {
        return Elements.kept();
    }

    @Override
    public E removeLast() {
        return Elements.kept();
    }

    @Override
    public void addFirst(E element) {
        Library.keep(element);
    }

    @Override
    public void addLast(E element) {
        Library.keep(element);
    }

    @Override
    public boolean contains(Object element) {
        return indexOf(element) != -1;
    }

    @Override
    public int size() {
        return Library.number();
    }

    @Override
    public boolean add(E element) {
        Library.keep(element);
        return true;
    }

    @Override
    public boolean remove(Object element) {
        return Elements.equal(element);
    }

    @Override
    public boolean addAll(Collection<? extends E> other) {
        return addAll(Library.number(), other);
    }

    @Override
    public boolean addAll(int index, Collection<? extends E> other) {
        return Elements.takeAll(other);
    }

    @Override
    public void clear() {
    }

    @Override
    public E get(int index) {
        return Elements.kept();
    }

    @Override
    public E set(int index, E element) {
        Library.keep(element);
        return Elements.kept();
    }

    @Override
    public void add(int index, E element) {
        Library.keep(element);
    }

    @Override
    public E remove(int index) {
        return Elements.kept();
    }

    @Override
    public int indexOf(Object element) {
        Elements.equal(element);
        return Library.number();
    }

    @Override
    public int lastIndexOf(Object element) {
        Elements.equal(element);
        return Library.number();
    }

    @Override
    public E peek() {
        return Elements.kept();
    }

    @Override
    public E element() {
        return getFirst();
    }

    @Override
    public E poll() {
        return Elements.kept();
    }

    @Override
    public E remove() {
        return removeFirst();
    }

    @Override
    public boolean offer(E element) {
        return add(element);
    }

    @Override
    public boolean offerFirst(E element) {
        addFirst(element);
        return true;
    }

    @Override
    public boolean offerLast(E element) {
        addLast(element);
        return true;
    }

    @Override
    public E peekFirst() {
        return Elements.kept();
    }

    @Override
    public E peekLast() {
        return Elements.kept();
    }

    @Override
    public E pollFirst() {
        return Elements.kept();
    }

    @Override
    public E pollLast() {
        return Elements.kept();
    }

    @Override
    public void push(E element) {
        addFirst(element);
    }

    @Override
    public E pop() {
        return removeFirst();
    }

    @Override
    public boolean removeFirstOccurrence(Object element) {
        return remove(element);
    }

    @Override
    public boolean removeLastOccurrence(Object element) {
        return Elements.equal(element);
    }

    @Override
    public native ListIterator<E> listIterator(int index);

    @Override
    public Iterator<E> descendingIterator() {
        size();
        return steps();
    }

    /** A new iterator. */
    private native Iterator<E> steps();

    /** The library copies the object, so that it stands for its copy where it is of a class of the user. */
    @Override
    public Object clone() {
        LinkedList<E> copy = Library.any() ? this : new LinkedList<E>();
        while (Library.any()) {
            copy.add(Elements.<E>kept());
        }
        return copy;
    }

    @Override
    public Object[] toArray() {
        return Elements.array();
    }

    @Override
    public <T> T[] toArray(T[] into) {
        return Elements.fill(into);
    }

    @Override
    public native Spliterator<E> spliterator();
}
