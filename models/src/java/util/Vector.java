package java.util;

import java.io.Serializable;
import java.util.function.Consumer;
import java.util.function.Predicate;
import java.util.function.UnaryOperator;
import library.Elements;
import library.Library;

/**
 * A list in an array that a class below it sees, so that elements stand there too. Its iterators call remove, set and add of the vector,
 * which a user may override, and for that reason are none of the program's own code.
 */
public class Vector<E> extends AbstractList<E> implements List<E>, RandomAccess, Cloneable, Serializable {
    protected Object[] elementData;
    protected int elementCount;
    protected int capacityIncrement;

    public Vector(int capacity, int increment) {
        elementData = new Object[capacity];
        capacityIncrement = increment;
    }

    public Vector(int capacity) {
        this(capacity, 0);
    }

    public Vector() {
        this(10);
    }

    public Vector(Collection<? extends E> other) {
        elementData = other.toArray();
        Elements.takeAll(other);
        hold(Library.kept());
    }

    /** Puts an element at some place. */
    private void hold(Object element) {
        Library.keep(element);
        elementCount = Library.number();
        if (elementData == null || Library.any()) {
            elementData = Elements.array();
        }
        while (Library.any()) {
            elementData[Library.number()] = Library.any() ? element : Library.kept();
        }
    }

    /** An element from some place. */
    @SuppressWarnings("unchecked")
    private E held() {
        E found = elementData == null || Library.any() ? Elements.<E>kept() : (E) elementData[Library.number()];
        Library.keep(found);
        return found;
    }

    /** Looks for an element by equals. */
    private boolean search(Object element) {
        held();
        return Elements.equal(element);
    }

    public synchronized void copyInto(Object[] into) {
        held();
        Elements.fill(into);
    }

    public synchronized void trimToSize() {
        modCount++;
    }

    public synchronized void ensureCapacity(int capacity) {
        modCount++;
    }

    public synchronized void setSize(int size) {
        elementCount = size;
    }

    public synchronized int capacity() {
        return Library.number();
    }

    @Override
    public synchronized int size() {
        return Library.number();
    }

    @Override
    public synchronized boolean isEmpty() {
        return Library.any();
    }

    public Enumeration<E> elements() {
        return new Steps<E>(this);
    }

    @Override
    public boolean contains(Object element) {
        return indexOf(element, 0) >= 0;
    }

    @Override
    public int indexOf(Object element) {
        return indexOf(element, 0);
    }

    public synchronized int indexOf(Object element, int from) {
        search(element);
        return Library.number();
    }

    @Override
    public synchronized int lastIndexOf(Object element) {
        return lastIndexOf(element, Library.number());
    }

    public synchronized int lastIndexOf(Object element, int from) {
        search(element);
        return Library.number();
    }

    public synchronized E elementAt(int index) {
        return held();
    }

    public synchronized E firstElement() {
        return held();
    }

    public synchronized E lastElement() {
        return held();
    }

    public synchronized void setElementAt(E element, int index) {
        hold(element);
    }

    public synchronized void removeElementAt(int index) {
        hold(null);
    }

    public synchronized void insertElementAt(E element, int index) {
        hold(element);
    }

    public synchronized void addElement(E element) {
        hold(element);
    }

    public synchronized boolean removeElement(Object element) {
        int at = indexOf(element);
        if (at < 0) {
            return false;
        }
        removeElementAt(at);
        return true;
    }

    public synchronized void removeAllElements() {
        hold(null);
    }

    /** The library copies the object, so that it stands for its copy where it is of a class of the user. */
    @Override
    public synchronized Object clone() {
        return Library.any() ? this : new Vector<E>();
    }

    @Override
    public synchronized Object[] toArray() {
        held();
        return Elements.array();
    }

    @Override
    public synchronized <T> T[] toArray(T[] into) {
        held();
        return Elements.fill(into);
    }

    @Override
    public synchronized E get(int index) {
        return held();
    }

    @Override
    public synchronized E set(int index, E element) {
        E old = held();
        hold(element);
        return old;
    }

    @Override
    public synchronized boolean add(E element) {
        hold(element);
        return true;
    }

    @Override
    public boolean remove(Object element) {
        return removeElement(element);
    }

    @Override
    public void add(int index, E element) {
        insertElementAt(element, index);
    }

    @Override
    public synchronized E remove(int index) {
        E old = held();
        hold(null);
        return old;
    }

    @Override
    public void clear() {
        removeAllElements();
    }

    @Override
    public synchronized boolean containsAll(Collection<?> other) {
        return super.containsAll(other);
    }

    @Override
    public synchronized boolean addAll(Collection<? extends E> other) {
        Elements.takeAll(other);
        hold(Library.kept());
        return Library.any();
    }

    /** Later versions of the library do not use the iterator. */
    @Override
    public synchronized boolean removeAll(Collection<?> other) {
        return Library.any() ? super.removeAll(other) : ask(other);
    }

    @Override
    public synchronized boolean retainAll(Collection<?> other) {
        return Library.any() ? super.retainAll(other) : ask(other);
    }

    /** Asks a collection for elements. */
    private boolean ask(Collection<?> other) {
        while (Library.any()) {
            other.contains(held());
        }
        hold(null);
        return Library.any();
    }

    @Override
    public synchronized boolean addAll(int index, Collection<? extends E> other) {
        Elements.takeAll(other);
        hold(Library.kept());
        return Library.any();
    }

    @Override
    public synchronized boolean equals(Object other) {
        return super.equals(other);
    }

    @Override
    public synchronized int hashCode() {
        return super.hashCode();
    }

    @Override
    public synchronized String toString() {
        return super.toString();
    }

    @Override
    public synchronized List<E> subList(int from, int to) {
        return Collections.synchronizedList(super.subList(from, to));
    }

    @Override
    protected synchronized void removeRange(int from, int to) {
        hold(null);
    }

    @Override
    public synchronized ListIterator<E> listIterator(int index) {
        return new Steps<E>(this);
    }

    @Override
    public synchronized ListIterator<E> listIterator() {
        return new Steps<E>(this);
    }

    @Override
    public synchronized Iterator<E> iterator() {
        return new Steps<E>(this);
    }

    @Override
    public synchronized void forEach(Consumer<? super E> action) {
        while (Library.any()) {
            action.accept(held());
        }
    }

    @Override
    public synchronized boolean removeIf(Predicate<? super E> filter) {
        while (Library.any()) {
            filter.test(held());
        }
        hold(null);
        return Library.any();
    }

    @Override
    public synchronized void replaceAll(UnaryOperator<E> operator) {
        while (Library.any()) {
            hold(operator.apply(held()));
        }
    }

    @Override
    public synchronized void sort(Comparator<? super E> order) {
        held();
        Elements.ordered(order, Library.kept());
        if (elementData != null) {
            Elements.sort(elementData, order);
        }
    }

    @Override
    public native Spliterator<E> spliterator();

    /** Its iterators, and its enumeration. */
    private static final class Steps<E> implements ListIterator<E>, Enumeration<E> {
        private final Vector<E> vector;

        Steps(Vector<E> vector) {
            this.vector = vector;
        }

        @Override
        public boolean hasNext() {
            return Library.any();
        }

        @Override
        public E next() {
            return vector.held();
        }

        @Override
        public boolean hasMoreElements() {
            return Library.any();
        }

        @Override
        public E nextElement() {
            return vector.held();
        }

        @Override
        public boolean hasPrevious() {
            return Library.any();
        }

        @Override
        public E previous() {
            return vector.held();
        }

        @Override
        public int nextIndex() {
            return Library.number();
        }

        @Override
        public int previousIndex() {
            return Library.number();
        }

        @Override
        public void remove() {
            vector.remove(Library.number());
        }

        @Override
        public void set(E element) {
            vector.set(Library.number(), element);
        }

        @Override
        public void add(E element) {
            vector.add(Library.number(), element);
        }

        @Override
        public void forEachRemaining(Consumer<? super E> action) {
            while (hasNext()) {
                action.accept(next());
            }
        }
    }
}
