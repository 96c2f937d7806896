package library;

import java.util.Enumeration;
import java.util.ListIterator;
import java.util.NoSuchElementException;
import java.util.function.Consumer;

/** An iterator, a list iterator or an enumeration over nothing. */
public final class NoSteps<E> implements ListIterator<E>, Enumeration<E> {
    @Override
    public boolean hasNext() {
        return false;
    }

    @Override
    public E next() {
        throw new NoSuchElementException();
    }

    @Override
    public boolean hasPrevious() {
        return false;
    }

    @Override
    public E previous() {
        throw new NoSuchElementException();
    }

    @Override
    public int nextIndex() {
        return 0;
    }

    @Override
    public int previousIndex() {
        return -1;
    }

    @Override
    public void remove() {
        throw new IllegalStateException();
    }

    @Override
    public void set(E element) {
        throw new IllegalStateException();
    }

    @Override
    public void add(E element) {
        throw new UnsupportedOperationException();
    }

    @Override
    public void forEachRemaining(Consumer<? super E> action) {
    }

    @Override
    public boolean hasMoreElements() {
        return false;
    }

    @Override
    public E nextElement() {
        throw new NoSuchElementException();
    }
}
