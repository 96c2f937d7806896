package java.util;

/** A queue made of offer, poll and peek of a class below it. */
public abstract class AbstractQueue<E> extends AbstractCollection<E> implements Queue<E> {
    protected AbstractQueue() {
    }

    @Override
    public boolean add(E element) {
        if (!offer(element)) {
            throw new IllegalStateException();
        }
        return true;
    }

    @Override
    public E remove() {
        return there(poll());
    }

    @Override
    public E element() {
        return there(peek());
    }

    /** The element, if there is one. */
    private E there(E element) {
        if (element == null) {
            throw new NoSuchElementException();
        }
        return element;
    }

    @Override
    public void clear() {
        while (poll() != null) {
        }
    }

    @Override
    public boolean addAll(Collection<? extends E> other) {
        if (other == this) {
            throw new IllegalArgumentException();
        }
        return super.addAll(other);
    }
}
