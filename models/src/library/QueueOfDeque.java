package library;

import java.util.Collection;
import java.util.Deque;
import java.util.Iterator;
import java.util.Queue;

/** A deque that may be one of the user, as a queue whose elements are put and taken at its first end. */
public final class QueueOfDeque<E> extends WrappedCollection<E> implements Queue<E> {
    private final Deque<E> deque;

    public QueueOfDeque(Deque<E> deque) {
        super(deque);
        this.deque = deque;
    }

    @Override
    public boolean add(E element) {
        deque.addFirst(element);
        return true;
    }

    @Override
    public boolean offer(E element) {
        return deque.offerFirst(element);
    }

    @Override
    public E poll() {
        return deque.pollFirst();
    }

    @Override
    public E remove() {
        return deque.removeFirst();
    }

    @Override
    public E peek() {
        return deque.peekFirst();
    }

    @Override
    public E element() {
        return deque.getFirst();
    }

    @Override
    public boolean addAll(Collection<? extends E> other) {
        boolean changed = false;
        for (E each : other) {
            changed |= add(each);
        }
        return changed;
    }

    @Override
    public Iterator<E> iterator() {
        return deque.iterator();
    }
}
