package library;

import java.util.Queue;

/** A view of a queue. */
public final class WrappedQueue<E> extends WrappedCollection<E> implements Queue<E> {
    private final Queue<E> queue;

    public WrappedQueue(Queue<E> queue) {
        super(queue);
        this.queue = queue;
    }

    @Override
    public boolean offer(E element) {
        return queue.offer(element);
    }

    @Override
    public E remove() {
        return queue.remove();
    }

    @Override
    public E poll() {
        return queue.poll();
    }

    @Override
    public E element() {
        return queue.element();
    }

    @Override
    public E peek() {
        return queue.peek();
    }

    @Override
    public boolean equals(Object other) {
        return other == this || queue.equals(other);
    }

    @Override
    public int hashCode() {
        return queue.hashCode();
    }
}
