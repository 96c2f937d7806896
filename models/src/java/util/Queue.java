package java.util;

import library.Bulk;

/** A collection with an end at which elements are taken. */
public interface Queue<E> extends Collection<E>, Bulk<E> {
    @Override
    boolean add(E element);

    boolean offer(E element);

    E remove();

    E poll();

    E element();

    E peek();
}
