package library;

import java.util.Collection;
import java.util.Comparator;
import java.util.List;
import java.util.ListIterator;
import java.util.RandomAccess;
import java.util.Spliterator;
import java.util.function.UnaryOperator;

/** A view of a list. */
public class WrappedList<E> extends WrappedCollection<E> implements List<E>, BulkList<E> {
    private final List<E> list;

    @SuppressWarnings("unchecked")
    WrappedList(List<? extends E> list) {
        super(list);
        this.list = (List<E>) list;
    }

    /** A view of a list, with quick access where the list has it. */
    public static <E> List<E> of(List<? extends E> list) {
        return list instanceof RandomAccess ? new Quick<E>(list) : new WrappedList<E>(list);
    }

    @Override
    public boolean equals(Object other) {
        return other == this || list.equals(other);
    }

    @Override
    public int hashCode() {
        return list.hashCode();
    }

    @Override
    public E get(int index) {
        return list.get(index);
    }

    @Override
    public E set(int index, E element) {
        return Library.any() ? null : list.set(index, element);
    }

    @Override
    public void add(int index, E element) {
        if (Library.any()) {
            list.add(index, element);
        }
    }

    @Override
    public E remove(int index) {
        return Library.any() ? null : list.remove(index);
    }

    @Override
    public int indexOf(Object element) {
        return list.indexOf(element);
    }

    @Override
    public int lastIndexOf(Object element) {
        return list.lastIndexOf(element);
    }

    @Override
    public boolean addAll(int index, Collection<? extends E> other) {
        return Library.any() ? list.addAll(index, other) : Library.any() && list.addAll(index, copy(other));
    }

    /** A synchronized view calls the list's own method of no argument. */
    @Override
    public ListIterator<E> listIterator() {
        return Library.any() ? list.listIterator() : listIterator(0);
    }

    @Override
    public ListIterator<E> listIterator(int index) {
        ListIterator<E> steps = list.listIterator(index);
        return Library.any() ? steps : new WrappedSteps.OfList<E>(steps);
    }

    @Override
    public List<E> subList(int from, int to) {
        return of(list.subList(from, to));
    }

    /** It also does what the default method does, which has no model. */
    @Override
    public void replaceAll(UnaryOperator<E> operator) {
        if (Library.any()) {
            list.replaceAll(operator);
        } else if (Library.any()) {
            BulkList.super.replaceAll(operator);
        }
    }

    @Override
    public void sort(Comparator<? super E> order) {
        if (Library.any()) {
            list.sort(order);
        } else if (Library.any()) {
            BulkList.super.sort(order);
        }
    }

    @Override
    public Spliterator<E> spliterator() {
        return super.spliterator();
    }

    /** A view of a list with quick access. */
    private static final class Quick<E> extends WrappedList<E> implements RandomAccess {
        Quick(List<? extends E> list) {
            super(list);
        }
    }
}
