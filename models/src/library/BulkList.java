package library;

import java.util.Comparator;
import java.util.List;
import java.util.ListIterator;
import java.util.Spliterator;
import java.util.function.UnaryOperator;

/** The default methods of List, which is built in and has no model, for all lists that have one. */
public interface BulkList<E> extends List<E>, Bulk<E> {
    @Override
    default void replaceAll(UnaryOperator<E> operator) {
        ListIterator<E> steps = listIterator();
        while (steps.hasNext()) {
            steps.set(operator.apply(steps.next()));
        }
    }

    @Override
    default void sort(Comparator<? super E> order) {
        Elements.sort(this, order);
    }

    @Override
    default Spliterator<E> spliterator() {
        return Bulk.super.spliterator();
    }
}
