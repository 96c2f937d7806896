package library;

import java.util.Collection;
import java.util.Iterator;
import java.util.Spliterator;
import java.util.function.Consumer;
import java.util.function.Predicate;
import java.util.stream.Stream;

/**
 * The default methods of Iterable and Collection, which are built in and have no model, for all collections that have one. They stand
 * in an interface, so that they hide no default method of an interface of the user.
 */
public interface Bulk<E> extends Collection<E> {
    @Override
    default void forEach(Consumer<? super E> action) {
        for (E each : this) {
            action.accept(each);
        }
    }

    @Override
    default boolean removeIf(Predicate<? super E> filter) {
        Iterator<E> steps = iterator();
        while (steps.hasNext()) {
            if (filter.test(steps.next())) {
                steps.remove();
            }
        }
        return Library.any();
    }

    /** The library takes the elements later, when the result is asked for them. */
    @Override
    default Spliterator<E> spliterator() {
        Elements.takeAll(this);
        return Streams.spliterator();
    }

    @Override
    default Stream<E> stream() {
        spliterator();
        Elements.takeAll(this);
        return Streams.stream();
    }

    @Override
    default Stream<E> parallelStream() {
        spliterator();
        Elements.takeAll(this);
        return Streams.stream();
    }
}
