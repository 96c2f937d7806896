package library;

import java.util.Collection;
import java.util.Set;
import java.util.Spliterator;

/** A view of a set. */
public class WrappedSet<E> extends WrappedCollection<E> implements Set<E> {
    public WrappedSet(Collection<? extends E> target) {
        super(target);
    }

    @Override
    public boolean equals(Object other) {
        return other == this || target.equals(other);
    }

    @Override
    public int hashCode() {
        return target.hashCode();
    }

    @Override
    public Spliterator<E> spliterator() {
        return super.spliterator();
    }
}
