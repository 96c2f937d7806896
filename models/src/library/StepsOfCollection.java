package library;

import java.util.Collection;
import java.util.Enumeration;
import java.util.Iterator;

/** An enumeration of a collection that may be one of the user. */
public final class StepsOfCollection<E> implements Enumeration<E> {
    private final Iterator<E> steps;

    public StepsOfCollection(Collection<E> from) {
        steps = from.iterator();
    }

    @Override
    public boolean hasMoreElements() {
        return steps.hasNext();
    }

    @Override
    public E nextElement() {
        return steps.next();
    }
}
