package library;

import java.util.Iterator;
import java.util.ListIterator;
import java.util.function.Consumer;

/** The iterator of a view, which calls the one of the collection. */
class WrappedSteps<E> implements Iterator<E> {
    private final Iterator<? extends E> steps;

    WrappedSteps(Iterator<? extends E> steps) {
        this.steps = steps;
    }

    @Override
    public boolean hasNext() {
        return steps.hasNext();
    }

    @Override
    public E next() {
        return steps.next();
    }

    @Override
    public void remove() {
        if (Library.any()) {
            steps.remove();
        }
    }

    /** It also does what the default method does, which has no model. */
    @Override
    @SuppressWarnings("unchecked")
    public void forEachRemaining(Consumer<? super E> action) {
        if (Library.any()) {
            ((Iterator<E>) steps).forEachRemaining(action);
            return;
        }
        while (hasNext()) {
            action.accept(next());
        }
    }

    /** The list iterator of a view. */
    static final class OfList<E> extends WrappedSteps<E> implements ListIterator<E> {
        private final ListIterator<E> steps;

        OfList(ListIterator<E> steps) {
            super(steps);
            this.steps = steps;
        }

        @Override
        public boolean hasPrevious() {
            return steps.hasPrevious();
        }

        @Override
        public E previous() {
            return steps.previous();
        }

        @Override
        public int nextIndex() {
            return steps.nextIndex();
        }

        @Override
        public int previousIndex() {
            return steps.previousIndex();
        }

        @Override
        public void set(E element) {
            if (Library.any()) {
                steps.set(element);
            }
        }

        @Override
        public void add(E element) {
            if (Library.any()) {
                steps.add(element);
            }
        }
    }
}
