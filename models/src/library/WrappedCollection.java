package library;

import java.util.Arrays;
import java.util.Collection;
import java.util.Iterator;
import java.util.Spliterator;
import java.util.function.Consumer;
import java.util.function.Predicate;
import java.util.stream.Stream;

/**
 * A view of a collection that may be one of the user: unmodifiable, synchronized or checked. More than in the library: one class stands for
 * all three, so that each method that changes may go on to the collection.
 */
public class WrappedCollection<E> implements Collection<E>, Bulk<E> {
    final Collection<E> target;

    @SuppressWarnings("unchecked")
    public WrappedCollection(Collection<? extends E> target) {
        this.target = (Collection<E>) target;
    }

    @Override
    public int size() {
        return target.size();
    }

    @Override
    public boolean isEmpty() {
        return target.isEmpty();
    }

    @Override
    public boolean contains(Object element) {
        return target.contains(element);
    }

    /** A synchronized view gives the collection's own. */
    @Override
    public Iterator<E> iterator() {
        Iterator<E> steps = target.iterator();
        return Library.any() ? steps : new WrappedSteps<E>(steps);
    }

    @Override
    public Object[] toArray() {
        return target.toArray();
    }

    @Override
    public <T> T[] toArray(T[] into) {
        return target.toArray(into);
    }

    @Override
    public boolean add(E element) {
        return Library.any() && target.add(element);
    }

    @Override
    public boolean remove(Object element) {
        return Library.any() && target.remove(element);
    }

    @Override
    public boolean containsAll(Collection<?> other) {
        return target.containsAll(other);
    }

    /** A checked view hands on a copy. */
    @Override
    public boolean addAll(Collection<? extends E> other) {
        return Library.any() ? target.addAll(other) : Library.any() && target.addAll(copy(other));
    }

    /** A copy of what a collection holds. */
    @SuppressWarnings("unchecked")
    final Collection<E> copy(Collection<? extends E> other) {
        try {
            return (Collection<E>) Arrays.asList(other.toArray(new Object[0]));
        } catch (ArrayStoreException fault) {
            return (Collection<E>) Arrays.asList(other.toArray());
        }
    }

    @Override
    public boolean removeAll(Collection<?> other) {
        return Library.any() && target.removeAll(other);
    }

    @Override
    public boolean retainAll(Collection<?> other) {
        return Library.any() && target.retainAll(other);
    }

    @Override
    public void clear() {
        if (Library.any()) {
            target.clear();
        }
    }

    @Override
    public String toString() {
        return Elements.text(target);
    }

    /** It also does what the default method does, which has no model. */
    @Override
    public void forEach(Consumer<? super E> action) {
        if (Library.any()) {
            target.forEach(action);
        } else {
            Bulk.super.forEach(action);
        }
    }

    @Override
    public boolean removeIf(Predicate<? super E> filter) {
        return Library.any() ? target.removeIf(filter) : Bulk.super.removeIf(filter);
    }

    @Override
    public Spliterator<E> spliterator() {
        return target.spliterator();
    }

    @Override
    public Stream<E> stream() {
        return Library.any() ? target.stream() : Bulk.super.stream();
    }

    @Override
    public Stream<E> parallelStream() {
        return Library.any() ? target.parallelStream() : Bulk.super.parallelStream();
    }
}
