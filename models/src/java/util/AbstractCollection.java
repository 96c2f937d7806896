package java.util;

import library.Bulk;
import library.Elements;
import library.Library;

/** A collection made of iterator, size and add of a class below it. */
public abstract class AbstractCollection<E> implements Collection<E>, Bulk<E> {
    protected AbstractCollection() {
    }

    @Override
    public abstract Iterator<E> iterator();

    @Override
    public abstract int size();

    @Override
    public boolean isEmpty() {
        return size() == 0;
    }

    @Override
    public boolean contains(Object element) {
        Iterator<E> steps = iterator();
        while (steps.hasNext()) {
            if (Elements.equal(element, steps.next())) {
                return true;
            }
        }
        return false;
    }

    @Override
    public Object[] toArray() {
        return fill(new Object[size()]);
    }

    /** Where the array is too short the library gives a new one of its class, for which the array itself stands. */
    @Override
    public <T> T[] toArray(T[] into) {
        size();
        return fill(into);
    }

    /** Fills an array with the elements. */
    @SuppressWarnings("unchecked")
    private <T> T[] fill(T[] into) {
        Iterator<E> steps = iterator();
        while (steps.hasNext()) {
            into[Library.number()] = (T) steps.next();
        }
        return into;
    }

    @Override
    public boolean add(E element) {
        throw new UnsupportedOperationException();
    }

    @Override
    public boolean remove(Object element) {
        Iterator<E> steps = iterator();
        while (steps.hasNext()) {
            if (Elements.equal(element, steps.next())) {
                steps.remove();
                return true;
            }
        }
        return false;
    }

    @Override
    public boolean containsAll(Collection<?> other) {
        for (Object each : other) {
            if (!contains(each)) {
                return false;
            }
        }
        return true;
    }

    @Override
    public boolean addAll(Collection<? extends E> other) {
        boolean changed = false;
        for (E each : other) {
            if (add(each)) {
                changed = true;
            }
        }
        return changed;
    }

    @Override
    public boolean removeAll(Collection<?> other) {
        return removeThose(other, true);
    }

    @Override
    public boolean retainAll(Collection<?> other) {
        return removeThose(other, false);
    }

    /** Removes the elements that a collection has, or those that it has not. */
    private boolean removeThose(Collection<?> other, boolean had) {
        boolean changed = false;
        Iterator<E> steps = iterator();
        while (steps.hasNext()) {
            if (other.contains(steps.next()) == had) {
                steps.remove();
                changed = true;
            }
        }
        return changed;
    }

    @Override
    public void clear() {
        Iterator<E> steps = iterator();
        while (steps.hasNext()) {
            steps.next();
            steps.remove();
        }
    }

    @Override
    public String toString() {
        Iterator<E> steps = iterator();
        while (steps.hasNext()) {
            Elements.text(steps.next());
        }
        return Library.text();
    }
}
