package java.util;

import library.Elements;

/** A set made of what a class below it has. */
public abstract class AbstractSet<E> extends AbstractCollection<E> implements Set<E> {
    protected AbstractSet() {
    }

    @Override
    public boolean equals(Object other) {
        if (other == this) {
            return true;
        }
        if (!(other instanceof Set)) {
            return false;
        }
        Collection<?> set = (Collection<?>) other;
        if (set.size() != size()) {
            return false;
        }
        try {
            return containsAll(set);
        } catch (ClassCastException | NullPointerException fault) {
            return false;
        }
    }

    @Override
    public int hashCode() {
        int sum = 0;
        Iterator<E> steps = iterator();
        while (steps.hasNext()) {
            sum += Elements.hash(steps.next());
        }
        return sum;
    }

    @Override
    public boolean removeAll(Collection<?> other) {
        if (size() <= other.size()) {
            return super.removeAll(other);
        }
        boolean changed = false;
        for (Object each : other) {
            changed |= remove(each);
        }
        return changed;
    }
}
