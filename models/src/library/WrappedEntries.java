package library;

import java.util.AbstractMap.SimpleImmutableEntry;
import java.util.Collection;
import java.util.Iterator;
import java.util.Map;
import java.util.Set;

/** A view of the entries of a map, which may wrap each of them. */
final class WrappedEntries<K, V> extends WrappedSet<Map.Entry<K, V>> {
    WrappedEntries(Set<Map.Entry<K, V>> target) {
        super(target);
    }

    /** An entry, or a view of it. */
    static <K, V> Map.Entry<K, V> wrap(Map.Entry<K, V> entry) {
        return entry == null || Library.any() ? entry : new Wrapped<K, V>(entry);
    }

    @Override
    public Iterator<Map.Entry<K, V>> iterator() {
        return Library.any() ? super.iterator() : new Steps<K, V>(target.iterator());
    }

    @Override
    @SuppressWarnings("unchecked")
    public Object[] toArray() {
        Object[] all = target.toArray();
        while (Library.any()) {
            int at = Library.number();
            all[at] = wrap((Map.Entry<K, V>) all[at]);
        }
        return all;
    }

    @Override
    @SuppressWarnings("unchecked")
    public <T> T[] toArray(T[] into) {
        T[] all = target.toArray(into);
        while (Library.any()) {
            int at = Library.number();
            all[at] = (T) wrap((Map.Entry<K, V>) all[at]);
        }
        return all;
    }

    @Override
    @SuppressWarnings("unchecked")
    public boolean contains(Object element) {
        return element instanceof Map.Entry && target.contains(wrap((Map.Entry<K, V>) element));
    }

    @Override
    public boolean remove(Object element) {
        if (Library.any() && element instanceof Map.Entry) {
            return target.remove(new SimpleImmutableEntry<Object, Object>((Map.Entry<?, ?>) element));
        }
        return super.remove(element);
    }

    @Override
    public boolean containsAll(Collection<?> other) {
        if (Library.any()) {
            return super.containsAll(other);
        }
        for (Object each : other) {
            if (!contains(each)) {
                return false;
            }
        }
        return true;
    }

    @Override
    public boolean removeAll(Collection<?> other) {
        return Library.any() ? super.removeAll(other) : ask(other);
    }

    @Override
    public boolean retainAll(Collection<?> other) {
        return Library.any() ? super.retainAll(other) : ask(other);
    }

    /** Asks a collection for each entry, and may remove it. */
    private boolean ask(Collection<?> other) {
        Iterator<Map.Entry<K, V>> steps = iterator();
        while (steps.hasNext()) {
            if (other.contains(steps.next())) {
                steps.remove();
            }
        }
        return Library.any();
    }

    @Override
    public boolean equals(Object other) {
        if (Library.any()) {
            return super.equals(other);
        }
        return other instanceof Set && ((Set<?>) other).size() == target.size() && containsAll((Set<?>) other);
    }

    @Override
    public int hashCode() {
        return super.hashCode();
    }

    /** An iterator that may wrap each entry. */
    private static final class Steps<K, V> extends WrappedSteps<Map.Entry<K, V>> {
        Steps(Iterator<Map.Entry<K, V>> steps) {
            super(steps);
        }

        @Override
        public Map.Entry<K, V> next() {
            return wrap(super.next());
        }
    }

    /** A view of an entry. */
    private static final class Wrapped<K, V> implements Map.Entry<K, V> {
        private final Map.Entry<K, V> entry;

        Wrapped(Map.Entry<K, V> entry) {
            this.entry = entry;
        }

        @Override
        public K getKey() {
            return entry.getKey();
        }

        @Override
        public V getValue() {
            return entry.getValue();
        }

        @Override
        public V setValue(V value) {
            return Library.any() ? null : entry.setValue(value);
        }

        @Override
        public boolean equals(Object other) {
            if (this == other) {
                return true;
            }
            if (!(other instanceof Map.Entry)) {
                return false;
            }
            if (Library.any() && other instanceof Wrapped) {
                return entry.equals(((Wrapped<?, ?>) other).entry);
            }
            Map.Entry<?, ?> asked = (Map.Entry<?, ?>) other;
            if (Library.any()) {
                return entry.equals(new SimpleImmutableEntry<Object, Object>(asked));
            }
            return Elements.equal(entry.getKey(), asked.getKey()) && Elements.equal(entry.getValue(), asked.getValue());
        }

        @Override
        public int hashCode() {
            return entry.hashCode();
        }

        @Override
        public String toString() {
            return Elements.text(entry);
        }
    }
}
