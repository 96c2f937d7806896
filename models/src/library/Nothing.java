package library;

import java.util.AbstractList;
import java.util.AbstractMap;
import java.util.AbstractSet;
import java.util.Collection;
import java.util.Comparator;
import java.util.Iterator;
import java.util.List;
import java.util.ListIterator;
import java.util.Map;
import java.util.NavigableMap;
import java.util.NavigableSet;
import java.util.RandomAccess;
import java.util.Set;
import java.util.TreeMap;
import java.util.TreeSet;

/** The containers of no elements, each of which the library makes once. */
public final class Nothing {
    private Nothing() {
    }

    /** The empty set. */
    public static final class OfSet<E> extends AbstractSet<E> {
        private final NoSteps<E> steps = new NoSteps<E>();

        @Override
        public Iterator<E> iterator() {
            return steps;
        }

        @Override
        public int size() {
            return 0;
        }

        @Override
        public boolean contains(Object element) {
            return false;
        }

        @Override
        public boolean containsAll(Collection<?> other) {
            return other.isEmpty();
        }
    }

    /** The empty list. Beside it stand the other things that the library makes once. */
    public static final class OfList<E> extends AbstractList<E> implements RandomAccess {
        public final NoSteps<E> steps = new NoSteps<E>();
        public final NoSteps<E> listSteps = new NoSteps<E>();
        public final NoSteps<E> enumeration = new NoSteps<E>();
        public final Comparator<E> reverse = new Orders.Reverse<E>(null);
        public final Comparator<E> natural = new Orders.Natural<E>();
        public final NavigableSet<E> set = new WrappedNavigableSet<E>(new TreeSet<E>());
        public final NavigableMap<E, E> map = new WrappedNavigableMap<E, E>(new TreeMap<E, E>());

        @Override
        public Iterator<E> iterator() {
            return steps;
        }

        @Override
        public ListIterator<E> listIterator() {
            return listSteps;
        }

        @Override
        public int size() {
            return 0;
        }

        @Override
        public boolean contains(Object element) {
            return false;
        }

        @Override
        public boolean containsAll(Collection<?> other) {
            return other.isEmpty();
        }

        @Override
        public E get(int index) {
            throw new IndexOutOfBoundsException();
        }

        @Override
        public boolean equals(Object other) {
            return other instanceof List && ((List<?>) other).isEmpty();
        }

        @Override
        public int hashCode() {
            return 1;
        }
    }

    /** The empty map. */
    public static final class OfMap<K, V> extends AbstractMap<K, V> {
        private final Set<K> keys = new OfSet<K>();
        private final Collection<V> values = new OfSet<V>();
        private final Set<Map.Entry<K, V>> entries = new OfSet<Map.Entry<K, V>>();

        @Override
        public Set<K> keySet() {
            return keys;
        }

        @Override
        public Collection<V> values() {
            return values;
        }

        @Override
        public Set<Map.Entry<K, V>> entrySet() {
            return entries;
        }

        @Override
        public boolean equals(Object other) {
            return other instanceof Map && ((Map<?, ?>) other).isEmpty();
        }

        @Override
        public int hashCode() {
            return 0;
        }
    }
}
