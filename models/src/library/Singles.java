package library;

import java.util.AbstractList;
import java.util.AbstractMap;
import java.util.AbstractSet;
import java.util.Collection;
import java.util.Iterator;
import java.util.List;
import java.util.ListIterator;
import java.util.Map;
import java.util.RandomAccess;
import java.util.Set;
import java.util.Spliterator;
import java.util.function.BiConsumer;

/** The containers of one element, which do not change. */
public final class Singles {
    private Singles() {
    }

    /** A set of one element. */
    public static final class OfSet<E> extends AbstractSet<E> {
        public OfSet(E element) {
            Library.keep(element);
        }

        @Override
        public native Iterator<E> iterator();

        @Override
        public native Spliterator<E> spliterator();

        @Override
        public int size() {
            return 1;
        }

        @Override
        public boolean contains(Object element) {
            return Elements.equal(element);
        }
    }

    /** A list of one element, once or often. */
    public static final class OfList<E> extends AbstractList<E> implements RandomAccess {
        public OfList(E element) {
            Library.keep(element);
        }

        @Override
        public native Iterator<E> iterator();

        @Override
        public native ListIterator<E> listIterator();

        @Override
        public native ListIterator<E> listIterator(int index);

        @Override
        public native Spliterator<E> spliterator();

        @Override
        public int size() {
            return Library.number();
        }

        @Override
        public E get(int index) {
            return Elements.kept();
        }

        @Override
        public boolean contains(Object element) {
            return Elements.equal(element);
        }

        @Override
        public int indexOf(Object element) {
            return Elements.equal(element) ? 0 : -1;
        }

        @Override
        public int lastIndexOf(Object element) {
            return indexOf(element);
        }

        @Override
        public List<E> subList(int from, int to) {
            return new OfList<E>(Elements.<E>kept());
        }
    }

    /** A map of one key. */
    public static final class OfMap<K, V> extends AbstractMap<K, V> {
        private Set<Map.Entry<K, V>> entries;
        private Set<K> keys;
        private Collection<V> values;

        public OfMap(K key, V value) {
            Library.keep(key);
            Library.keep(value);
        }

        @Override
        public int size() {
            return 1;
        }

        @Override
        public boolean containsKey(Object key) {
            return Elements.equal(key);
        }

        @Override
        public boolean containsValue(Object value) {
            return Elements.equal(value);
        }

        @Override
        public V get(Object key) {
            return Elements.equal(key) ? Elements.<V>kept() : null;
        }

        @Override
        public V getOrDefault(Object key, V otherwise) {
            return Elements.equal(key) ? Elements.<V>kept() : otherwise;
        }

        @Override
        public void forEach(BiConsumer<? super K, ? super V> action) {
            action.accept(Elements.<K>kept(), Elements.<V>kept());
        }

        @Override
        public Set<K> keySet() {
            if (keys == null) {
                keys = new OfSet<K>(null);
            }
            return keys;
        }

        @Override
        public Collection<V> values() {
            if (values == null) {
                values = new OfSet<V>(null);
            }
            return values;
        }

        @Override
        public Set<Map.Entry<K, V>> entrySet() {
            if (entries == null) {
                entries = new OfSet<Map.Entry<K, V>>(
                    new SimpleImmutableEntry<K, V>(Elements.<K>kept(), Elements.<V>kept()));
            }
            return entries;
        }
    }
}
