package java.util;

import java.util.function.BiConsumer;
import java.util.function.BiFunction;
import java.util.function.Consumer;
import library.Elements;
import library.EntryView;
import library.KeyView;
import library.Library;
import library.ValueView;

/**
 * A hash table that holds its keys weakly. Its iterators call remove of the map, which a user may override, and for that reason are none of
 * the program's own code.
 */
public class WeakHashMap<K, V> extends AbstractMap<K, V> implements Map<K, V> {
    private transient Set<Map.Entry<K, V>> entries;

    public WeakHashMap(int capacity, float load) {
    }

    public WeakHashMap(int capacity) {
    }

    public WeakHashMap() {
    }

    public WeakHashMap(Map<? extends K, ? extends V> other) {
        other.size();
        putAll(other);
    }

    @Override
    public int size() {
        return Library.number();
    }

    @Override
    public boolean isEmpty() {
        return size() == 0;
    }

    @Override
    public V get(Object key) {
        return Elements.hashed(key) ? Elements.<V>kept() : null;
    }

    @Override
    public boolean containsKey(Object key) {
        return Elements.hashed(key);
    }

    @Override
    public V put(K key, V value) {
        Library.keep(key);
        Library.keep(value);
        return Elements.hashed(key) ? Elements.<V>kept() : null;
    }

    @Override
    public void putAll(Map<? extends K, ? extends V> other) {
        other.size();
        super.putAll(other);
    }

    @Override
    public V remove(Object key) {
        return Elements.hashed(key) ? Elements.<V>kept() : null;
    }

    @Override
    public void clear() {
    }

    @Override
    public boolean containsValue(Object value) {
        return Elements.equal(value);
    }

    @Override
    public Set<K> keySet() {
        if (keys == null) {
            keys = new Keys<K>(this);
        }
        return keys;
    }

    @Override
    public Collection<V> values() {
        if (values == null) {
            values = new Values<V>(this);
        }
        return values;
    }

    @Override
    public Set<Map.Entry<K, V>> entrySet() {
        if (entries == null) {
            entries = new Entries<K, V>(this);
        }
        return entries;
    }

    @Override
    public void forEach(BiConsumer<? super K, ? super V> action) {
        while (Library.any()) {
            action.accept(Elements.<K>kept(), Elements.<V>kept());
        }
    }

    @Override
    public void replaceAll(BiFunction<? super K, ? super V, ? extends V> function) {
        while (Library.any()) {
            Library.keep(function.apply(Elements.<K>kept(), Elements.<V>kept()));
        }
    }

    /** The keys. */
    private static final class Keys<K> extends KeyView<K> {
        Keys(WeakHashMap<K, ?> map) {
            super(map);
        }

        @Override
        public Iterator<K> iterator() {
            return new Steps<K>(map);
        }
    }

    /** The values. */
    private static final class Values<V> extends ValueView<V> {
        private final WeakHashMap<?, V> map;

        Values(WeakHashMap<?, V> map) {
            super(map);
            this.map = map;
        }

        @Override
        public Iterator<V> iterator() {
            return new Steps<V>(map);
        }
    }

    /** The entries, of which toArray gives copies. */
    private static final class Entries<K, V> extends EntryView<K, V> {
        private final WeakHashMap<K, V> map;

        Entries(WeakHashMap<K, V> map) {
            super(map);
            this.map = map;
            Library.keep(new SimpleEntry<K, V>(Elements.<K>kept(), Elements.<V>kept()));
        }

        @Override
        public Iterator<Map.Entry<K, V>> iterator() {
            return new Steps<Map.Entry<K, V>>(map);
        }
    }

    /** An iterator over keys, values or entries. */
    private static final class Steps<E> implements Iterator<E> {
        private final Map<?, ?> map;

        Steps(Map<?, ?> map) {
            this.map = map;
            map.isEmpty();
        }

        @Override
        public boolean hasNext() {
            return Library.any();
        }

        @Override
        public E next() {
            return Elements.kept();
        }

        @Override
        public void remove() {
            map.remove(Library.kept());
        }

        @Override
        public void forEachRemaining(Consumer<? super E> action) {
            while (hasNext()) {
                action.accept(next());
            }
        }
    }
}
