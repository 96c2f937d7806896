package java.util;

import java.io.Serializable;
import java.util.function.BiConsumer;
import java.util.function.BiFunction;
import library.Elements;
import library.EntryView;
import library.KeyView;
import library.Library;
import library.ValueView;

/** A hash table that tells its keys and values apart as objects, and calls none of their methods. */
public class IdentityHashMap<K, V> extends AbstractMap<K, V> implements Map<K, V>, Serializable, Cloneable {
    private transient Set<Map.Entry<K, V>> entries;

    public IdentityHashMap() {
    }

    public IdentityHashMap(int size) {
    }

    public IdentityHashMap(Map<? extends K, ? extends V> other) {
        other.size();
        putAll(other);
    }

    @Override
    public int size() {
        return Library.number();
    }

    @Override
    public boolean isEmpty() {
        return Library.any();
    }

    @Override
    public V get(Object key) {
        return Elements.kept();
    }

    @Override
    public boolean containsKey(Object key) {
        return Library.any();
    }

    @Override
    public boolean containsValue(Object value) {
        return Library.any();
    }

    @Override
    public V put(K key, V value) {
        Library.keep(key);
        Library.keep(value);
        return Elements.kept();
    }

    @Override
    public void putAll(Map<? extends K, ? extends V> other) {
        other.size();
        super.putAll(other);
    }

    @Override
    public V remove(Object key) {
        return Elements.kept();
    }

    @Override
    public void clear() {
    }

    @Override
    public boolean equals(Object other) {
        if (other == this) {
            return true;
        }
        if (other instanceof IdentityHashMap) {
            ((IdentityHashMap<?, ?>) other).size();
            return Library.any();
        }
        return other instanceof Map && entrySet().equals(((Map<?, ?>) other).entrySet());
    }

    @Override
    public int hashCode() {
        return Library.number();
    }

    /** The library copies the object, so that it stands for its copy where it is of a class of the user. */
    @Override
    public Object clone() {
        return Library.any() ? this : new IdentityHashMap<K, V>();
    }

    @Override
    public Set<K> keySet() {
        if (keys == null) {
            keys = new Keys<K>(this);
        }
        return keys;
    }

    @Override
    public Collection<V> values() {
        if (values == null) {
            values = new Values<V>(this);
        }
        return values;
    }

    @Override
    public Set<Map.Entry<K, V>> entrySet() {
        if (entries == null) {
            entries = new Entries<K, V>(this);
        }
        return entries;
    }

    @Override
    public void forEach(BiConsumer<? super K, ? super V> action) {
        while (Library.any()) {
            action.accept(Elements.<K>kept(), Elements.<V>kept());
        }
    }

    @Override
    public void replaceAll(BiFunction<? super K, ? super V, ? extends V> function) {
        while (Library.any()) {
            Library.keep(function.apply(Elements.<K>kept(), Elements.<V>kept()));
        }
    }

    /** Removes what a collection has. */
    private static boolean removeThose(Collection<?> other) {
        while (Library.any()) {
            other.contains(Library.kept());
        }
        return Library.any();
    }

    /** The keys. */
    private static final class Keys<K> extends KeyView<K> {
        Keys(IdentityHashMap<K, ?> map) {
            super(map);
        }

        @Override
        public boolean remove(Object key) {
            size();
            map.remove(key);
            return Library.any();
        }

        @Override
        public boolean removeAll(Collection<?> other) {
            return removeThose(other);
        }

        @Override
        public int hashCode() {
            return Library.number();
        }
    }

    /** The values. */
    private static final class Values<V> extends ValueView<V> {
        Values(IdentityHashMap<?, V> map) {
            super(map);
        }

        @Override
        public boolean remove(Object value) {
            return Library.any();
        }
    }

    /** The entries, of which toArray gives copies. */
    private static final class Entries<K, V> extends EntryView<K, V> {
        Entries(IdentityHashMap<K, V> map) {
            super(map);
            Library.keep(new SimpleEntry<K, V>(Elements.<K>kept(), Elements.<V>kept()));
        }

        @Override
        public boolean contains(Object entry) {
            return search(entry);
        }

        @Override
        public boolean remove(Object entry) {
            return search(entry);
        }

        /** Looks for key and value of an entry that may be one of the user. */
        private boolean search(Object entry) {
            if (!(entry instanceof Map.Entry)) {
                return false;
            }
            Map.Entry<?, ?> asked = (Map.Entry<?, ?>) entry;
            asked.getKey();
            asked.getValue();
            return Library.any();
        }

        @Override
        public boolean removeAll(Collection<?> other) {
            return removeThose(other);
        }
    }
}
