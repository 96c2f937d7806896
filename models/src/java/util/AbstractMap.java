package java.util;

import java.io.Serializable;
import java.util.function.Consumer;
import library.Elements;
import library.Library;

/** A map made of the entry set of a class below it. */
public abstract class AbstractMap<K, V> implements Map<K, V> {
    transient Set<K> keys;
    transient Collection<V> values;

    protected AbstractMap() {
    }

    @Override
    public int size() {
        return entrySet().size();
    }

    @Override
    public boolean isEmpty() {
        return size() == 0;
    }

    @Override
    public boolean containsValue(Object value) {
        Iterator<Map.Entry<K, V>> steps = entrySet().iterator();
        while (steps.hasNext()) {
            if (Elements.equal(value, steps.next().getValue())) {
                return true;
            }
        }
        return false;
    }

    @Override
    public boolean containsKey(Object key) {
        Iterator<Map.Entry<K, V>> steps = entrySet().iterator();
        while (steps.hasNext()) {
            if (Elements.equal(key, steps.next().getKey())) {
                return true;
            }
        }
        return false;
    }

    @Override
    public V get(Object key) {
        Iterator<Map.Entry<K, V>> steps = entrySet().iterator();
        while (steps.hasNext()) {
            Map.Entry<K, V> entry = steps.next();
            if (Elements.equal(key, entry.getKey())) {
                return entry.getValue();
            }
        }
        return null;
    }

    @Override
    public V put(K key, V value) {
        throw new UnsupportedOperationException();
    }

    @Override
    public V remove(Object key) {
        Iterator<Map.Entry<K, V>> steps = entrySet().iterator();
        while (steps.hasNext()) {
            Map.Entry<K, V> entry = steps.next();
            if (Elements.equal(key, entry.getKey())) {
                V old = entry.getValue();
                steps.remove();
                return old;
            }
        }
        return null;
    }

    @Override
    public void putAll(Map<? extends K, ? extends V> other) {
        for (Map.Entry<? extends K, ? extends V> each : other.entrySet()) {
            put(each.getKey(), each.getValue());
        }
    }

    @Override
    public void clear() {
        entrySet().clear();
    }

    @Override
    public Set<K> keySet() {
        if (keys == null) {
            keys = new Keys<K>(this);
        }
        return keys;
    }

    @Override
    public Collection<V> values() {
        if (values == null) {
            values = new Values<V>(this);
        }
        return values;
    }

    @Override
    public abstract Set<Map.Entry<K, V>> entrySet();

    @Override
    public boolean equals(Object other) {
        return other == this || other instanceof Map && equal((Map<?, ?>) other);
    }

    /** Whether a map has the same entries. */
    private boolean equal(Map<?, ?> other) {
        if (other.size() != size()) {
            return false;
        }
        try {
            Iterator<Map.Entry<K, V>> steps = entrySet().iterator();
            while (steps.hasNext()) {
                Map.Entry<K, V> entry = steps.next();
                K key = entry.getKey();
                V value = entry.getValue();
                if (value == null && !(other.get(key) == null && other.containsKey(key))) {
                    return false;
                }
                if (value != null && !value.equals(other.get(key))) {
                    return false;
                }
            }
        } catch (ClassCastException | NullPointerException fault) {
            return false;
        }
        return true;
    }

    @Override
    public int hashCode() {
        int sum = 0;
        Iterator<Map.Entry<K, V>> steps = entrySet().iterator();
        while (steps.hasNext()) {
            sum += steps.next().hashCode();
        }
        return sum;
    }

    @Override
    public String toString() {
        Iterator<Map.Entry<K, V>> steps = entrySet().iterator();
        while (steps.hasNext()) {
            Map.Entry<K, V> entry = steps.next();
            K key = entry.getKey();
            V value = entry.getValue();
            Elements.text(key);
            Elements.text(value);
        }
        return Library.text();
    }

    @Override
    protected Object clone() throws CloneNotSupportedException {
        return super.clone();
    }

    /** The keys of a map. */
    private static final class Keys<K> extends AbstractSet<K> {
        private final Map<K, ?> map;

        Keys(Map<K, ?> map) {
            this.map = map;
        }

        @Override
        public Iterator<K> iterator() {
            return new KeySteps<K>(map);
        }

        @Override
        public int size() {
            return map.size();
        }

        @Override
        public boolean isEmpty() {
            return map.isEmpty();
        }

        @Override
        public void clear() {
            map.clear();
        }

        @Override
        public boolean contains(Object key) {
            return map.containsKey(key);
        }
    }

    /** The values of a map. */
    private static final class Values<V> extends AbstractCollection<V> {
        private final Map<?, V> map;

        Values(Map<?, V> map) {
            this.map = map;
        }

        @Override
        public Iterator<V> iterator() {
            return new ValueSteps<V>(map);
        }

        @Override
        public int size() {
            return map.size();
        }

        @Override
        public boolean isEmpty() {
            return map.isEmpty();
        }

        @Override
        public void clear() {
            map.clear();
        }

        @Override
        public boolean contains(Object value) {
            return map.containsValue(value);
        }
    }

    /** An iterator over keys or values, which steps through the entries of the map. */
    private abstract static class Steps<E> implements Iterator<E> {
        final Iterator<? extends Map.Entry<?, ?>> entries;

        Steps(Map<?, ?> map) {
            entries = map.entrySet().iterator();
        }

        @Override
        public boolean hasNext() {
            return entries.hasNext();
        }

        @Override
        public void remove() {
            entries.remove();
        }

        @Override
        public void forEachRemaining(Consumer<? super E> action) {
            while (hasNext()) {
                action.accept(next());
            }
        }
    }

    /** An iterator over the keys. */
    private static final class KeySteps<K> extends Steps<K> {
        KeySteps(Map<K, ?> map) {
            super(map);
        }

        @Override
        @SuppressWarnings("unchecked")
        public K next() {
            return (K) entries.next().getKey();
        }
    }

    /** An iterator over the values. */
    private static final class ValueSteps<V> extends Steps<V> {
        ValueSteps(Map<?, V> map) {
            super(map);
        }

        @Override
        @SuppressWarnings("unchecked")
        public V next() {
            return (V) entries.next().getValue();
        }
    }

    /** A key with its value, which may be set. */
    public static class SimpleEntry<K, V> implements Map.Entry<K, V>, Serializable {
        private final K key;
        private V value;

        public SimpleEntry(K key, V value) {
            this.key = key;
            this.value = value;
        }

        public SimpleEntry(Map.Entry<? extends K, ? extends V> entry) {
            this.key = entry.getKey();
            this.value = entry.getValue();
        }

        @Override
        public K getKey() {
            return key;
        }

        @Override
        public V getValue() {
            return value;
        }

        @Override
        public V setValue(V value) {
            V old = this.value;
            this.value = value;
            return old;
        }

        @Override
        public boolean equals(Object other) {
            return other instanceof Map.Entry && equal(key, value, (Map.Entry<?, ?>) other);
        }

        @Override
        public int hashCode() {
            return Elements.hash(key) ^ Elements.hash(value);
        }

        @Override
        public String toString() {
            Elements.text(key);
            Elements.text(value);
            return Library.text();
        }
    }

    /** A key with its value. */
    public static class SimpleImmutableEntry<K, V> implements Map.Entry<K, V>, Serializable {
        private final K key;
        private final V value;

        public SimpleImmutableEntry(K key, V value) {
            this.key = key;
            this.value = value;
        }

        public SimpleImmutableEntry(Map.Entry<? extends K, ? extends V> entry) {
            this.key = entry.getKey();
            this.value = entry.getValue();
        }

        @Override
        public K getKey() {
            return key;
        }

        @Override
        public V getValue() {
            return value;
        }

        @Override
        public V setValue(V value) {
            throw new UnsupportedOperationException();
        }

        @Override
        public boolean equals(Object other) {
            return other instanceof Map.Entry && equal(key, value, (Map.Entry<?, ?>) other);
        }

        @Override
        public int hashCode() {
            return Elements.hash(key) ^ Elements.hash(value);
        }

        @Override
        public String toString() {
            Elements.text(key);
            Elements.text(value);
            return Library.text();
        }
    }

    /** Whether an entry has this key and this value. */
    private static boolean equal(Object key, Object value, Map.Entry<?, ?> other) {
        return Elements.equal(key, other.getKey()) && Elements.equal(value, other.getValue());
    }
}
