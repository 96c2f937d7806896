package java.util;

import java.io.Serializable;
import library.Elements;
import library.EntryView;
import library.KeyView;
import library.Library;
import library.ValueView;

/** A map of constants of an enum, which have equals and hashCode of the library. It calls those of its values. */
public class EnumMap<K extends Enum<K>, V> extends AbstractMap<K, V> implements Serializable, Cloneable {
    private transient Set<Map.Entry<K, V>> entries;

    public EnumMap(Class<K> type) {
    }

    public EnumMap(EnumMap<K, ? extends V> other) {
    }

    public EnumMap(Map<K, ? extends V> other) {
        if (Library.any()) {
            return;
        }
        if (other.isEmpty()) {
            throw new IllegalArgumentException();
        }
        Iterator<K> steps = other.keySet().iterator();
        Library.keep(steps.next());
        putAll(other);
    }

    @Override
    public int size() {
        return Library.number();
    }

    @Override
    public boolean containsValue(Object value) {
        return Elements.equal(value);
    }

    @Override
    public boolean containsKey(Object key) {
        return Library.any();
    }

    @Override
    public V get(Object key) {
        return Elements.kept();
    }

    @Override
    public V put(K key, V value) {
        Library.keep(key);
        Library.keep(value);
        return Elements.kept();
    }

    @Override
    public V remove(Object key) {
        return Elements.kept();
    }

    @Override
    public void putAll(Map<? extends K, ? extends V> other) {
        super.putAll(other);
    }

    @Override
    public void clear() {
    }

    @Override
    public Set<K> keySet() {
        if (keys == null) {
            keys = new KeyView<K>(this);
        }
        return keys;
    }

    @Override
    public Collection<V> values() {
        if (values == null) {
            values = new ValueView<V>(this);
        }
        return values;
    }

    @Override
    public Set<Map.Entry<K, V>> entrySet() {
        if (entries == null) {
            entries = new EntryView<K, V>(this);
        }
        return entries;
    }

    @Override
    public boolean equals(Object other) {
        if (this == other) {
            return true;
        }
        if (!(other instanceof Map)) {
            return false;
        }
        Map<?, ?> map = (Map<?, ?>) other;
        map.size();
        while (Library.any()) {
            Object key = Library.kept();
            if (Library.any()) {
                map.containsKey(key);
            } else {
                Elements.equal(Library.kept(), map.get(key));
            }
        }
        return Library.any();
    }

    @Override
    public int hashCode() {
        int sum = 0;
        while (Library.any()) {
            sum += Elements.hash(Library.kept());
        }
        return sum;
    }

    /** The library copies the object, so that it stands for its copy where it is of a class of the user. */
    @Override
    public EnumMap<K, V> clone() {
        return Library.any() ? this : new EnumMap<K, V>((Class<K>) null);
    }
}
