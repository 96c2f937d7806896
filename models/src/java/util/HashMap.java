package java.util;

import java.io.Serializable;
import java.util.function.BiConsumer;
import java.util.function.BiFunction;
import java.util.function.Function;
import library.Elements;
import library.EntryView;
import library.KeyView;
import library.Library;
import library.ValueView;

/** A hash table. It calls hashCode, equals and compareTo of its keys, and equals of its values. */
public class HashMap<K, V> extends AbstractMap<K, V> implements Map<K, V>, Cloneable, Serializable {
    private transient Set<Map.Entry<K, V>> entries;

    public HashMap(int capacity, float load) {
    }

    public HashMap(int capacity) {
    }

    public HashMap() {
    }

    public HashMap(Map<? extends K, ? extends V> other) {
        Elements.hashAll(other);
    }

    @Override
    public int size() {
        return Library.number();
    }

    @Override
    public boolean isEmpty() {
        return Library.any();
    }

    @Override
    public V get(Object key) {
        return Elements.hashed(key) ? Elements.<V>kept() : null;
    }

    @Override
    public boolean containsKey(Object key) {
        return Elements.hashed(key);
    }

    @Override
    public V put(K key, V value) {
        return enter(key, value);
    }

    @Override
    public void putAll(Map<? extends K, ? extends V> other) {
        other.size();
        for (Map.Entry<? extends K, ? extends V> each : other.entrySet()) {
            enter(each.getKey(), each.getValue());
        }
    }

    @Override
    public V remove(Object key) {
        return Elements.hashed(key) ? Elements.<V>kept() : null;
    }

    @Override
    public void clear() {
    }

    @Override
    public boolean containsValue(Object value) {
        return Elements.equal(value);
    }

    @Override
    public Set<K> keySet() {
        if (keys == null) {
            keys = new KeyView<K>(this);
        }
        return keys;
    }

    @Override
    public Collection<V> values() {
        if (values == null) {
            values = new ValueView<V>(this);
        }
        return values;
    }

    @Override
    public Set<Map.Entry<K, V>> entrySet() {
        if (entries == null) {
            entries = new EntryView<K, V>(this);
        }
        return entries;
    }

    @Override
    public V getOrDefault(Object key, V otherwise) {
        return Elements.hashed(key) ? Elements.<V>kept() : otherwise;
    }

    @Override
    public V putIfAbsent(K key, V value) {
        return enter(key, value);
    }

    @Override
    public boolean remove(Object key, Object value) {
        return Elements.hashed(key) && Elements.equal(value);
    }

    @Override
    public boolean replace(K key, V old, V value) {
        if (Elements.hashed(key) && Elements.equal(old)) {
            Library.keep(value);
            return true;
        }
        return false;
    }

    @Override
    public V replace(K key, V value) {
        if (Elements.hashed(key)) {
            Library.keep(value);
            return Elements.kept();
        }
        return null;
    }

    @Override
    public V computeIfAbsent(K key, Function<? super K, ? extends V> function) {
        if (Elements.hashed(key)) {
            return Elements.kept();
        }
        V value = function.apply(key);
        if (value != null) {
            enter(key, value);
        }
        return value;
    }

    @Override
    public V computeIfPresent(K key, BiFunction<? super K, ? super V, ? extends V> function) {
        return Elements.hashed(key) ? computed(key, function.apply(key, Elements.<V>kept())) : null;
    }

    @Override
    public V compute(K key, BiFunction<? super K, ? super V, ? extends V> function) {
        V old = Elements.hashed(key) ? Elements.<V>kept() : null;
        return computed(key, function.apply(key, old));
    }

    @Override
    public V merge(K key, V value, BiFunction<? super V, ? super V, ? extends V> function) {
        return computed(key, Elements.hashed(key) ? function.apply(Elements.<V>kept(), value) : value);
    }

    @Override
    public void forEach(BiConsumer<? super K, ? super V> action) {
        while (Library.any()) {
            action.accept(Elements.<K>kept(), Elements.<V>kept());
        }
    }

    @Override
    public void replaceAll(BiFunction<? super K, ? super V, ? extends V> function) {
        while (Library.any()) {
            Library.keep(function.apply(Elements.<K>kept(), Elements.<V>kept()));
        }
    }

    /** The library copies the object, so that it stands for its copy where it is of a class of the user. */
    @Override
    public Object clone() {
        Elements.hashAll(this);
        return Library.any() ? this : new HashMap<K, V>();
    }

    /** Puts a key with a value. The value that it had. */
    private V enter(K key, V value) {
        Library.keep(key);
        Library.keep(value);
        boolean had = Elements.hashed(key);
        afterEntering();
        return had ? Elements.<V>kept() : null;
    }

    /** Puts a value that was computed, or takes the key out where there is none. */
    private V computed(K key, V value) {
        if (value == null) {
            Elements.hashed(key);
        } else {
            enter(key, value);
        }
        return value;
    }

    /** What a class below this one does after a key was put. */
    private void afterEntering() {
        if (this instanceof LinkedHashMap) {
            LinkedHashMap.dropEldest((LinkedHashMap<K, V>) this);
        }
    }
}
