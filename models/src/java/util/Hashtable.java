package java.util;

import java.io.Serializable;
import java.util.function.BiConsumer;
import java.util.function.BiFunction;
import java.util.function.Function;
import library.Elements;
import library.EntryView;
import library.KeyView;
import library.Library;
import library.ValueView;

/** A hash table of old. It calls hashCode and equals of its keys, and equals of its values. */
public class Hashtable<K, V> extends Dictionary<K, V> implements Map<K, V>, Cloneable, Serializable {
    private transient Set<K> keySet;
    private transient Set<Map.Entry<K, V>> entrySet;
    private transient Collection<V> values;

    public Hashtable(int capacity, float load) {
    }

    public Hashtable(int capacity) {
    }

    public Hashtable() {
    }

    public Hashtable(Map<? extends K, ? extends V> other) {
        other.size();
        putAll(other);
    }

    @Override
    public synchronized int size() {
        return Library.number();
    }

    @Override
    public synchronized boolean isEmpty() {
        return Library.any();
    }

    @Override
    public synchronized native Enumeration<K> keys();

    @Override
    public synchronized native Enumeration<V> elements();

    public synchronized boolean contains(Object value) {
        return Elements.equal(value);
    }

    @Override
    public boolean containsValue(Object value) {
        return contains(value);
    }

    @Override
    public synchronized boolean containsKey(Object key) {
        return Elements.hashed(key);
    }

    @Override
    public synchronized V get(Object key) {
        return Elements.hashed(key) ? Elements.<V>kept() : null;
    }

    protected void rehash() {
    }

    @Override
    public synchronized V put(K key, V value) {
        return enter(key, value);
    }

    /** Puts a key with a value. The value that it had. */
    private V enter(K key, V value) {
        Library.keep(key);
        Library.keep(value);
        if (Elements.hashed(key)) {
            return Elements.kept();
        }
        if (Library.any()) {
            rehash();
            Elements.hashed(key);
        }
        return null;
    }

    /** Puts a value that was computed, or takes the key out where there is none. */
    private V computed(K key, V value) {
        if (value != null) {
            enter(key, value);
        }
        return value;
    }

    @Override
    public synchronized V remove(Object key) {
        return Elements.hashed(key) ? Elements.<V>kept() : null;
    }

    @Override
    public synchronized void putAll(Map<? extends K, ? extends V> other) {
        for (Map.Entry<? extends K, ? extends V> each : other.entrySet()) {
            put(each.getKey(), each.getValue());
        }
    }

    @Override
    public synchronized void clear() {
    }

    /** The library copies the object, so that it stands for its copy where it is of a class of the user. */
    @Override
    public synchronized Object clone() {
        return Library.any() ? this : new Hashtable<K, V>();
    }

    @Override
    public synchronized String toString() {
        size();
        Iterator<Map.Entry<K, V>> steps = entrySet().iterator();
        while (Library.any()) {
            Map.Entry<K, V> entry = steps.next();
            Elements.text(entry.getKey());
            Elements.text(entry.getValue());
        }
        return Library.text();
    }

    @Override
    public Set<K> keySet() {
        if (keySet == null) {
            keySet = new KeyView<K>(this);
        }
        return keySet;
    }

    @Override
    public Set<Map.Entry<K, V>> entrySet() {
        if (entrySet == null) {
            entrySet = new EntryView<K, V>(this);
        }
        return entrySet;
    }

    @Override
    public Collection<V> values() {
        if (values == null) {
            values = new ValueView<V>(this);
        }
        return values;
    }

    @Override
    public synchronized boolean equals(Object other) {
        return other == this || other instanceof Map && equal((Map<?, ?>) other);
    }

    /** Whether a map has the same entries. */
    private boolean equal(Map<?, ?> other) {
        if (other.size() != size()) {
            return false;
        }
        try {
            for (Map.Entry<K, V> each : entrySet()) {
                K key = each.getKey();
                V value = each.getValue();
                if (value == null && !(other.get(key) == null && other.containsKey(key))) {
                    return false;
                }
                if (value != null && !value.equals(other.get(key))) {
                    return false;
                }
            }
        } catch (ClassCastException | NullPointerException fault) {
            return false;
        }
        return true;
    }

    @Override
    public synchronized int hashCode() {
        int sum = 0;
        while (Library.any()) {
            sum += Elements.hash(Library.kept());
        }
        return sum;
    }

    @Override
    public synchronized V getOrDefault(Object key, V otherwise) {
        V found = get(key);
        return found == null ? otherwise : found;
    }

    @Override
    public synchronized void forEach(BiConsumer<? super K, ? super V> action) {
        while (Library.any()) {
            action.accept(Elements.<K>kept(), Elements.<V>kept());
        }
    }

    @Override
    public synchronized void replaceAll(BiFunction<? super K, ? super V, ? extends V> function) {
        while (Library.any()) {
            Library.keep(function.apply(Elements.<K>kept(), Elements.<V>kept()));
        }
    }

    @Override
    public synchronized V putIfAbsent(K key, V value) {
        return enter(key, value);
    }

    @Override
    public synchronized boolean remove(Object key, Object value) {
        return Elements.hashed(key) && Elements.equal(value);
    }

    @Override
    public synchronized boolean replace(K key, V old, V value) {
        if (Elements.hashed(key) && Elements.equal(old)) {
            Library.keep(value);
            return true;
        }
        return false;
    }

    @Override
    public synchronized V replace(K key, V value) {
        if (Elements.hashed(key)) {
            Library.keep(value);
            return Elements.kept();
        }
        return null;
    }

    @Override
    public synchronized V computeIfAbsent(K key, Function<? super K, ? extends V> function) {
        return Elements.hashed(key) ? Elements.<V>kept() : computed(key, function.apply(key));
    }

    @Override
    public synchronized V computeIfPresent(K key, BiFunction<? super K, ? super V, ? extends V> function) {
        return Elements.hashed(key) ? computed(key, function.apply(key, Elements.<V>kept())) : null;
    }

    @Override
    public synchronized V compute(K key, BiFunction<? super K, ? super V, ? extends V> function) {
        V old = Elements.hashed(key) ? Elements.<V>kept() : null;
        return computed(key, function.apply(key, old));
    }

    @Override
    public synchronized V merge(K key, V value, BiFunction<? super V, ? super V, ? extends V> function) {
        return computed(key, Elements.hashed(key) ? function.apply(Elements.<V>kept(), value) : value);
    }
}
