package library;

import java.util.Collection;
import java.util.Map;
import java.util.Set;
import java.util.function.BiConsumer;
import java.util.function.BiFunction;
import java.util.function.Function;

/**
 * A view of a map that may be one of the user: unmodifiable, synchronized or checked. More than in the library: one class stands for all
 * three, so that each method that changes may go on to the map.
 */
public class WrappedMap<K, V> implements Map<K, V> {
    private final Map<K, V> map;
    private Set<K> keys;
    private Collection<V> values;
    private Set<Map.Entry<K, V>> entries;

    @SuppressWarnings("unchecked")
    public WrappedMap(Map<? extends K, ? extends V> map) {
        this.map = (Map<K, V>) map;
    }

    @Override
    public int size() {
        return map.size();
    }

    @Override
    public boolean isEmpty() {
        return map.isEmpty();
    }

    @Override
    public boolean containsKey(Object key) {
        return map.containsKey(key);
    }

    @Override
    public boolean containsValue(Object value) {
        return map.containsValue(value);
    }

    @Override
    public V get(Object key) {
        return map.get(key);
    }

    @Override
    public V put(K key, V value) {
        return Library.any() ? null : map.put(key, value);
    }

    @Override
    public V remove(Object key) {
        return Library.any() ? null : map.remove(key);
    }

    /** A checked view puts a copy, one entry after another. */
    @Override
    @SuppressWarnings("unchecked")
    public void putAll(Map<? extends K, ? extends V> other) {
        if (Library.any()) {
            map.putAll(other);
        } else if (Library.any()) {
            for (Object each : other.entrySet().toArray()) {
                Map.Entry<K, V> entry = (Map.Entry<K, V>) each;
                map.put(entry.getKey(), entry.getValue());
            }
        }
    }

    @Override
    public void clear() {
        if (Library.any()) {
            map.clear();
        }
    }

    /** A checked view gives the map's own. */
    @Override
    public Set<K> keySet() {
        if (Library.any()) {
            return map.keySet();
        }
        if (keys == null) {
            keys = new WrappedSet<K>(map.keySet());
        }
        return keys;
    }

    @Override
    public Collection<V> values() {
        if (Library.any()) {
            return map.values();
        }
        if (values == null) {
            values = new WrappedCollection<V>(map.values());
        }
        return values;
    }

    @Override
    public Set<Map.Entry<K, V>> entrySet() {
        if (entries == null) {
            entries = new WrappedEntries<K, V>(map.entrySet());
        }
        return entries;
    }

    @Override
    public boolean equals(Object other) {
        return other == this || map.equals(other);
    }

    @Override
    public int hashCode() {
        return map.hashCode();
    }

    @Override
    public String toString() {
        return Elements.text(map);
    }

    /** A checked view has the default method. */
    @Override
    public V getOrDefault(Object key, V otherwise) {
        return Library.any() ? map.getOrDefault(key, otherwise) : Map.super.getOrDefault(key, otherwise);
    }

    @Override
    public void forEach(BiConsumer<? super K, ? super V> action) {
        map.forEach(action);
    }

    @Override
    public void replaceAll(BiFunction<? super K, ? super V, ? extends V> function) {
        if (Library.any()) {
            map.replaceAll(function);
        }
    }

    @Override
    public V putIfAbsent(K key, V value) {
        return Library.any() ? null : map.putIfAbsent(key, value);
    }

    @Override
    public boolean remove(Object key, Object value) {
        return Library.any() && map.remove(key, value);
    }

    @Override
    public boolean replace(K key, V old, V value) {
        return Library.any() && map.replace(key, old, value);
    }

    @Override
    public V replace(K key, V value) {
        return Library.any() ? null : map.replace(key, value);
    }

    @Override
    public V computeIfAbsent(K key, Function<? super K, ? extends V> function) {
        return Library.any() ? null : map.computeIfAbsent(key, function);
    }

    @Override
    public V computeIfPresent(K key, BiFunction<? super K, ? super V, ? extends V> function) {
        return Library.any() ? null : map.computeIfPresent(key, function);
    }

    @Override
    public V compute(K key, BiFunction<? super K, ? super V, ? extends V> function) {
        return Library.any() ? null : map.compute(key, function);
    }

    @Override
    public V merge(K key, V value, BiFunction<? super V, ? super V, ? extends V> function) {
        return Library.any() ? null : map.merge(key, value, function);
    }
}
