package java.util;

import java.util.function.BiConsumer;
import java.util.function.BiFunction;
import library.Elements;
import library.Library;

/** A hash table in the order of insertion or of access, which may drop its eldest entry after each insertion. */
public class LinkedHashMap<K, V> extends HashMap<K, V> implements Map<K, V> {
    public LinkedHashMap(int capacity, float load) {
    }

    public LinkedHashMap(int capacity) {
    }

    public LinkedHashMap() {
    }

    public LinkedHashMap(Map<? extends K, ? extends V> other) {
        super(other);
    }

    public LinkedHashMap(int capacity, float load, boolean byAccess) {
    }

    @Override
    public boolean containsValue(Object value) {
        return super.containsValue(value);
    }

    @Override
    public V get(Object key) {
        return super.get(key);
    }

    @Override
    public V getOrDefault(Object key, V otherwise) {
        return super.getOrDefault(key, otherwise);
    }

    @Override
    public void clear() {
        super.clear();
    }

    protected boolean removeEldestEntry(Map.Entry<K, V> eldest) {
        return false;
    }

    @Override
    public Set<K> keySet() {
        return super.keySet();
    }

    @Override
    public Collection<V> values() {
        return super.values();
    }

    @Override
    public Set<Map.Entry<K, V>> entrySet() {
        return super.entrySet();
    }

    @Override
    public void forEach(BiConsumer<? super K, ? super V> action) {
        super.forEach(action);
    }

    @Override
    public void replaceAll(BiFunction<? super K, ? super V, ? extends V> function) {
        super.replaceAll(function);
    }

    @Override
    public Object clone() {
        Object other = super.clone();
        return Library.any() ? other : new LinkedHashMap<K, V>();
    }

    /** After a key was put: asks whether the eldest entry is to go. */
    static <K, V> void dropEldest(LinkedHashMap<K, V> map) {
        while (Library.any()) {
            if (map.removeEldestEntry(new library.Entry<K, V>())) {
                Elements.hashed(Library.kept());
            }
        }
    }
}
