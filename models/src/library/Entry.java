package library;

import java.util.Map;

/** An entry of a library's map: a view of it, so that key and value are what was kept. */
public final class Entry<K, V> implements Map.Entry<K, V> {
    @Override
    public K getKey() {
        return Elements.kept();
    }

    @Override
    public V getValue() {
        return Elements.kept();
    }

    @Override
    public V setValue(V value) {
        Library.keep(value);
        return Elements.kept();
    }

    @Override
    public boolean equals(Object other) {
        if (!(other instanceof Map.Entry)) {
            return false;
        }
        Map.Entry<?, ?> entry = (Map.Entry<?, ?>) other;
        return Elements.equal(entry.getKey()) && Elements.equal(entry.getValue());
    }

    @Override
    public int hashCode() {
        return Elements.hash(Library.kept()) ^ Elements.hash(Library.kept());
    }

    @Override
    public String toString() {
        return Elements.texts();
    }
}
