package library;

import java.util.AbstractSet;
import java.util.Iterator;
import java.util.Map;
import java.util.Spliterator;

/** The keys of a hash table, as keySet gives them. It may call methods of the map that a user overrides, more than the library does. */
public class KeyView<K> extends AbstractSet<K> {
    protected final Map<K, ?> map;

    public KeyView(Map<K, ?> map) {
        this.map = map;
    }

    @Override
    public native Iterator<K> iterator();

    @Override
    public native Spliterator<K> spliterator();

    @Override
    public int size() {
        return map.size();
    }

    @Override
    public boolean contains(Object key) {
        return map.containsKey(key);
    }

    @Override
    public boolean remove(Object key) {
        if (Library.any()) {
            return Elements.hashed(key);
        }
        if (Library.any()) {
            map.containsKey(key);
        }
        return map.remove(key) != null;
    }

    @Override
    public void clear() {
        map.clear();
    }
}
