package library;

import java.util.AbstractSet;
import java.util.Iterator;
import java.util.Map;
import java.util.Spliterator;

/** The entries of a hash table, as entrySet gives them. An entry is kept, so that iterators give one. */
public class EntryView<K, V> extends AbstractSet<Map.Entry<K, V>> {
    private final Map<K, V> map;

    public EntryView(Map<K, V> map) {
        this.map = map;
        Library.keep(new Entry<K, V>());
    }

    @Override
    public native Iterator<Map.Entry<K, V>> iterator();

    @Override
    public native Spliterator<Map.Entry<K, V>> spliterator();

    @Override
    public int size() {
        return map.size();
    }

    @Override
    public boolean contains(Object entry) {
        return entry instanceof Map.Entry && search((Map.Entry<?, ?>) entry);
    }

    @Override
    public boolean remove(Object entry) {
        return entry instanceof Map.Entry && search((Map.Entry<?, ?>) entry);
    }

    @Override
    public void clear() {
        map.clear();
    }

    /** Looks for key and value of an entry that may be one of the user. */
    private boolean search(Map.Entry<?, ?> entry) {
        while (Library.any()) {
            if (Library.any()) {
                find(entry.getKey());
            } else {
                Elements.equal(entry.getValue());
            }
        }
        return Library.any();
    }

    /** Looks for a key. */
    protected boolean find(Object key) {
        return Elements.hashed(key);
    }
}
