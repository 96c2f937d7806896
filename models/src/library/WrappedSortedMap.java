package library;

import java.util.Comparator;
import java.util.SortedMap;

/** A view of a sorted map. */
public class WrappedSortedMap<K, V> extends WrappedMap<K, V> implements SortedMap<K, V> {
    private final SortedMap<K, V> map;

    @SuppressWarnings("unchecked")
    public WrappedSortedMap(SortedMap<K, ? extends V> map) {
        super(map);
        this.map = (SortedMap<K, V>) map;
    }

    @Override
    public Comparator<? super K> comparator() {
        return map.comparator();
    }

    @Override
    public SortedMap<K, V> subMap(K from, K to) {
        return new WrappedSortedMap<K, V>(map.subMap(from, to));
    }

    @Override
    public SortedMap<K, V> headMap(K to) {
        return new WrappedSortedMap<K, V>(map.headMap(to));
    }

    @Override
    public SortedMap<K, V> tailMap(K from) {
        return new WrappedSortedMap<K, V>(map.tailMap(from));
    }

    @Override
    public K firstKey() {
        return map.firstKey();
    }

    @Override
    public K lastKey() {
        return map.lastKey();
    }
}
