package library;

import java.util.Map;
import java.util.NavigableMap;
import java.util.NavigableSet;
import java.util.Set;
import java.util.SortedMap;

/** A view of a navigable map. */
public final class WrappedNavigableMap<K, V> extends WrappedSortedMap<K, V> implements NavigableMap<K, V> {
    private final NavigableMap<K, V> map;

    @SuppressWarnings("unchecked")
    public WrappedNavigableMap(NavigableMap<K, ? extends V> map) {
        super(map);
        this.map = (NavigableMap<K, V>) map;
    }

    @Override
    public Map.Entry<K, V> lowerEntry(K key) {
        return WrappedEntries.wrap(map.lowerEntry(key));
    }

    @Override
    public K lowerKey(K key) {
        return map.lowerKey(key);
    }

    @Override
    public Map.Entry<K, V> floorEntry(K key) {
        return WrappedEntries.wrap(map.floorEntry(key));
    }

    @Override
    public K floorKey(K key) {
        return map.floorKey(key);
    }

    @Override
    public Map.Entry<K, V> ceilingEntry(K key) {
        return WrappedEntries.wrap(map.ceilingEntry(key));
    }

    @Override
    public K ceilingKey(K key) {
        return map.ceilingKey(key);
    }

    @Override
    public Map.Entry<K, V> higherEntry(K key) {
        return WrappedEntries.wrap(map.higherEntry(key));
    }

    @Override
    public K higherKey(K key) {
        return map.higherKey(key);
    }

    @Override
    public Map.Entry<K, V> firstEntry() {
        return WrappedEntries.wrap(map.firstEntry());
    }

    @Override
    public Map.Entry<K, V> lastEntry() {
        return WrappedEntries.wrap(map.lastEntry());
    }

    @Override
    public Map.Entry<K, V> pollFirstEntry() {
        return Library.any() ? null : WrappedEntries.wrap(map.pollFirstEntry());
    }

    @Override
    public Map.Entry<K, V> pollLastEntry() {
        return Library.any() ? null : WrappedEntries.wrap(map.pollLastEntry());
    }

    @Override
    public NavigableMap<K, V> descendingMap() {
        return new WrappedNavigableMap<K, V>(map.descendingMap());
    }

    /** A synchronized or a checked view gives that of navigableKeySet. */
    @Override
    public Set<K> keySet() {
        return Library.any() ? navigableKeySet() : super.keySet();
    }

    @Override
    public NavigableSet<K> navigableKeySet() {
        return new WrappedNavigableSet<K>(map.navigableKeySet());
    }

    @Override
    public NavigableSet<K> descendingKeySet() {
        return new WrappedNavigableSet<K>(map.descendingKeySet());
    }

    @Override
    public NavigableMap<K, V> subMap(K from, boolean fromInclusive, K to, boolean toInclusive) {
        return new WrappedNavigableMap<K, V>(map.subMap(from, fromInclusive, to, toInclusive));
    }

    @Override
    public NavigableMap<K, V> headMap(K to, boolean inclusive) {
        return new WrappedNavigableMap<K, V>(map.headMap(to, inclusive));
    }

    @Override
    public NavigableMap<K, V> tailMap(K from, boolean inclusive) {
        return new WrappedNavigableMap<K, V>(map.tailMap(from, inclusive));
    }

    /** A synchronized or a checked view calls the method with bounds. */
    @Override
    public SortedMap<K, V> subMap(K from, K to) {
        return Library.any() ? subMap(from, true, to, false) : super.subMap(from, to);
    }

    @Override
    public SortedMap<K, V> headMap(K to) {
        return Library.any() ? headMap(to, false) : super.headMap(to);
    }

    @Override
    public SortedMap<K, V> tailMap(K from) {
        return Library.any() ? tailMap(from, true) : super.tailMap(from);
    }
}
