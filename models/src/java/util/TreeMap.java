package java.util;

import java.io.Serializable;
import java.util.function.BiConsumer;
import java.util.function.BiFunction;
import java.util.function.Function;
import library.Elements;
import library.EntryView;
import library.Library;
import library.ValueView;

/** A tree of keys in the order of a comparator, or without one by their compareTo. */
public class TreeMap<K, V> extends AbstractMap<K, V> implements NavigableMap<K, V>, Cloneable, Serializable {
    private final Comparator<? super K> order;
    private transient NavigableSet<K> sortedKeys;
    private transient Set<Map.Entry<K, V>> entries;
    private transient NavigableMap<K, V> descending;

    public TreeMap() {
        order = null;
    }

    public TreeMap(Comparator<? super K> order) {
        this.order = order;
    }

    public TreeMap(Map<? extends K, ? extends V> other) {
        order = null;
        putAll(other);
    }

    public TreeMap(SortedMap<K, ? extends V> other) {
        order = other.comparator();
        Elements.takeSorted(other);
    }

    @Override
    public int size() {
        return Library.number();
    }

    @Override
    public boolean containsKey(Object key) {
        return search(key);
    }

    @Override
    public boolean containsValue(Object value) {
        return Elements.equal(value);
    }

    @Override
    public V get(Object key) {
        return search(key) ? Elements.<V>kept() : null;
    }

    @Override
    public Comparator<? super K> comparator() {
        return order;
    }

    @Override
    public K firstKey() {
        return Elements.kept();
    }

    @Override
    public K lastKey() {
        return Elements.kept();
    }

    @Override
    public void putAll(Map<? extends K, ? extends V> other) {
        other.size();
        if (other instanceof SortedMap && Library.any()) {
            Comparator<?> others = ((SortedMap<?, ?>) other).comparator();
            Elements.equal(others, order);
            if (Library.any()) {
                Elements.takeSorted((SortedMap<?, ?>) other);
                return;
            }
        }
        super.putAll(other);
    }

    @Override
    public V put(K key, V value) {
        return enter(key, value);
    }

    /** Puts a key with a value. The value that it had. */
    private V enter(K key, V value) {
        Library.keep(key);
        Library.keep(value);
        return search(key) ? Elements.<V>kept() : null;
    }

    /** Puts a value that was computed, or takes the key out where there is none. */
    private V computed(K key, V value) {
        if (value != null) {
            enter(key, value);
        }
        return value;
    }

    @Override
    public V remove(Object key) {
        return search(key) ? Elements.<V>kept() : null;
    }

    @Override
    public void clear() {
    }

    /** The library copies the object, so that it stands for its copy where it is of a class of the user. */
    @Override
    public Object clone() {
        Elements.takeSorted(this);
        return Library.any() ? this : new TreeMap<K, V>(order);
    }

    @Override
    public Map.Entry<K, V> firstEntry() {
        return entry();
    }

    @Override
    public Map.Entry<K, V> lastEntry() {
        return entry();
    }

    @Override
    public Map.Entry<K, V> pollFirstEntry() {
        return entry();
    }

    @Override
    public Map.Entry<K, V> pollLastEntry() {
        return entry();
    }

    @Override
    public Map.Entry<K, V> lowerEntry(K key) {
        return near(key);
    }

    @Override
    public K lowerKey(K key) {
        return nearKey(key);
    }

    @Override
    public Map.Entry<K, V> floorEntry(K key) {
        return near(key);
    }

    @Override
    public K floorKey(K key) {
        return nearKey(key);
    }

    @Override
    public Map.Entry<K, V> ceilingEntry(K key) {
        return near(key);
    }

    @Override
    public K ceilingKey(K key) {
        return nearKey(key);
    }

    @Override
    public Map.Entry<K, V> higherEntry(K key) {
        return near(key);
    }

    @Override
    public K higherKey(K key) {
        return nearKey(key);
    }

    @Override
    public Set<K> keySet() {
        return navigableKeySet();
    }

    @Override
    public NavigableSet<K> navigableKeySet() {
        if (sortedKeys == null) {
            sortedKeys = new Keys<K>(this);
        }
        return sortedKeys;
    }

    @Override
    public NavigableSet<K> descendingKeySet() {
        return descendingMap().navigableKeySet();
    }

    @Override
    public Collection<V> values() {
        if (values == null) {
            values = new ValueView<V>(this);
        }
        return values;
    }

    @Override
    public Set<Map.Entry<K, V>> entrySet() {
        if (entries == null) {
            entries = new Entries<K, V>(this, order);
        }
        return entries;
    }

    @Override
    public NavigableMap<K, V> descendingMap() {
        if (descending == null) {
            descending = new Part<K, V>(this, true);
        }
        return descending;
    }

    @Override
    public NavigableMap<K, V> subMap(K from, boolean fromInclusive, K to, boolean toInclusive) {
        bound(from);
        bound(to);
        return new Part<K, V>(this, false);
    }

    @Override
    public NavigableMap<K, V> headMap(K to, boolean inclusive) {
        bound(to);
        return new Part<K, V>(this, false);
    }

    @Override
    public NavigableMap<K, V> tailMap(K from, boolean inclusive) {
        bound(from);
        return new Part<K, V>(this, false);
    }

    @Override
    public SortedMap<K, V> subMap(K from, K to) {
        return subMap(from, true, to, false);
    }

    @Override
    public SortedMap<K, V> headMap(K to) {
        return headMap(to, false);
    }

    @Override
    public SortedMap<K, V> tailMap(K from) {
        return tailMap(from, true);
    }

    @Override
    public boolean replace(K key, V old, V value) {
        if (search(key) && Elements.equal(old)) {
            Library.keep(value);
            return true;
        }
        return false;
    }

    @Override
    public V replace(K key, V value) {
        if (search(key)) {
            Library.keep(value);
            return Elements.kept();
        }
        return null;
    }

    /** Later versions of the library call no other method of the object. */
    @Override
    public V putIfAbsent(K key, V value) {
        return Library.any() ? super.putIfAbsent(key, value) : enter(key, value);
    }

    @Override
    public V computeIfAbsent(K key, Function<? super K, ? extends V> function) {
        if (Library.any()) {
            return super.computeIfAbsent(key, function);
        }
        return search(key) ? Elements.<V>kept() : computed(key, function.apply(key));
    }

    @Override
    public V computeIfPresent(K key, BiFunction<? super K, ? super V, ? extends V> function) {
        if (Library.any()) {
            return super.computeIfPresent(key, function);
        }
        return search(key) ? computed(key, function.apply(key, Elements.<V>kept())) : null;
    }

    @Override
    public V compute(K key, BiFunction<? super K, ? super V, ? extends V> function) {
        if (Library.any()) {
            return super.compute(key, function);
        }
        return computed(key, function.apply(key, search(key) ? Elements.<V>kept() : null));
    }

    @Override
    public V merge(K key, V value, BiFunction<? super V, ? super V, ? extends V> function) {
        if (Library.any()) {
            return super.merge(key, value, function);
        }
        return computed(key, search(key) ? function.apply(Elements.<V>kept(), value) : value);
    }

    @Override
    public void forEach(BiConsumer<? super K, ? super V> action) {
        while (Library.any()) {
            action.accept(Elements.<K>kept(), Elements.<V>kept());
        }
    }

    @Override
    public void replaceAll(BiFunction<? super K, ? super V, ? extends V> function) {
        while (Library.any()) {
            Library.keep(function.apply(Elements.<K>kept(), Elements.<V>kept()));
        }
    }

    /** Looks for a key. */
    private boolean search(Object key) {
        return Elements.ordered(order, key);
    }

    /** Takes the bound of a part of the map, which is kept there and compared with itself, and later with keys. */
    private void bound(K key) {
        Library.keep(key);
        search(key);
    }

    /** Looks for a key next to one. */
    private K nearKey(K key) {
        return search(key) ? Elements.<K>kept() : null;
    }

    /** Looks for the entry next to a key. */
    private Map.Entry<K, V> near(K key) {
        return search(key) ? entry() : null;
    }

    /** A copy of an entry, if there is one. */
    private Map.Entry<K, V> entry() {
        return Library.any() ? null : new SimpleImmutableEntry<K, V>(Elements.<K>kept(), Elements.<V>kept());
    }

    /** The entries of a tree. */
    private static class Entries<K, V> extends EntryView<K, V> {
        final Comparator<? super K> order;

        Entries(Map<K, V> map, Comparator<? super K> order) {
            super(map);
            this.order = order;
        }

        @Override
        protected boolean find(Object key) {
            return Elements.ordered(order, key);
        }
    }

    /** The entries of a part of a tree: to begin with, keys are compared with the bounds. */
    private static final class PartEntries<K, V> extends Entries<K, V> {
        PartEntries(Map<K, V> map, Comparator<? super K> order) {
            super(map, order);
        }

        @Override
        public Iterator<Map.Entry<K, V>> iterator() {
            find(Library.kept());
            return super.iterator();
        }
    }

    /** The keys of a part of a tree: to begin with, they are compared with the bounds. */
    private static final class PartKeys<K> extends Keys<K> {
        private final Comparator<? super K> order;

        PartKeys(NavigableMap<K, ?> map, Comparator<? super K> order) {
            super(map);
            this.order = order;
        }

        @Override
        public Iterator<K> iterator() {
            Elements.ordered(order, Library.kept());
            return super.iterator();
        }

        @Override
        public Iterator<K> descendingIterator() {
            Elements.ordered(order, Library.kept());
            return super.descendingIterator();
        }
    }

    /** The keys of a sorted map, which call its methods. */
    private static class Keys<K> extends AbstractSet<K> implements NavigableSet<K> {
        private final NavigableMap<K, ?> map;

        Keys(NavigableMap<K, ?> map) {
            this.map = map;
        }

        @Override
        public native Iterator<K> iterator();

        @Override
        public native Iterator<K> descendingIterator();

        @Override
        public native Spliterator<K> spliterator();

        @Override
        public int size() {
            return map.size();
        }

        @Override
        public boolean isEmpty() {
            return map.isEmpty();
        }

        @Override
        public boolean contains(Object key) {
            return map.containsKey(key);
        }

        @Override
        public void clear() {
            map.clear();
        }

        @Override
        public K lower(K key) {
            return map.lowerKey(key);
        }

        @Override
        public K floor(K key) {
            return map.floorKey(key);
        }

        @Override
        public K ceiling(K key) {
            return map.ceilingKey(key);
        }

        @Override
        public K higher(K key) {
            return map.higherKey(key);
        }

        @Override
        public K first() {
            return map.firstKey();
        }

        @Override
        public K last() {
            return map.lastKey();
        }

        @Override
        public Comparator<? super K> comparator() {
            return map.comparator();
        }

        @Override
        public K pollFirst() {
            return key(map.pollFirstEntry());
        }

        @Override
        public K pollLast() {
            return key(map.pollLastEntry());
        }

        /** The key of an entry, if there is one. */
        private K key(Map.Entry<K, ?> entry) {
            return entry == null ? null : entry.getKey();
        }

        @Override
        public boolean remove(Object key) {
            int before = size();
            map.remove(key);
            return size() != before;
        }

        @Override
        public NavigableSet<K> subSet(K from, boolean fromInclusive, K to, boolean toInclusive) {
            return map.subMap(from, fromInclusive, to, toInclusive).navigableKeySet();
        }

        @Override
        public NavigableSet<K> headSet(K to, boolean inclusive) {
            return map.headMap(to, inclusive).navigableKeySet();
        }

        @Override
        public NavigableSet<K> tailSet(K from, boolean inclusive) {
            return map.tailMap(from, inclusive).navigableKeySet();
        }

        @Override
        public SortedSet<K> subSet(K from, K to) {
            return subSet(from, true, to, false);
        }

        @Override
        public SortedSet<K> headSet(K to) {
            return headSet(to, false);
        }

        @Override
        public SortedSet<K> tailSet(K from) {
            return tailSet(from, true);
        }

        @Override
        public NavigableSet<K> descendingSet() {
            return map.descendingMap().navigableKeySet();
        }
    }

    /** A part of a tree, or all of it from its end. It calls the methods of the tree. */
    private static final class Part<K, V> extends AbstractMap<K, V> implements NavigableMap<K, V>, Serializable {
        private final TreeMap<K, V> map;
        private final Comparator<? super K> order;
        private transient NavigableSet<K> sortedKeys;
        private transient Set<Map.Entry<K, V>> entries;
        private transient NavigableMap<K, V> descending;

        @SuppressWarnings("unchecked")
        Part(TreeMap<K, V> map, boolean backwards) {
            this.map = map;
            this.order = backwards ? Collections.reverseOrder((Comparator<K>) map.order) : map.order;
        }

        /** Compares a key with the bounds. */
        private boolean inside(Object key) {
            return Elements.ordered(map.order, key);
        }

        @Override
        public boolean isEmpty() {
            inside(Library.kept());
            return Library.any() ? Library.any() : map.isEmpty();
        }

        @Override
        public int size() {
            inside(Library.kept());
            return Library.any() ? Library.number() : map.size();
        }

        @Override
        public boolean containsKey(Object key) {
            return inside(key) && map.containsKey(key);
        }

        @Override
        public V put(K key, V value) {
            if (!inside(key)) {
                throw new IllegalArgumentException();
            }
            return map.put(key, value);
        }

        @Override
        public V get(Object key) {
            return inside(key) ? map.get(key) : null;
        }

        @Override
        public V remove(Object key) {
            return inside(key) ? map.remove(key) : null;
        }

        @Override
        public Comparator<? super K> comparator() {
            return Library.any() ? order : map.comparator();
        }

        /** Later versions of the library call the method of the tree. */
        @Override
        public V putIfAbsent(K key, V value) {
            inside(key);
            return Library.any() ? map.putIfAbsent(key, value) : super.putIfAbsent(key, value);
        }

        @Override
        public V computeIfAbsent(K key, Function<? super K, ? extends V> function) {
            inside(key);
            return Library.any() ? map.computeIfAbsent(key, function) : super.computeIfAbsent(key, function);
        }

        @Override
        public V computeIfPresent(K key, BiFunction<? super K, ? super V, ? extends V> function) {
            inside(key);
            return Library.any() ? map.computeIfPresent(key, function) : super.computeIfPresent(key, function);
        }

        @Override
        public V compute(K key, BiFunction<? super K, ? super V, ? extends V> function) {
            if (!inside(key)) {
                function.apply(key, null);
            }
            return Library.any() ? map.compute(key, function) : super.compute(key, function);
        }

        @Override
        public V merge(K key, V value, BiFunction<? super V, ? super V, ? extends V> function) {
            inside(key);
            return Library.any() ? map.merge(key, value, function) : super.merge(key, value, function);
        }

        @Override
        public K firstKey() {
            return key();
        }

        @Override
        public K lastKey() {
            return key();
        }

        @Override
        public Map.Entry<K, V> firstEntry() {
            return entry();
        }

        @Override
        public Map.Entry<K, V> lastEntry() {
            return entry();
        }

        @Override
        public Map.Entry<K, V> pollFirstEntry() {
            return entry();
        }

        @Override
        public Map.Entry<K, V> pollLastEntry() {
            return entry();
        }

        @Override
        public Map.Entry<K, V> lowerEntry(K key) {
            return near(key);
        }

        @Override
        public K lowerKey(K key) {
            return nearKey(key);
        }

        @Override
        public Map.Entry<K, V> floorEntry(K key) {
            return near(key);
        }

        @Override
        public K floorKey(K key) {
            return nearKey(key);
        }

        @Override
        public Map.Entry<K, V> ceilingEntry(K key) {
            return near(key);
        }

        @Override
        public K ceilingKey(K key) {
            return nearKey(key);
        }

        @Override
        public Map.Entry<K, V> higherEntry(K key) {
            return near(key);
        }

        @Override
        public K higherKey(K key) {
            return nearKey(key);
        }

        /** The first or the last key, which is compared with the bounds. */
        private K key() {
            return nearKey(Elements.<K>kept());
        }

        /** The first or the last entry. */
        private Map.Entry<K, V> entry() {
            return near(Elements.<K>kept());
        }

        /** Looks for a key next to one. */
        private K nearKey(K key) {
            return inside(key) ? Elements.<K>kept() : null;
        }

        /** Looks for the entry next to a key. */
        private Map.Entry<K, V> near(K key) {
            return inside(key) ? map.entry() : null;
        }

        @Override
        public Set<K> keySet() {
            return navigableKeySet();
        }

        @Override
        public NavigableSet<K> navigableKeySet() {
            if (sortedKeys == null) {
                sortedKeys = new PartKeys<K>(this, map.order);
            }
            return sortedKeys;
        }

        @Override
        public NavigableSet<K> descendingKeySet() {
            return descendingMap().navigableKeySet();
        }

        @Override
        public Set<Map.Entry<K, V>> entrySet() {
            if (entries == null) {
                entries = new PartEntries<K, V>(this, map.order);
            }
            return entries;
        }

        @Override
        public NavigableMap<K, V> descendingMap() {
            if (descending == null) {
                descending = part();
            }
            return descending;
        }

        @Override
        public NavigableMap<K, V> subMap(K from, boolean fromInclusive, K to, boolean toInclusive) {
            map.bound(from);
            map.bound(to);
            return part();
        }

        @Override
        public NavigableMap<K, V> headMap(K to, boolean inclusive) {
            map.bound(to);
            return part();
        }

        @Override
        public NavigableMap<K, V> tailMap(K from, boolean inclusive) {
            map.bound(from);
            return part();
        }

        /** A part of this part, in its direction. */
        private NavigableMap<K, V> part() {
            return new Part<K, V>(map, Library.any());
        }

        @Override
        public SortedMap<K, V> subMap(K from, K to) {
            return subMap(from, true, to, false);
        }

        @Override
        public SortedMap<K, V> headMap(K to) {
            return headMap(to, false);
        }

        @Override
        public SortedMap<K, V> tailMap(K from) {
            return tailMap(from, true);
        }
    }
}
