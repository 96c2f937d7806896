package java.util;

import library.Elements;
import library.Library;
import library.Nothing;
import library.Orders;
import library.QueueOfDeque;
import library.SetOfMap;
import library.Singles;
import library.StepsOfCollection;
import library.WrappedCollection;
import library.WrappedList;
import library.WrappedMap;
import library.WrappedNavigableMap;
import library.WrappedNavigableSet;
import library.WrappedQueue;
import library.WrappedSet;
import library.WrappedSortedMap;
import library.WrappedSortedSet;

/**
 * What is done with collections that may be those of the user, and views of them. Where the library chooses by size between indexes
 * and iterators, both may happen.
 */
@SuppressWarnings("rawtypes")
public class Collections {
    public static final Set EMPTY_SET = new Nothing.OfSet<Object>();
    public static final List EMPTY_LIST = new Nothing.OfList<Object>();
    public static final Map EMPTY_MAP = new Nothing.OfMap<Object, Object>();

    private Collections() {
    }

    /** The empty list, with what else the library makes once. */
    @SuppressWarnings("unchecked")
    static <E> Nothing.OfList<E> nothing() {
        return (Nothing.OfList<E>) EMPTY_LIST;
    }

    // ---- order

    public static <T extends Comparable<? super T>> void sort(List<T> list) {
        sort(list, null);
    }

    /** It also does what the default method does, which has no model for lists of the user that extend no class of the library. */
    public static <T> void sort(List<T> list, Comparator<? super T> order) {
        if (Library.any()) {
            list.sort(order);
        } else {
            Elements.sort(list, order);
        }
    }

    public static <T> int binarySearch(List<? extends Comparable<? super T>> list, T key) {
        return search(list, key, null);
    }

    public static <T> int binarySearch(List<? extends T> list, T key, Comparator<? super T> order) {
        return search(list, key, order);
    }

    /** Compares elements with a key. */
    private static int search(List<?> list, Object key, Comparator<?> order) {
        list.size();
        if (Library.any()) {
            while (Library.any()) {
                Elements.compare(order, list.get(Library.number()), key);
            }
            return Library.number();
        }
        ListIterator<?> steps = list.listIterator();
        while (Library.any()) {
            Elements.compare(order, step(steps), key);
        }
        return Library.number();
    }

    /** Steps somewhere, and gives an element from there. */
    private static Object step(ListIterator<?> steps) {
        Object found = null;
        steps.nextIndex();
        while (Library.any()) {
            found = Library.any() ? steps.next() : steps.previous();
        }
        return found;
    }

    public static void reverse(List<?> list) {
        reverseAll(list);
    }

    /** Turns a list round. */
    private static <E> void reverseAll(List<E> list) {
        list.size();
        if (Library.any()) {
            swapSome(list);
            return;
        }
        ListIterator<E> forth = list.listIterator();
        ListIterator<E> back = list.listIterator(Library.number());
        while (Library.any()) {
            E one = forth.next();
            forth.set(back.previous());
            back.set(one);
        }
    }

    /** Swaps elements. */
    private static void swapSome(List<?> list) {
        while (Library.any()) {
            swap(list, Library.number(), Library.number());
        }
    }

    public static void shuffle(List<?> list) {
        shuffleAll(list, null);
    }

    public static void shuffle(List<?> list, Random random) {
        shuffleAll(list, random);
    }

    /** Mixes a list. */
    @SuppressWarnings("unchecked")
    private static <E> void shuffleAll(List<E> list, Random random) {
        list.size();
        if (Library.any()) {
            while (Library.any()) {
                swap(list, Library.number(), draw(random));
            }
            return;
        }
        Object[] all = list.toArray();
        while (Library.any()) {
            draw(random);
        }
        ListIterator<E> steps = list.listIterator();
        while (Library.any()) {
            steps.next();
            steps.set((E) all[Library.number()]);
        }
    }

    /** A number that is drawn. */
    private static int draw(Random random) {
        return random == null ? Library.number() : random.nextInt(Library.number());
    }

    public static void swap(List<?> list, int at, int other) {
        swapBoth(list, at, other);
    }

    /** Swaps two elements. */
    private static <E> void swapBoth(List<E> list, int at, int other) {
        list.set(at, list.set(other, list.get(at)));
    }

    public static <T> void fill(List<? super T> list, T element) {
        list.size();
        if (Library.any()) {
            while (Library.any()) {
                list.set(Library.number(), element);
            }
            return;
        }
        ListIterator<? super T> steps = list.listIterator();
        while (Library.any()) {
            steps.next();
            steps.set(element);
        }
    }

    public static <T> void copy(List<? super T> into, List<? extends T> from) {
        from.size();
        into.size();
        if (Library.any()) {
            while (Library.any()) {
                into.set(Library.number(), from.get(Library.number()));
            }
            return;
        }
        ListIterator<? super T> places = into.listIterator();
        ListIterator<? extends T> steps = from.listIterator();
        while (Library.any()) {
            places.next();
            places.set(steps.next());
        }
    }

    @SuppressWarnings("unchecked")
    public static <T extends Object & Comparable<? super T>> T min(Collection<? extends T> from) {
        return (T) Collections.<Object>best(from, null);
    }

    public static <T> T min(Collection<? extends T> from, Comparator<? super T> order) {
        return Collections.<T>best(from, order);
    }

    @SuppressWarnings("unchecked")
    public static <T extends Object & Comparable<? super T>> T max(Collection<? extends T> from) {
        return (T) Collections.<Object>best(from, null);
    }

    public static <T> T max(Collection<? extends T> from, Comparator<? super T> order) {
        return Collections.<T>best(from, order);
    }

    /** The least or the greatest element. */
    private static <T> T best(Collection<? extends T> from, Comparator<? super T> order) {
        Iterator<? extends T> steps = from.iterator();
        T best = steps.next();
        while (steps.hasNext()) {
            T each = steps.next();
            Elements.compare(order, each, best);
            best = Library.any() ? each : best;
        }
        return best;
    }

    public static void rotate(List<?> list, int distance) {
        rotateAll(list);
    }

    /** Moves the elements of a list round. */
    private static <E> void rotateAll(List<E> list) {
        list.size();
        if (Library.any()) {
            E one = list.get(Library.number());
            while (Library.any()) {
                one = list.set(Library.number(), one);
            }
            return;
        }
        reverse(list.subList(Library.number(), Library.number()));
        reverse(list.subList(Library.number(), Library.number()));
        reverse(list);
    }

    public static <T> boolean replaceAll(List<T> list, T old, T element) {
        list.size();
        if (Library.any()) {
            while (Library.any()) {
                Elements.equal(old, list.get(Library.number()));
                if (Library.any()) {
                    list.set(Library.number(), element);
                }
            }
            return Library.any();
        }
        ListIterator<T> steps = list.listIterator();
        while (Library.any()) {
            Elements.equal(old, steps.next());
            if (Library.any()) {
                steps.set(element);
            }
        }
        return Library.any();
    }

    public static int indexOfSubList(List<?> list, List<?> part) {
        return find(list, part);
    }

    public static int lastIndexOfSubList(List<?> list, List<?> part) {
        return find(list, part);
    }

    /** Looks for a part of a list. */
    private static int find(List<?> list, List<?> part) {
        list.size();
        part.size();
        if (Library.any()) {
            while (Library.any()) {
                Elements.equal(part.get(Library.number()), list.get(Library.number()));
            }
            return Library.number();
        }
        ListIterator<?> steps = Library.any() ? list.listIterator() : list.listIterator(Library.number());
        while (Library.any()) {
            ListIterator<?> parts = part.listIterator();
            while (Library.any()) {
                if (Library.any()) {
                    steps.previous();
                } else {
                    Elements.equal(parts.next(), steps.next());
                }
            }
        }
        return Library.number();
    }

    // ---- views

    public static <T> Collection<T> unmodifiableCollection(Collection<? extends T> from) {
        return new WrappedCollection<T>(from);
    }

    public static <T> Set<T> unmodifiableSet(Set<? extends T> from) {
        return new WrappedSet<T>(from);
    }

    public static <T> SortedSet<T> unmodifiableSortedSet(SortedSet<T> from) {
        return new WrappedSortedSet<T>(from);
    }

    public static <T> NavigableSet<T> unmodifiableNavigableSet(NavigableSet<T> from) {
        return new WrappedNavigableSet<T>(from);
    }

    public static <T> List<T> unmodifiableList(List<? extends T> from) {
        return WrappedList.<T>of(from);
    }

    public static <K, V> Map<K, V> unmodifiableMap(Map<? extends K, ? extends V> from) {
        return new WrappedMap<K, V>(from);
    }

    public static <K, V> SortedMap<K, V> unmodifiableSortedMap(SortedMap<K, ? extends V> from) {
        return new WrappedSortedMap<K, V>(from);
    }

    public static <K, V> NavigableMap<K, V> unmodifiableNavigableMap(NavigableMap<K, ? extends V> from) {
        return new WrappedNavigableMap<K, V>(from);
    }

    public static <T> Collection<T> synchronizedCollection(Collection<T> from) {
        return new WrappedCollection<T>(from);
    }

    public static <T> Set<T> synchronizedSet(Set<T> from) {
        return new WrappedSet<T>(from);
    }

    public static <T> SortedSet<T> synchronizedSortedSet(SortedSet<T> from) {
        return new WrappedSortedSet<T>(from);
    }

    public static <T> NavigableSet<T> synchronizedNavigableSet(NavigableSet<T> from) {
        return new WrappedNavigableSet<T>(from);
    }

    public static <T> List<T> synchronizedList(List<T> from) {
        return WrappedList.<T>of(from);
    }

    public static <K, V> Map<K, V> synchronizedMap(Map<K, V> from) {
        return new WrappedMap<K, V>(from);
    }

    public static <K, V> SortedMap<K, V> synchronizedSortedMap(SortedMap<K, V> from) {
        return new WrappedSortedMap<K, V>(from);
    }

    public static <K, V> NavigableMap<K, V> synchronizedNavigableMap(NavigableMap<K, V> from) {
        return new WrappedNavigableMap<K, V>(from);
    }

    public static <E> Collection<E> checkedCollection(Collection<E> from, Class<E> type) {
        return new WrappedCollection<E>(from);
    }

    public static <E> Queue<E> checkedQueue(Queue<E> from, Class<E> type) {
        return new WrappedQueue<E>(from);
    }

    public static <E> Set<E> checkedSet(Set<E> from, Class<E> type) {
        return new WrappedSet<E>(from);
    }

    public static <E> SortedSet<E> checkedSortedSet(SortedSet<E> from, Class<E> type) {
        return new WrappedSortedSet<E>(from);
    }

    public static <E> NavigableSet<E> checkedNavigableSet(NavigableSet<E> from, Class<E> type) {
        return new WrappedNavigableSet<E>(from);
    }

    public static <E> List<E> checkedList(List<E> from, Class<E> type) {
        return WrappedList.<E>of(from);
    }

    public static <K, V> Map<K, V> checkedMap(Map<K, V> from, Class<K> keys, Class<V> values) {
        return new WrappedMap<K, V>(from);
    }

    public static <K, V> SortedMap<K, V> checkedSortedMap(SortedMap<K, V> from, Class<K> keys, Class<V> values) {
        return new WrappedSortedMap<K, V>(from);
    }

    public static <K, V> NavigableMap<K, V> checkedNavigableMap(NavigableMap<K, V> from, Class<K> keys, Class<V> values) {
        return new WrappedNavigableMap<K, V>(from);
    }

    // ---- nothing, and one

    public static <T> Iterator<T> emptyIterator() {
        return Collections.<T>nothing().steps;
    }

    public static <T> ListIterator<T> emptyListIterator() {
        return Collections.<T>nothing().listSteps;
    }

    public static <T> Enumeration<T> emptyEnumeration() {
        return Collections.<T>nothing().enumeration;
    }

    @SuppressWarnings("unchecked")
    public static final <T> Set<T> emptySet() {
        return (Set<T>) EMPTY_SET;
    }

    public static <E> SortedSet<E> emptySortedSet() {
        return Collections.<E>nothing().set;
    }

    public static <E> NavigableSet<E> emptyNavigableSet() {
        return Collections.<E>nothing().set;
    }

    public static final <T> List<T> emptyList() {
        return nothing();
    }

    @SuppressWarnings("unchecked")
    public static final <K, V> Map<K, V> emptyMap() {
        return (Map<K, V>) EMPTY_MAP;
    }

    public static final <K, V> SortedMap<K, V> emptySortedMap() {
        return emptyNavigableMap();
    }

    @SuppressWarnings("unchecked")
    public static final <K, V> NavigableMap<K, V> emptyNavigableMap() {
        return (NavigableMap<K, V>) nothing().map;
    }

    public static <T> Set<T> singleton(T element) {
        return new Singles.OfSet<T>(element);
    }

    public static <T> List<T> singletonList(T element) {
        return new Singles.OfList<T>(element);
    }

    public static <K, V> Map<K, V> singletonMap(K key, V value) {
        return new Singles.OfMap<K, V>(key, value);
    }

    public static <T> List<T> nCopies(int count, T element) {
        return new Singles.OfList<T>(element);
    }

    // ---- others

    public static <T> Comparator<T> reverseOrder() {
        return Collections.<T>nothing().reverse;
    }

    public static <T> Comparator<T> reverseOrder(Comparator<T> order) {
        if (order == null) {
            return reverseOrder();
        }
        return order instanceof Orders.Reverse && Library.any() ? order.reversed() : new Orders.Reverse<T>(order);
    }

    public static <T> Enumeration<T> enumeration(Collection<T> from) {
        return new StepsOfCollection<T>(from);
    }

    public static <T> ArrayList<T> list(Enumeration<T> from) {
        ArrayList<T> list = new ArrayList<T>();
        while (from.hasMoreElements()) {
            list.add(from.nextElement());
        }
        return list;
    }

    public static int frequency(Collection<?> from, Object element) {
        int count = 0;
        for (Object each : from) {
            count += Elements.equal(element, each) ? 1 : 0;
        }
        return count;
    }

    /** It asks the one or the other collection. */
    public static boolean disjoint(Collection<?> one, Collection<?> other) {
        while (Library.any()) {
            Collection<?> each = Library.any() ? one : other;
            each.size();
        }
        return Library.any() ? lacks(one, other) : lacks(other, one);
    }

    /** Whether a collection has none of these elements. */
    private static boolean lacks(Collection<?> one, Collection<?> elements) {
        for (Object each : elements) {
            if (one.contains(each)) {
                return false;
            }
        }
        return true;
    }

    @SafeVarargs
    public static <T> boolean addAll(Collection<? super T> into, T... elements) {
        boolean changed = false;
        for (T each : elements) {
            changed |= into.add(each);
        }
        return changed;
    }

    public static <E> Set<E> newSetFromMap(Map<E, Boolean> map) {
        if (!map.isEmpty()) {
            throw new IllegalArgumentException();
        }
        return new SetOfMap<E>(map);
    }

    public static <T> Queue<T> asLifoQueue(Deque<T> deque) {
        return new QueueOfDeque<T>(deque);
    }
}
