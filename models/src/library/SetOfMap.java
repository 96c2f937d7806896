package library;

import java.util.Collection;
import java.util.Iterator;
import java.util.Map;

/** A set of the keys of a map that may be one of the user. */
public final class SetOfMap<E> extends WrappedSet<E> {
    private final Map<E, Boolean> map;

    public SetOfMap(Map<E, Boolean> map) {
        super(map.keySet());
        this.map = map;
    }

    @Override
    public void clear() {
        map.clear();
    }

    @Override
    public int size() {
        return map.size();
    }

    @Override
    public boolean isEmpty() {
        return map.isEmpty();
    }

    @Override
    public boolean contains(Object element) {
        return map.containsKey(element);
    }

    @Override
    public boolean remove(Object element) {
        return map.remove(element) != null;
    }

    @Override
    public boolean add(E element) {
        return map.put(element, Boolean.TRUE) == null;
    }

    @Override
    public boolean addAll(Collection<? extends E> other) {
        boolean changed = false;
        for (E each : other) {
            changed |= add(each);
        }
        return changed;
    }

    @Override
    public Iterator<E> iterator() {
        return target.iterator();
    }
}
