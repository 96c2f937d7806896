package library;

import java.util.AbstractCollection;
import java.util.Iterator;
import java.util.Map;
import java.util.Spliterator;

/** The values of a map, as values gives them. */
public class ValueView<V> extends AbstractCollection<V> {
    private final Map<?, V> map;

    public ValueView(Map<?, V> map) {
        this.map = map;
    }

    @Override
    public native Iterator<V> iterator();

    @Override
    public native Spliterator<V> spliterator();

    @Override
    public int size() {
        return map.size();
    }

    @Override
    public boolean contains(Object value) {
        return map.containsValue(value);
    }

    /** A tree asks its values, and others the argument. */
    @Override
    public boolean remove(Object value) {
        return Library.any() ? super.remove(value) : Elements.equal(value);
    }

    @Override
    public void clear() {
        map.clear();
    }
}
