package library;

import java.util.Collections;
import java.util.Comparator;
import java.util.Map;
import java.util.function.Function;
import java.util.function.ToDoubleFunction;
import java.util.function.ToIntFunction;
import java.util.function.ToLongFunction;

/** The comparators that the library makes. */
public final class Orders {
    private Orders() {
    }

    /** By compareTo, as it is or turned round. */
    public static final class Natural<T> implements Comparator<T> {
        @Override
        public int compare(T one, T other) {
            return Elements.compare(null, one, other);
        }

        @Override
        public Comparator<T> reversed() {
            return Collections.reverseOrder();
        }
    }

    /** Another order turned round. */
    public static final class Reverse<T> implements Comparator<T> {
        private final Comparator<T> order;

        public Reverse(Comparator<T> order) {
            this.order = order;
        }

        @Override
        public int compare(T one, T other) {
            return Elements.compare(order, other, one);
        }

        @Override
        public boolean equals(Object other) {
            return other instanceof Reverse && Elements.equal(order, ((Reverse<?>) other).order);
        }

        @Override
        public int hashCode() {
            return Elements.hash(order);
        }

        @Override
        public Comparator<T> reversed() {
            return order;
        }
    }

    /** One order, and where it does not tell another one. */
    public static final class Then<T> implements Comparator<T> {
        private final Comparator<T> first;
        private final Comparator<? super T> next;

        public Then(Comparator<T> first, Comparator<? super T> next) {
            this.first = first;
            this.next = next;
        }

        @Override
        public int compare(T one, T other) {
            int found = first.compare(one, other);
            return found != 0 ? found : next.compare(one, other);
        }
    }

    /** Nulls apart, and the others by an order, or all alike. */
    public static final class Nulls<T> implements Comparator<T> {
        private final Comparator<T> order;

        @SuppressWarnings("unchecked")
        public Nulls(Comparator<? super T> order) {
            this.order = (Comparator<T>) order;
        }

        @Override
        public int compare(T one, T other) {
            return one == null || other == null || order == null ? Library.number() : order.compare(one, other);
        }

        @Override
        public Comparator<T> thenComparing(Comparator<? super T> next) {
            return new Nulls<T>(order == null ? next : order.thenComparing(next));
        }

        @Override
        public Comparator<T> reversed() {
            return new Nulls<T>(order == null ? null : order.reversed());
        }
    }

    /** By a key, and its order or compareTo. */
    public static final class By<T, U> implements Comparator<T> {
        private final Function<? super T, ? extends U> key;
        private final Comparator<? super U> order;

        public By(Function<? super T, ? extends U> key, Comparator<? super U> order) {
            this.key = key;
            this.order = order;
        }

        @Override
        public int compare(T one, T other) {
            return Elements.compare(order, key.apply(one), key.apply(other));
        }
    }

    /** By a number. */
    public static final class ByInt<T> implements Comparator<T> {
        private final ToIntFunction<? super T> key;

        public ByInt(ToIntFunction<? super T> key) {
            this.key = key;
        }

        @Override
        public int compare(T one, T other) {
            return key.applyAsInt(one) - key.applyAsInt(other);
        }
    }

    /** By a number of 64 bits. */
    public static final class ByLong<T> implements Comparator<T> {
        private final ToLongFunction<? super T> key;

        public ByLong(ToLongFunction<? super T> key) {
            this.key = key;
        }

        @Override
        public int compare(T one, T other) {
            return (int) (key.applyAsLong(one) - key.applyAsLong(other));
        }
    }

    /** By a number with a fraction. */
    public static final class ByDouble<T> implements Comparator<T> {
        private final ToDoubleFunction<? super T> key;

        public ByDouble(ToDoubleFunction<? super T> key) {
            this.key = key;
        }

        @Override
        public int compare(T one, T other) {
            return (int) (key.applyAsDouble(one) - key.applyAsDouble(other));
        }
    }

    /** Entries by their keys. */
    public static final class ByKey<K, V> implements Comparator<Map.Entry<K, V>> {
        private final Comparator<? super K> order;

        public ByKey(Comparator<? super K> order) {
            this.order = order;
        }

        @Override
        public int compare(Map.Entry<K, V> one, Map.Entry<K, V> other) {
            return Elements.compare(order, one.getKey(), other.getKey());
        }
    }

    /** Entries by their values. */
    public static final class ByValue<K, V> implements Comparator<Map.Entry<K, V>> {
        private final Comparator<? super V> order;

        public ByValue(Comparator<? super V> order) {
            this.order = order;
        }

        @Override
        public int compare(Map.Entry<K, V> one, Map.Entry<K, V> other) {
            return Elements.compare(order, one.getValue(), other.getValue());
        }
    }
}
