package java.util;

import java.util.function.Function;
import java.util.function.ToDoubleFunction;
import java.util.function.ToIntFunction;
import java.util.function.ToLongFunction;
import library.Orders;

/** An order of objects. The comparators that are made of others are classes of library.Orders. */
public interface Comparator<T> {
    int compare(T one, T other);

    @Override
    boolean equals(Object other);

    default Comparator<T> reversed() {
        return Collections.reverseOrder(this);
    }

    default Comparator<T> thenComparing(Comparator<? super T> next) {
        return new Orders.Then<T>(this, next);
    }

    default <U> Comparator<T> thenComparing(Function<? super T, ? extends U> key, Comparator<? super U> order) {
        return thenComparing(comparing(key, order));
    }

    default <U extends Comparable<? super U>> Comparator<T> thenComparing(Function<? super T, ? extends U> key) {
        return thenComparing(comparing(key));
    }

    default Comparator<T> thenComparingInt(ToIntFunction<? super T> key) {
        return thenComparing(comparingInt(key));
    }

    default Comparator<T> thenComparingLong(ToLongFunction<? super T> key) {
        return thenComparing(comparingLong(key));
    }

    default Comparator<T> thenComparingDouble(ToDoubleFunction<? super T> key) {
        return thenComparing(comparingDouble(key));
    }

    static <T extends Comparable<? super T>> Comparator<T> reverseOrder() {
        return Collections.reverseOrder();
    }

    static <T extends Comparable<? super T>> Comparator<T> naturalOrder() {
        return Collections.<T>nothing().natural;
    }

    static <T> Comparator<T> nullsFirst(Comparator<? super T> order) {
        return new Orders.Nulls<T>(order);
    }

    static <T> Comparator<T> nullsLast(Comparator<? super T> order) {
        return new Orders.Nulls<T>(order);
    }

    static <T, U> Comparator<T> comparing(Function<? super T, ? extends U> key, Comparator<? super U> order) {
        return new Orders.By<T, U>(key, order);
    }

    static <T, U extends Comparable<? super U>> Comparator<T> comparing(Function<? super T, ? extends U> key) {
        return new Orders.By<T, U>(key, null);
    }

    static <T> Comparator<T> comparingInt(ToIntFunction<? super T> key) {
        return new Orders.ByInt<T>(key);
    }

    static <T> Comparator<T> comparingLong(ToLongFunction<? super T> key) {
        return new Orders.ByLong<T>(key);
    }

    static <T> Comparator<T> comparingDouble(ToDoubleFunction<? super T> key) {
        return new Orders.ByDouble<T>(key);
    }
}
