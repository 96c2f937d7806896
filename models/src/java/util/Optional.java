package java.util;

import java.util.function.Consumer;
import java.util.function.Function;
import java.util.function.Predicate;
import java.util.function.Supplier;
import library.Elements;
import library.Library;

/** A value that may be missing. More than in the library: each empty one is a new one. */
public final class Optional<T> {
    private final T value;

    private Optional(T value) {
        this.value = value;
    }

    public static <T> Optional<T> empty() {
        return new Optional<T>(null);
    }

    public static <T> Optional<T> of(T value) {
        if (value == null) {
            throw new NullPointerException();
        }
        return new Optional<T>(value);
    }

    public static <T> Optional<T> ofNullable(T value) {
        return new Optional<T>(value);
    }

    /** One that the library made without the constructor, as a stream does, gives what was kept. */
    private T value() {
        return value == null && Library.any() ? Elements.<T>kept() : value;
    }

    public T get() {
        T found = value();
        if (found == null) {
            throw new NoSuchElementException();
        }
        return found;
    }

    public boolean isPresent() {
        return value() != null;
    }

    public void ifPresent(Consumer<? super T> action) {
        T found = value();
        if (found != null) {
            action.accept(found);
        }
    }

    public Optional<T> filter(Predicate<? super T> filter) {
        T found = value();
        return found == null || filter.test(found) ? this : Optional.<T>empty();
    }

    public <U> Optional<U> map(Function<? super T, ? extends U> function) {
        T found = value();
        return found == null ? Optional.<U>empty() : Optional.<U>ofNullable(function.apply(found));
    }

    public <U> Optional<U> flatMap(Function<? super T, Optional<U>> function) {
        T found = value();
        Optional<U> other = found == null ? Optional.<U>empty() : function.apply(found);
        if (other == null) {
            throw new NullPointerException();
        }
        return other;
    }

    public T orElse(T other) {
        T found = value();
        return found == null ? other : found;
    }

    public T orElseGet(Supplier<? extends T> other) {
        T found = value();
        return found == null ? other.get() : found;
    }

    public <X extends Throwable> T orElseThrow(Supplier<? extends X> fault) throws X {
        T found = value();
        if (found == null) {
            throw fault.get();
        }
        return found;
    }

    /** A new formatter of the library. */
    private static native Formatter formatter();

    @Override
    public boolean equals(Object other) {
        return this == other || other instanceof Optional && Objects.equals(value(), ((Optional<?>) other).value());
    }

    @Override
    public int hashCode() {
        return Elements.hash(value());
    }

    @Override
    public String toString() {
        T found = value();
        if (found instanceof Formattable) {
            ((Formattable) found).formatTo(formatter(), Library.number(), Library.number(), Library.number());
        }
        return Elements.text(found);
    }
}
