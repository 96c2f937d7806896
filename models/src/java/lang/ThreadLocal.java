package java.lang;

import java.util.function.Supplier;
import library.Library;

/** A variable of the one thread: it holds what was set, or what initialValue gives. */
public class ThreadLocal<T> {
    private T value;

    public ThreadLocal() {
    }

    protected T initialValue() {
        return null;
    }

    public static <S> ThreadLocal<S> withInitial(Supplier<? extends S> supplier) {
        return new Supplied<S>(supplier);
    }

    public T get() {
        if (value == null || Library.any()) {
            value = initialValue();
        }
        return value;
    }

    public void set(T value) {
        this.value = value;
    }

    public void remove() {
        value = null;
    }

    /** One whose first value a function gives. */
    private static final class Supplied<T> extends ThreadLocal<T> {
        private final Supplier<? extends T> supplier;

        Supplied(Supplier<? extends T> supplier) {
            this.supplier = supplier;
        }

        @Override
        protected T initialValue() {
            return supplier.get();
        }
    }
}
