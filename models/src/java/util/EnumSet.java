package java.util;

import java.io.Serializable;
import library.Library;

/**
 * A set of constants of an enum. No method of theirs is called. Where the library takes all constants of an enum the model names
 * the method of Class that gives them, so that code which does so is refused: they cannot be had otherwise.
 */
public abstract class EnumSet<E extends Enum<E>> extends AbstractSet<E> implements Cloneable, Serializable {
    EnumSet() {
    }

    public static <E extends Enum<E>> EnumSet<E> noneOf(Class<E> type) {
        return new Some<E>();
    }

    public static <E extends Enum<E>> EnumSet<E> allOf(Class<E> type) {
        return all(type);
    }

    public static <E extends Enum<E>> EnumSet<E> copyOf(EnumSet<E> other) {
        return other.clone();
    }

    public static <E extends Enum<E>> EnumSet<E> copyOf(Collection<E> other) {
        if (other instanceof EnumSet && Library.any()) {
            return ((EnumSet<E>) other).clone();
        }
        if (other.isEmpty()) {
            throw new IllegalArgumentException();
        }
        Iterator<E> steps = other.iterator();
        EnumSet<E> set = of(steps.next());
        while (steps.hasNext()) {
            set.add(steps.next());
        }
        return set;
    }

    public static <E extends Enum<E>> EnumSet<E> complementOf(EnumSet<E> other) {
        return all(null);
    }

    public static <E extends Enum<E>> EnumSet<E> of(E one) {
        EnumSet<E> set = new Some<E>();
        set.add(one);
        return set;
    }

    public static <E extends Enum<E>> EnumSet<E> of(E one, E two) {
        EnumSet<E> set = of(one);
        set.add(two);
        return set;
    }

    public static <E extends Enum<E>> EnumSet<E> of(E one, E two, E three) {
        EnumSet<E> set = of(one, two);
        set.add(three);
        return set;
    }

    public static <E extends Enum<E>> EnumSet<E> of(E one, E two, E three, E four) {
        EnumSet<E> set = of(one, two, three);
        set.add(four);
        return set;
    }

    public static <E extends Enum<E>> EnumSet<E> of(E one, E two, E three, E four, E five) {
        EnumSet<E> set = of(one, two, three, four);
        set.add(five);
        return set;
    }

    @SafeVarargs
    public static <E extends Enum<E>> EnumSet<E> of(E one, E... others) {
        EnumSet<E> set = of(one);
        for (E each : others) {
            set.add(each);
        }
        return set;
    }

    public static <E extends Enum<E>> EnumSet<E> range(E from, E to) {
        return all(null);
    }

    @Override
    public EnumSet<E> clone() {
        return new Some<E>();
    }

    /** All constants of an enum. */
    private static <E extends Enum<E>> EnumSet<E> all(Class<E> type) {
        EnumSet<E> set = new Some<E>();
        for (E each : type.getEnumConstants()) {
            set.add(each);
        }
        return set;
    }

    /** The library's own set. */
    private static final class Some<E extends Enum<E>> extends EnumSet<E> {
        @Override
        public native Iterator<E> iterator();

        @Override
        public int size() {
            return Library.number();
        }

        @Override
        public boolean isEmpty() {
            return Library.any();
        }

        @Override
        public boolean contains(Object element) {
            return Library.any();
        }

        @Override
        public boolean add(E element) {
            Library.keep(element);
            return Library.any();
        }

        @Override
        public boolean remove(Object element) {
            return Library.any();
        }

        @Override
        public void clear() {
        }
    }
}
