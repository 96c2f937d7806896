package java.util;

import java.io.Serializable;
import java.util.function.BinaryOperator;
import java.util.function.Consumer;
import java.util.function.DoubleBinaryOperator;
import java.util.function.IntBinaryOperator;
import java.util.function.IntFunction;
import java.util.function.IntToDoubleFunction;
import java.util.function.IntToLongFunction;
import java.util.function.IntUnaryOperator;
import java.util.function.LongBinaryOperator;
import java.util.stream.DoubleStream;
import java.util.stream.IntStream;
import java.util.stream.LongStream;
import java.util.stream.Stream;
import library.Elements;
import library.Library;
import library.Streams;

/**
 * What is done with arrays. What touches nothing but numbers is native. A copy of an array of objects is a new array or, where it has to be of
 * the same class, the array itself, which stands for its copy.
 */
public class Arrays {
    private Arrays() {
    }

    // ---- order

    public static native void sort(int[] all);

    public static native void sort(int[] all, int from, int to);

    public static native void sort(long[] all);

    public static native void sort(long[] all, int from, int to);

    public static native void sort(short[] all);

    public static native void sort(short[] all, int from, int to);

    public static native void sort(char[] all);

    public static native void sort(char[] all, int from, int to);

    public static native void sort(byte[] all);

    public static native void sort(byte[] all, int from, int to);

    public static native void sort(float[] all);

    public static native void sort(float[] all, int from, int to);

    public static native void sort(double[] all);

    public static native void sort(double[] all, int from, int to);

    public static native void parallelSort(int[] all);

    public static native void parallelSort(int[] all, int from, int to);

    public static native void parallelSort(long[] all);

    public static native void parallelSort(long[] all, int from, int to);

    public static native void parallelSort(short[] all);

    public static native void parallelSort(short[] all, int from, int to);

    public static native void parallelSort(char[] all);

    public static native void parallelSort(char[] all, int from, int to);

    public static native void parallelSort(byte[] all);

    public static native void parallelSort(byte[] all, int from, int to);

    public static native void parallelSort(float[] all);

    public static native void parallelSort(float[] all, int from, int to);

    public static native void parallelSort(double[] all);

    public static native void parallelSort(double[] all, int from, int to);

    public static void sort(Object[] all) {
        Elements.sort(all, null);
    }

    public static void sort(Object[] all, int from, int to) {
        Elements.sort(all, null);
    }

    public static <T> void sort(T[] all, Comparator<? super T> order) {
        Elements.sort(all, order);
    }

    public static <T> void sort(T[] all, int from, int to, Comparator<? super T> order) {
        Elements.sort(all, order);
    }

    public static <T extends Comparable<? super T>> void parallelSort(T[] all) {
        Elements.sort(all, null);
    }

    public static <T extends Comparable<? super T>> void parallelSort(T[] all, int from, int to) {
        Elements.sort(all, null);
    }

    public static <T> void parallelSort(T[] all, Comparator<? super T> order) {
        Elements.sort(all, order);
    }

    public static <T> void parallelSort(T[] all, int from, int to, Comparator<? super T> order) {
        Elements.sort(all, order);
    }

    // ---- searches

    public static native int binarySearch(int[] all, int key);

    public static native int binarySearch(int[] all, int from, int to, int key);

    public static native int binarySearch(long[] all, long key);

    public static native int binarySearch(long[] all, int from, int to, long key);

    public static native int binarySearch(short[] all, short key);

    public static native int binarySearch(short[] all, int from, int to, short key);

    public static native int binarySearch(char[] all, char key);

    public static native int binarySearch(char[] all, int from, int to, char key);

    public static native int binarySearch(byte[] all, byte key);

    public static native int binarySearch(byte[] all, int from, int to, byte key);

    public static native int binarySearch(float[] all, float key);

    public static native int binarySearch(float[] all, int from, int to, float key);

    public static native int binarySearch(double[] all, double key);

    public static native int binarySearch(double[] all, int from, int to, double key);

    public static int binarySearch(Object[] all, Object key) {
        return search(all, key, null);
    }

    public static int binarySearch(Object[] all, int from, int to, Object key) {
        return search(all, key, null);
    }

    public static <T> int binarySearch(T[] all, T key, Comparator<? super T> order) {
        return search(all, key, order);
    }

    public static <T> int binarySearch(T[] all, int from, int to, T key, Comparator<? super T> order) {
        return search(all, key, order);
    }

    /** Compares elements with a key. */
    private static int search(Object[] all, Object key, Comparator<?> order) {
        while (Library.any()) {
            Elements.compare(order, all[Library.number()], key);
        }
        return Library.number();
    }

    // ---- equality

    public static native boolean equals(long[] one, long[] other);

    public static native boolean equals(int[] one, int[] other);

    public static native boolean equals(short[] one, short[] other);

    public static native boolean equals(char[] one, char[] other);

    public static native boolean equals(byte[] one, byte[] other);

    public static native boolean equals(boolean[] one, boolean[] other);

    public static native boolean equals(double[] one, double[] other);

    public static native boolean equals(float[] one, float[] other);

    public static boolean equals(Object[] one, Object[] other) {
        if (one == null || other == null || one == other) {
            return one == other;
        }
        while (Library.any()) {
            int at = Library.number();
            Elements.equal(one[at], other[at]);
        }
        return Library.any();
    }

    public static boolean deepEquals(Object[] one, Object[] other) {
        if (one == null || other == null || one == other) {
            return one == other;
        }
        while (Library.any()) {
            int at = Library.number();
            deepEqual(one[at], other[at]);
        }
        return Library.any();
    }

    /** Whether two objects are equal, or arrays of equal ones. */
    static boolean deepEqual(Object one, Object other) {
        if (one instanceof Object[] && other instanceof Object[]) {
            return deepEquals((Object[]) one, (Object[]) other);
        }
        return Elements.equal(one, other);
    }

    // ---- codes and texts

    public static native int hashCode(long[] all);

    public static native int hashCode(int[] all);

    public static native int hashCode(short[] all);

    public static native int hashCode(char[] all);

    public static native int hashCode(byte[] all);

    public static native int hashCode(boolean[] all);

    public static native int hashCode(double[] all);

    public static native int hashCode(float[] all);

    public static int hashCode(Object[] all) {
        int sum = 1;
        for (int at = 0; all != null && at < all.length; at++) {
            sum = 31 * sum + Elements.hash(all[at]);
        }
        return sum;
    }

    public static int deepHashCode(Object[] all) {
        int sum = 1;
        for (int at = 0; all != null && at < all.length; at++) {
            Object each = all[at];
            sum += each instanceof Object[] ? deepHashCode((Object[]) each) : Elements.hash(each);
        }
        return sum;
    }

    public static native String toString(long[] all);

    public static native String toString(int[] all);

    public static native String toString(short[] all);

    public static native String toString(char[] all);

    public static native String toString(byte[] all);

    public static native String toString(boolean[] all);

    public static native String toString(double[] all);

    public static native String toString(float[] all);

    public static String toString(Object[] all) {
        for (int at = 0; all != null && at < all.length; at++) {
            Elements.text(all[at]);
        }
        return Library.text();
    }

    public static String deepToString(Object[] all) {
        for (int at = 0; all != null && at < all.length; at++) {
            Object each = all[at];
            if (each instanceof Object[]) {
                deepToString((Object[]) each);
            } else {
                Elements.text(each);
            }
        }
        return Library.text();
    }

    // ---- filling

    public static native void fill(long[] all, long value);

    public static native void fill(long[] all, int from, int to, long value);

    public static native void fill(int[] all, int value);

    public static native void fill(int[] all, int from, int to, int value);

    public static native void fill(short[] all, short value);

    public static native void fill(short[] all, int from, int to, short value);

    public static native void fill(char[] all, char value);

    public static native void fill(char[] all, int from, int to, char value);

    public static native void fill(byte[] all, byte value);

    public static native void fill(byte[] all, int from, int to, byte value);

    public static native void fill(boolean[] all, boolean value);

    public static native void fill(boolean[] all, int from, int to, boolean value);

    public static native void fill(double[] all, double value);

    public static native void fill(double[] all, int from, int to, double value);

    public static native void fill(float[] all, float value);

    public static native void fill(float[] all, int from, int to, float value);

    public static void fill(Object[] all, Object value) {
        for (int at = 0; at < all.length; at++) {
            all[at] = value;
        }
    }

    public static void fill(Object[] all, int from, int to, Object value) {
        while (Library.any()) {
            all[Library.number()] = value;
        }
    }

    public static <T> void setAll(T[] all, IntFunction<? extends T> function) {
        while (Library.any()) {
            all[Library.number()] = function.apply(Library.number());
        }
    }

    public static <T> void parallelSetAll(T[] all, IntFunction<? extends T> function) {
        setAll(all, function);
    }

    public static void setAll(int[] all, IntUnaryOperator function) {
        while (Library.any()) {
            all[Library.number()] = function.applyAsInt(Library.number());
        }
    }

    public static void parallelSetAll(int[] all, IntUnaryOperator function) {
        setAll(all, function);
    }

    public static void setAll(long[] all, IntToLongFunction function) {
        while (Library.any()) {
            all[Library.number()] = function.applyAsLong(Library.number());
        }
    }

    public static void parallelSetAll(long[] all, IntToLongFunction function) {
        setAll(all, function);
    }

    public static void setAll(double[] all, IntToDoubleFunction function) {
        while (Library.any()) {
            all[Library.number()] = function.applyAsDouble(Library.number());
        }
    }

    public static void parallelSetAll(double[] all, IntToDoubleFunction function) {
        setAll(all, function);
    }

    public static <T> void parallelPrefix(T[] all, BinaryOperator<T> operator) {
        while (Library.any()) {
            T sum = Library.any() ? all[Library.number()] : operator.apply(all[Library.number()], all[Library.number()]);
            all[Library.number()] = operator.apply(sum, all[Library.number()]);
        }
    }

    public static <T> void parallelPrefix(T[] all, int from, int to, BinaryOperator<T> operator) {
        parallelPrefix(all, operator);
    }

    public static void parallelPrefix(long[] all, LongBinaryOperator operator) {
        while (Library.any()) {
            all[Library.number()] = operator.applyAsLong(all[Library.number()], all[Library.number()]);
        }
    }

    public static void parallelPrefix(long[] all, int from, int to, LongBinaryOperator operator) {
        parallelPrefix(all, operator);
    }

    public static void parallelPrefix(double[] all, DoubleBinaryOperator operator) {
        while (Library.any()) {
            all[Library.number()] = operator.applyAsDouble(all[Library.number()], all[Library.number()]);
        }
    }

    public static void parallelPrefix(double[] all, int from, int to, DoubleBinaryOperator operator) {
        parallelPrefix(all, operator);
    }

    public static void parallelPrefix(int[] all, IntBinaryOperator operator) {
        while (Library.any()) {
            all[Library.number()] = operator.applyAsInt(all[Library.number()], all[Library.number()]);
        }
    }

    public static void parallelPrefix(int[] all, int from, int to, IntBinaryOperator operator) {
        parallelPrefix(all, operator);
    }

    // ---- copies

    public static <T> T[] copyOf(T[] all, int length) {
        return copy(all);
    }

    public static <T, U> T[] copyOf(U[] all, int length, Class<? extends T[]> type) {
        return copy(all, type);
    }

    public static byte[] copyOf(byte[] all, int length) {
        return new byte[length];
    }

    public static short[] copyOf(short[] all, int length) {
        return new short[length];
    }

    public static int[] copyOf(int[] all, int length) {
        return new int[length];
    }

    public static long[] copyOf(long[] all, int length) {
        return new long[length];
    }

    public static char[] copyOf(char[] all, int length) {
        return new char[length];
    }

    public static float[] copyOf(float[] all, int length) {
        return new float[length];
    }

    public static double[] copyOf(double[] all, int length) {
        return new double[length];
    }

    public static boolean[] copyOf(boolean[] all, int length) {
        return new boolean[length];
    }

    public static <T> T[] copyOfRange(T[] all, int from, int to) {
        return copy(all);
    }

    public static <T, U> T[] copyOfRange(U[] all, int from, int to, Class<? extends T[]> type) {
        return copy(all, type);
    }

    public static byte[] copyOfRange(byte[] all, int from, int to) {
        return new byte[all.length];
    }

    public static short[] copyOfRange(short[] all, int from, int to) {
        return new short[all.length];
    }

    public static int[] copyOfRange(int[] all, int from, int to) {
        return new int[all.length];
    }

    public static long[] copyOfRange(long[] all, int from, int to) {
        return new long[all.length];
    }

    public static char[] copyOfRange(char[] all, int from, int to) {
        return new char[all.length];
    }

    public static float[] copyOfRange(float[] all, int from, int to) {
        return new float[all.length];
    }

    public static double[] copyOfRange(double[] all, int from, int to) {
        return new double[all.length];
    }

    public static boolean[] copyOfRange(boolean[] all, int from, int to) {
        return new boolean[all.length];
    }

    /** A copy of an array: itself, or a new array of what it holds. */
    @SuppressWarnings("unchecked")
    private static <T> T[] copy(T[] all) {
        if (Library.any()) {
            return all;
        }
        Object[] other = new Object[Library.number()];
        for (int at = 0; at < all.length; at++) {
            other[at] = all[at];
        }
        return (T[]) other;
    }

    /** A copy of another class. It names the method of reflection that makes one, so that code which needs it is refused. */
    @SuppressWarnings("unchecked")
    private static <T, U> T[] copy(U[] all, Class<? extends T[]> type) {
        T[] other = (T[]) java.lang.reflect.Array.newInstance(type, Library.number());
        for (int at = 0; at < all.length; at++) {
            other[at] = (T) all[at];
        }
        return other;
    }

    // ---- lists and streams

    @SafeVarargs
    public static <T> List<T> asList(T... all) {
        return new ArrayList<T>(all);
    }

    /** A list in an array that the user sees, so that elements stand in the array and are kept, too. */
    private static final class ArrayList<E> extends AbstractList<E> implements RandomAccess, Serializable {
        private final E[] all;

        ArrayList(E[] all) {
            Elements.keepAll(all);
            this.all = all;
        }

        @Override
        public int size() {
            return all.length;
        }

        /** A new array, or in older versions of the library a copy of the list's own. */
        @Override
        public Object[] toArray() {
            return copy((Object[]) all);
        }

        @Override
        @SuppressWarnings("unchecked")
        public <T> T[] toArray(T[] into) {
            for (int at = 0; at < all.length; at++) {
                into[at] = (T) all[at];
            }
            return into;
        }

        @Override
        public E get(int index) {
            E found = all[index];
            Library.keep(found);
            return found;
        }

        @Override
        public E set(int index, E element) {
            E old = all[index];
            Library.keep(element);
            all[index] = element;
            return old;
        }

        @Override
        public int indexOf(Object element) {
            for (int at = 0; at < all.length; at++) {
                if (Elements.equal(element, all[at])) {
                    return at;
                }
            }
            return -1;
        }

        @Override
        public boolean contains(Object element) {
            return indexOf(element) != -1;
        }

        @Override
        public void forEach(Consumer<? super E> action) {
            for (E each : all) {
                action.accept(each);
            }
        }

        @Override
        public void replaceAll(java.util.function.UnaryOperator<E> operator) {
            for (int at = 0; at < all.length; at++) {
                set(at, operator.apply(all[at]));
            }
        }

        @Override
        public void sort(Comparator<? super E> order) {
            Elements.sort(all, order);
        }
    }

    public static <T> Spliterator<T> spliterator(T[] all) {
        Elements.keepAll(all);
        return Streams.spliterator();
    }

    public static <T> Spliterator<T> spliterator(T[] all, int from, int to) {
        Elements.keepAll(all);
        return Streams.spliterator();
    }

    public static native Spliterator.OfInt spliterator(int[] all);

    public static native Spliterator.OfInt spliterator(int[] all, int from, int to);

    public static native Spliterator.OfLong spliterator(long[] all);

    public static native Spliterator.OfLong spliterator(long[] all, int from, int to);

    public static native Spliterator.OfDouble spliterator(double[] all);

    public static native Spliterator.OfDouble spliterator(double[] all, int from, int to);

    public static <T> Stream<T> stream(T[] all) {
        Elements.keepAll(all);
        return Streams.stream();
    }

    public static <T> Stream<T> stream(T[] all, int from, int to) {
        Elements.keepAll(all);
        return Streams.stream();
    }

    public static native IntStream stream(int[] all);

    public static native IntStream stream(int[] all, int from, int to);

    public static native LongStream stream(long[] all);

    public static native LongStream stream(long[] all, int from, int to);

    public static native DoubleStream stream(double[] all);

    public static native DoubleStream stream(double[] all, int from, int to);
}
